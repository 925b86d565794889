"""Frames, lines of the listing, and the table of items, as document 01 gives them. Only imported."""


# ---- frames ----------------------------------------------------------------------------------------------------------
def head(address, control, length):
    """The first ten bytes of a frame that says so many data bytes; the address in the order of the wire."""
    return [0x68] + address + [0x68, control, length]


def ended(body):
    """These bytes, from the first 68 to the last data byte, and behind them their checksum and the last byte."""
    return body + [sum(body) & 0xFF, 0x16]


def frame_around(address, control, field):
    """The bytes of a frame whose data bytes are these as they travel."""
    return ended(head(address, control, len(field)) + field)


def frame(address, control, data):
    """The bytes of a frame; data as a list of bytes in the order of the wire, not masked."""
    return frame_around(address, control, [(b + 0x33) & 0xFF for b in data])


def parse(bytes_):
    """(address, control, data) of exactly one frame, or None."""
    b = bytes_
    if len(b) < 12 or b[0] != 0x68 or b[7] != 0x68 or b[9] > 200 or len(b) != 12 + b[9]:
        return None
    if b[-1] != 0x16 or b[-2] != sum(b[:-2]) & 0xFF:
        return None
    return b[1:7], b[8], [(x - 0x33) & 0xFF for x in b[10:-2]]


def hexed(bytes_):
    """Bytes in hexadecimal, in capitals, with a blank between two."""
    return " ".join("%02X" % b for b in bytes_)


def listed(bytes_):
    """A frame as a line of the listing: address high byte first, control, data as sent."""
    address, control, data = parse(bytes_)
    words = [address[::-1], [control]] + ([data] if data else [])
    return " ".join("".join("%02X" % b for b in word) for word in words)


# ---- items -----------------------------------------------------------------------------------------------------------
def decimal(bytes_):
    """Whether every half byte is 0 to 9."""
    return all(b & 15 <= 9 and b >> 4 <= 9 for b in bytes_)


def number(b):
    """The number that a byte of two digits is."""
    return (b >> 4) * 10 + (b & 15)


def packed(n, length):
    """A number of at most twelve digits as so many bytes of packed decimal, low byte first."""
    return [int(("%012d" % n)[12 - 2 * i - 2:12 - 2 * i], 16) for i in range(length)]


def di(identifier):
    """An identifier's four bytes in the order of the wire, DI0 first."""
    return [identifier >> 8 * i & 255 for i in range(4)]


def good(address):
    """Whether an address is good: decimal, and not the broadcast address."""
    return decimal(address) and address != [0x99] * 6


# The writable items, with their lengths.
REGISTERS = {
    0x04000101: 4,
    0x04000102: 3,
    0x04000103: 1,
    0x04000104: 1,
    0x04000402: 6,
    0x04000B01: 2,
    0x04000B02: 2,
    0x04000B03: 2,
}


def item_length(identifier):
    """The length of a listed item, or None."""
    if identifier in REGISTERS:
        return REGISTERS[identifier]
    if identifier == 0x04000401:
        return 6
    s, t, direction, kind = di(identifier)
    if kind != 0 or direction not in (1, 2):
        return None
    if t <= 4 and s <= 12:
        return 4
    if t == 0xFF and s <= 12:
        return 20
    if t <= 4 and s == 0xFF:
        return 52
    return None


def in_range(identifier, v):
    """Document 01's ranges of a written value whose half bytes are all decimal."""
    n = [number(b) for b in v]
    if identifier == 0x04000101:
        weekday, day, month, _year = n
        return 1 <= month <= 12 and 1 <= day <= 31 and weekday <= 6
    if identifier == 0x04000102:
        second, minute, hour = n
        return hour <= 23 and minute <= 59 and second <= 59
    if identifier in (0x04000103, 0x04000104):
        return 1 <= n[0] <= 60
    if identifier in (0x04000B01, 0x04000B02, 0x04000B03):
        hour, day = n
        return (day == 99 and hour == 99) or (1 <= day <= 28 and hour <= 23)
    return True
