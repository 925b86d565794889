"""The calls of the script that use the reader's end: requests built, replies judged, exchanges with a meter, and a
working day. Only imported."""
from reader_model import LENT
from scripts import AA, FULL, ONE, ZERO3, ZERO4, fresh, title
from wire import di, frame, hexed

NINES = [0x99] * 6
DATE, TIME, PERIOD, SLIP = 0x04000101, 0x04000102, 0x04000103, 0x04000104
ADDRESS, NUMBER = 0x04000401, 0x04000402
DAY1, DAY2, DAY3 = 0x04000B01, 0x04000B02, 0x04000B03
TOTAL = 0x00010000

# A value to write into each writable item; the date is Monday, 2 March 2026.
VALUES = {
    DATE: [0x01, 0x02, 0x03, 0x26],
    TIME: [0x30, 0x15, 0x06],
    PERIOD: [0x30],
    SLIP: [0x05],
    NUMBER: [0x12, 0x34, 0x56, 0x78, 0x90, 0x99],
    DAY1: [0x00, 0x01],
    DAY2: [0x23, 0x28],
    DAY3: [0x99, 0x99],
}
UNLISTED = (0x00010500, 0x0001000D, 0x0001FF0D, 0x000105FF, 0x0001FFFF, 0x0002FFFF, 0x00030000, 0x02010100, 0x04000105, 0x04000B00, 0x04000BFF,
            0x04000C01, 0x04010101)


# ---- calls -----------------------------------------------------------------------------------------------------------
def ask(kind, address, identifier, level=0, password=ZERO3, operator=ZERO4, value=()):
    """The request of the calls that follow."""
    print("request " + hexed([kind] + address + di(identifier)[::-1] + [level] + password + operator + list(value)))


def ask_read(identifier=TOTAL, address=FULL):
    """A request to read."""
    ask(0x11, address, identifier)


def ask_address():
    """A request to read the address."""
    ask(0x13, AA, 0)


def ask_write(identifier=PERIOD, value=(0x30,), address=FULL, level=4, password=ZERO3, operator=ZERO4):
    """A request to write."""
    ask(0x14, address, identifier, level, password, operator, value)


def low(k, address=FULL):
    """The short address of k low bytes."""
    return address[:k] + [0xAA] * (6 - k)


def build_read(identifier=TOTAL, address=FULL):
    """A request to read, built."""
    ask_read(identifier, address)
    print("build")


def build_write(*parts, **named):
    """A request to write, built."""
    ask_write(*parts, **named)
    print("build")


def judge(bytes_):
    """A reply, in bytes, judged against the request."""
    print(("judge " + hexed(bytes_)).rstrip())


def reply(control, data, address=FULL):
    """A reply judged, from its parts."""
    judge(frame(address, control, data))


def tell(address, control, data):
    """A frame put to the meter; both it and the reply as lines of the listing."""
    print("tell " + hexed(frame(address, control, data)))


def memory(n):
    """How much memory is lent from now on."""
    print("memory %d" % n)


# ---- requests built --------------------------------------------------------------------------------------------------
def builder():
    """Requests built: all that are allowed by kind, each reason for a refusal, and two at once."""
    title("build, memory of 66: reads of single readings in both directions, to a full address")
    fresh(key=False)
    memory(66)
    for identifier in (TOTAL, 0x00010400, 0x0001000C, 0x0001040C, 0x00020000, 0x0002040C):
        build_read(identifier)
    title("build: blocks of all t, and of all s")
    for identifier in (0x0001FF0C, 0x0002FF00, 0x000100FF, 0x000204FF):
        build_read(identifier)
    title("build: reads of registers and of the address")
    for identifier in (DATE, SLIP, ADDRESS, NUMBER, DAY3):
        build_read(identifier)
    title("build: reads to short addresses of 1 to 5 low bytes, of digits 99 and 00 too")
    for k in range(1, 6):
        build_read(address=low(k))
    build_read(address=low(1, NINES))
    build_read(address=low(5, NINES))
    build_read(ADDRESS, low(2, [0] * 6))
    title("build: 00 above is a digit and no wildcard; 999999999998 and zero are good addresses")
    build_read(address=FULL[:3] + [0, 0, 0])
    build_read(address=[0x98] + NINES[1:])
    build_read(address=[0] * 6)
    title("build: read address, and the same with nonsense in every field that it does not use")
    ask_address()
    print("build")
    ask(0x13, [0x1A, 0xA1, 0xFF, 0xAA, 0x99, 0x0B], 0xFFFFFFFF, 0xFF, [0xFF, 0xAA, 0x9A], [0xFF, 0xEE, 0xDD, 0xCC], [0xFA] * 39)
    print("build")
    ask(0x13, FULL, 0x0001FFFF, 0x0A, value=[0xAA])
    print("build")
    title("build: a read with nonsense in the fields that only a write uses")
    ask(0x11, FULL, TOTAL, 0xFF, [0xFF, 0xAA, 0x9A], [0xFF, 0xEE, 0xDD, 0xCC], [0xFA] * 39)
    print("build")
    title("build: a write of every writable item")
    for identifier in sorted(VALUES):
        build_write(identifier, VALUES[identifier])
    title("build: levels 00, 05 and 09, passwords and operator codes of any bytes")
    build_write(level=0, password=[0x12, 0x34, 0x56], operator=[0x78, 0x90, 0x12, 0x34])
    build_write(level=5)
    build_write(level=9, password=[0xFF, 0xAA, 0x9A], operator=[0xFF, 0xEE, 0xDD, 0xCC])
    build_write(NUMBER, NINES, address=ONE, level=9, password=[0xCC, 0xCD, 0xCE], operator=[0xFE, 0x68, 0x16, 0x00])
    title("build: the ends of the ranges; the calendar is not asked")
    for identifier, value in ((DATE, [0, 1, 1, 0]), (DATE, [6, 0x31, 0x12, 0x99]), (DATE, [0, 0x31, 0x02, 0x26]), (TIME, [0, 0, 0]),
                              (TIME, [0x59, 0x59, 0x23]), (PERIOD, [0x01]), (PERIOD, [0x60]), (SLIP, [0x60]), (DAY1, [0x23, 0x01]),
                              (DAY1, [0x00, 0x28])):
        build_write(identifier, value)

    title("build, 1: memory of 65 and of 0, for a read, a write and read address; 66 will do")
    for asked in (ask_read, ask_write, ask_address):
        asked()
        for size in (65, 0, 66):
            memory(size)
            print("build")
    title("build, 1 before 5: memory of 65, and a request that is not allowed; 5 with 66")
    for asked in (lambda: ask_read(0x0001FFFF), lambda: ask_read(address=AA), lambda: ask_write(level=0x0A)):
        asked()
        for size in (65, 66):
            memory(size)
            print("build")

    title("build, 5, the address alone: six AA, AA in the middle, AA at the low end, AA between, AA below the top byte")
    for address in (AA, FULL[:2] + [0xAA] + FULL[3:], [0xAA] + FULL[1:], [0x12, 0xAA, 0x56, 0xAA, 0xAA, 0xAA], [0xAA] * 5 + [0x12]):
        build_read(address=address)
    title("build, 5, the address alone: half bytes A1, 1A and 0A; 999999999999")
    for address in (FULL[:5] + [0xA1], FULL[:5] + [0x1A], [0x0A] + FULL[1:], NINES):
        build_read(address=address)
    title("build, 5, the address alone: a bad digit below the AA bytes, and A1 and 1A among them")
    for address in ([0x1A] + AA[1:], [0x12, 0xA3] + AA[2:], [0x12, 0x34, 0x56, 0x78, 0xBB, 0xAA], [0x12, 0xA1] + AA[2:],
                    [0x12, 0x34, 0xAA, 0xAA, 0xAA, 0x1A]):
        build_read(address=address)
    title("build, 5, the address alone: a write to short addresses, to six AA, to 999999999999, to a bad digit")
    for address in (low(1), low(3), low(5), AA, NINES, FULL[:5] + [0x1A]):
        build_write(address=address)
    title("build, 5, the identifier alone: reads of what the table does not list")
    for identifier in UNLISTED:
        build_read(identifier)
    title("build, 5, the identifier alone: writes of what the table does not list")
    for identifier in (0x0001FFFF, 0x04000B04, 0x04000C01):
        build_write(identifier, [0x01])
    title("build, 5, not writable alone: energies and the address, at their lengths")
    build_write(TOTAL, [0] * 4)
    build_write(0x0002FF00, [0] * 20)
    build_write(ADDRESS, ONE)
    title("build, 5, the level alone: 0A and FF")
    for level in (0x0A, 0xFF):
        build_write(level=level)
    title("build, 5, the length alone: none, one less, one more, 38 and 39 bytes")
    for identifier, length in ((DATE, 3), (TIME, 4), (PERIOD, 0), (PERIOD, 2), (NUMBER, 0), (NUMBER, 5), (NUMBER, 7), (DAY1, 1), (DAY1, 3), (PERIOD, 38),
                               (NUMBER, 39)):
        build_write(identifier, [0x01] * length)
    title("build, 5, the content alone: a half byte above 9, high and low, in every item")
    for identifier, value in ((DATE, [0x01, 0x1F, 0x03, 0x26]), (DATE, [0x01, 0x02, 0x0C, 0x26]), (DATE, [0x01, 0x02, 0x03, 0xA6]),
                              (TIME, [0x30, 0x15, 0x0A]), (PERIOD, [0x3C]), (SLIP, [0xA0]), (NUMBER, [0x12, 0x34, 0xF6, 0x78, 0x90, 0x99]),
                              (DAY1, [0x0A, 0x01]), (DAY2, [0x23, 0x0F]), (DAY3, [0x99, 0x9A])):
        build_write(identifier, value)
    title("build, 5, the content alone: outside the range")
    for value in ([7, 1, 1, 0], [6, 0, 1, 0], [6, 0x32, 1, 0], [6, 1, 0, 0], [6, 1, 0x13, 0]):
        build_write(DATE, value)
    for value in ([0x60, 0, 0], [0, 0x60, 0], [0, 0, 0x24]):
        build_write(TIME, value)
    for identifier, value in ((PERIOD, 0x00), (PERIOD, 0x61), (SLIP, 0x61)):
        build_write(identifier, [value])
    for value in ([0x00, 0x00], [0x00, 0x29], [0x24, 0x01], [0x00, 0x99], [0x99, 0x01]):
        build_write(DAY2, value)
    title("build, 5, two causes at once; their order cannot show: address and identifier, for a read and a write")
    build_read(0x0001FFFF, AA)
    build_write(0x0001FFFF, [0x01], address=low(3))
    title("build, 5, two causes: identifier and writable, writable and level, level and length, length and content, half byte and range")
    build_write(0x0002FFFF, [0] * 4)
    build_write(TOTAL, [0] * 4, level=0x0A)
    build_write(PERIOD, [0x30, 0x30], level=0x0A)
    build_write(PERIOD, [0x61, 0xAA])
    build_write(DATE, [0x07, 0x32, 0x13, 0x9A])
    title("build, 5: every cause at once")
    build_write(0x0001FFFF, [0xAA] * 39, address=AA, level=0xFF)


# ---- replies judged --------------------------------------------------------------------------------------------------
def judging():
    """Replies judged: all answers by kind, each reason for a refusal, and two at once."""
    values = [0x00, 0x25, 0x99, 0x10]
    single = di(TOTAL) + values

    title("judge, memory of 196: the manual's reply of 15.82 kWh")
    fresh(key=False)
    memory(196)
    ask_read(address=ONE)
    print("judge 68 01 00 00 00 00 00 68 91 08 33 33 34 33 B5 48 33 33 9A 16")
    title("judge: document 01's reply of 123456.78 kWh")
    print("judge 68 01 00 00 00 00 00 68 91 08 33 33 34 33 AB 89 67 45 17 16")
    title("judge: good replies with single readings, blocks of 20 and of 52 bytes")
    for identifier, length in ((TOTAL, 4), (0x0002040C, 4), (0x0002FF0C, 20), (0x000104FF, 52)):
        ask_read(identifier)
        reply(0x91, di(identifier) + [(i // 10 << 4 | i % 10) for i in range(length)])
    title("judge: good replies with registers, and with an address that is not the reply's own")
    for identifier in (DATE, NUMBER, DAY2):
        ask_read(identifier)
        reply(0x91, di(identifier) + VALUES[identifier])
    ask_read(ADDRESS)
    reply(0x91, di(ADDRESS) + ONE)
    reply(0x91, di(ADDRESS) + NINES)
    title("judge: ranges are not asked of a reply: month 13, hour 99, period 00, settlement day 0000")
    for identifier, value in ((DATE, [0x01, 0x02, 0x13, 0x26]), (TIME, [0x99, 0x99, 0x99]), (PERIOD, [0x00]), (DAY1, [0x00, 0x00])):
        ask_read(identifier)
        reply(0x91, di(identifier) + value)
    title("judge: what a read does not use is ignored")
    ask(0x11, FULL, TOTAL, 0xFF, [0xFF, 0xAA, 0x9A], [0xFF, 0xEE, 0xDD, 0xCC], [0xFA] * 39)
    reply(0x91, single)
    title("judge: good replies to a write, to one at level 09, and to read address, with nonsense in what that does not use")
    ask_write()
    reply(0x94, [])
    ask_write(NUMBER, NINES, level=9, password=[0xFF, 0xAA, 0x9A], operator=[0xFF, 0xEE, 0xDD, 0xCC])
    reply(0x94, [])
    ask_address()
    reply(0x93, ONE, ONE)
    ask(0x13, NINES, 0xFFFFFFFF, 0xFF, [0xFF, 0xAA, 0x9A], [0xFF, 0xEE, 0xDD, 0xCC], [0xFA])
    reply(0x93, FULL)
    title("judge: error bytes 00, 01, 02, 04 and FF to a read, some to a write and to a short read")
    ask_read()
    for error in (0x00, 0x01, 0x02, 0x04, 0xFF):
        reply(0xD1, [error])
    ask_write()
    for error in (0x00, 0x04, 0xFF):
        reply(0xD4, [error])
    ask_read(0x0001FF00, low(2))
    reply(0xD1, [0xFF])
    title("judge: short reads of 1, 3 and 5 low bytes, answered by 129078563412")
    for k in (1, 3, 5):
        ask_read(address=low(k))
        reply(0x91, single)
    title("judge: short reads, answered by other good addresses with the same low bytes")
    ask_read(address=low(2))
    reply(0x91, single, [0x12, 0x34, 0, 0, 0, 0])
    reply(0x91, single, [0x12, 0x34] + NINES[2:])
    reply(0xD1, [0x02], [0x12, 0x34, 0x56, 0x78, 0x90, 0x13])
    ask_read(address=low(5, NINES))
    reply(0x91, single, NINES[:5] + [0x98])

    title("judge, 1: memory of 195, though the replies are good; 196 will do")
    for asked, control, data in ((ask_read, 0x91, single), (ask_write, 0xD4, [0x04]), (ask_address, 0x93, FULL)):
        asked()
        for size in (195, 196):
            memory(size)
            reply(control, data)
    memory(0)
    reply(0x93, FULL)
    title("judge, 1 before 5 and 2: memory of 195, a request not allowed, no frame")
    memory(195)
    ask_read(0x0001FFFF)
    reply(0x91, single)
    ask_read()
    judge([0x68])
    ask_write(level=0x0A)
    judge([])
    memory(196)
    title("judge, 5 alone, though the reply would fit: the address")
    ask_read(address=AA)
    reply(0x91, single, AA)
    ask_read(address=NINES)
    reply(0x91, single, NINES)
    ask_read(address=FULL[:5] + [0x1A])
    reply(0x91, single, FULL[:5] + [0x1A])
    ask_write(address=low(5))
    reply(0x94, [])
    title("judge, 5 alone: identifier, writable, level, length, half byte, range")
    ask_read(0x0001FFFF)
    reply(0x91, di(0x0001FFFF) + [0] * 4)
    ask_read(0x00010500)
    reply(0xD1, [0x02])
    for parts in ({"identifier": TOTAL, "value": [0] * 4}, {"level": 0x0A}, {"value": []}, {"value": [0x3C]}, {"value": [0x61]}):
        ask_write(**parts)
        reply(0x94, [])
    title("judge, 5 before 2: a request not allowed, and no frame")
    ask_read(address=AA)
    judge([])
    ask_read(0x0001FFFF)
    judge([0xFE] + frame(FULL, 0x91, single))
    ask_write(value=[0x61])
    judge([0x68])

    good = frame(FULL, 0x91, single)
    title("judge, 2 alone: nothing, FE in front, a byte behind, twice, checksum, last byte, a byte missing, another first byte, L")
    ask_read()
    for bytes_ in ([], [0xFE] + good, good + [0x16], good + good, good[:-2] + [good[-2] ^ 1, 0x16], good[:-1] + [0x17],
                   good[:-1], [0x69] + good[1:-2] + [good[-2] + 1, 0x16], good[:9] + [0x09] + good[10:-2] + [good[-2] + 1, 0x16]):
        judge(bytes_)
    title("judge, 2 before 6: no frame, and a control or an address that is no answer")
    for f in (frame(FULL, 0xB1, single), frame(ONE, 0xD1, [0x02]), frame(ONE, 0x94, [])):
        judge([0xFE] + f)
        judge(f[:-1] + [0x17])
    title("judge, 2: a write, and read address")
    ask_write()
    judge([0xFE] + frame(FULL, 0x94, []))
    ask_address()
    judge(frame(FULL, 0x93, FULL) + [0x00])

    title("judge, 6, the control alone, to a read: the request itself, B1, D3, D4, 94, 93, and others")
    ask_read()
    judge(frame(FULL, 0x11, di(TOTAL)))
    for control in (0xB1, 0x51, 0x92):
        reply(control, single)
    for control in (0xD3, 0xD4, 0xD2, 0xF1):
        reply(control, [0x02])
    reply(0x94, [])
    reply(0x93, FULL)
    title("judge, 6, the control alone, to a write: the request itself, 91, D1, B4, 93, 95, 98")
    ask_write()
    judge(frame(FULL, 0x14, di(PERIOD) + [4] + ZERO3 + ZERO4 + [0x30]))
    for control, data in ((0x91, di(PERIOD) + [0x30]), (0xD1, [0x04]), (0xB4, []), (0x93, FULL), (0x95, []), (0x98, [4] + ZERO3)):
        reply(control, data)
    title("judge, 6, the control alone, to read address: the request itself, D3, B3, 91, D1, 94")
    ask_address()
    judge(frame(AA, 0x13, []))
    for control, data in ((0xD3, [0x02]), (0xB3, FULL), (0x91, single), (0xD1, [0x02]), (0x94, [])):
        reply(control, data)
    title("judge, 6, the address alone: a read to a full address, answered by others")
    ask_read()
    for address in (FULL[:5] + [0x13], [0x13] + FULL[1:], low(5), AA):
        reply(0x91, single, address)
    reply(0xD1, [0x02], ONE)
    ask_read(address=[0x12, 0x34, 0, 0, 0, 0])
    reply(0x91, single)
    title("judge, 6, the address alone: a write")
    ask_write()
    reply(0x94, [], ONE)
    reply(0xD4, [0x04], FULL[:5] + [0x13])
    title("judge, 6, the address alone: a short read, answered from other low bytes")
    for k in (1, 2, 5):
        ask_read(address=low(k))
        reply(0x91, single, FULL[:k - 1] + [0x99] + FULL[k:])
    reply(0xD1, [0x02], ONE)
    title("judge, 6, the address alone: a short read, answered from the short address itself, from AA bytes, from addresses not good")
    for k in (1, 5):
        ask_read(address=low(k))
        reply(0x91, single, low(k))
    ask_read(address=low(3))
    for address in (low(4), FULL[:3] + [0xAA] + FULL[4:], FULL[:5] + [0x1A], FULL[:4] + [0xA0, 0x12]):
        reply(0x91, single, address)
    reply(0xD1, [0x02], low(3))
    ask_read(address=low(2, NINES))
    reply(0x91, single, NINES)
    title("judge, 6, control and address at once; their order cannot show")
    ask_read()
    reply(0xB1, single, ONE)
    ask_read(address=low(3))
    reply(0x94, [], low(3))
    ask_write()
    reply(0x91, di(PERIOD) + [0x30], ONE)

    title("judge, 6 before 7: the control, and an error with L 2 or a reply with L below 4; L of a 94 and a 93 too")
    ask_read()
    for control, data in ((0xD4, [1, 2]), (0xD3, []), (0xB1, [0, 0, 1]), (0x94, [1])):
        reply(control, data)
    ask_write()
    for control, data in ((0xD1, [1, 2]), (0xB4, [1])):
        reply(control, data)
    ask_address()
    for control, data in ((0xD3, [1, 2]), (0xB3, FULL[:5])):
        reply(control, data)
    title("judge, 6 before 7: the address, and an error with L 0 or 2, a 91 with L 3, a 94 with L 1")
    ask_read()
    reply(0xD1, [], ONE)
    reply(0xD1, [1, 2], ONE)
    reply(0x91, [0, 0, 1], ONE)
    ask_read(address=low(3))
    reply(0xD1, [1, 2], low(3))
    reply(0x91, [0, 0, 1], [0x13] + FULL[1:])
    ask_write()
    reply(0x94, [1], ONE)
    reply(0xD4, [], ONE)
    title("judge, 7, an error reply with L other than 1")
    for asked, control in ((ask_read, 0xD1), (ask_write, 0xD4)):
        asked()
        for data in ([], [0x02, 0x02], single):
            reply(control, data)
    title("judge, 7, a 91 with L below 4: the identifier's first bytes")
    ask_read()
    for n in (0, 1, 2, 3):
        reply(0x91, di(TOTAL)[:n])
    title("judge, 7 before 6: a 91 with L below 4, and another identifier")
    for n in (1, 3):
        reply(0x91, [0x05, 0x05, 0x05][:n])
    ask_read(address=low(3))
    reply(0x91, [0x05, 0x05, 0x05])

    title("judge, 6, the identifier alone: another in each byte, and the same bytes turned round")
    ask_read()
    for identifier in (0x00010001, 0x00010100, 0x00020000, 0x04010000):
        reply(0x91, di(identifier) + values)
    reply(0x91, di(TOTAL)[::-1] + values)
    title("judge, 6 before 7: another identifier, and a wrong length or a half byte above 9")
    ask_read()
    for value in ([], [0x00], [0x00] * 5, [0xAA] * 4):
        reply(0x91, di(0x00020000) + value)
    title("judge, 7, the length alone: none, one less, one more, of another item, the longest")
    for n in (0, 3, 5, 20, 196):
        reply(0x91, di(TOTAL) + [0x11] * n)
    for identifier, length in ((0x0001FF00, 19), (0x000100FF, 53), (PERIOD, 2), (ADDRESS, 7)):
        ask_read(identifier)
        reply(0x91, di(identifier) + [0x11] * length)
    title("judge, 7, a half byte above 9 alone: high and low, first and last byte, in single readings, blocks and registers")
    ask_read()
    for value in ([0x0A, 0, 0, 0], [0xA0, 0, 0, 0], [0, 0, 0, 0xF9], [0, 0x1F, 0, 0]):
        reply(0x91, di(TOTAL) + value)
    for identifier, length in ((0x000100FF, 52), (ADDRESS, 6), (PERIOD, 1)):
        ask_read(identifier)
        reply(0x91, di(identifier) + [0x99] * (length - 1) + [0x9A])
    ask_read(DATE, low(1))
    reply(0x91, di(DATE) + [0x0A, 0x02, 0x03, 0x26])
    title("judge, 7, length and half byte at once; their order cannot show")
    ask_read()
    reply(0x91, di(TOTAL) + [0xAA] * 3)
    reply(0x91, di(TOTAL) + [0xAA] * 5)
    title("judge, 7, a 94 with L other than 0, to a write")
    ask_write()
    for data in ([0x00], di(PERIOD), di(PERIOD) + [0x30]):
        reply(0x94, data)
    title("judge, 7, a 93 to read address: L 0, 5 and 7")
    ask_address()
    for data in ([], FULL[:5], FULL + [0x00]):
        reply(0x93, data)
    title("judge, 7, a 93: another good address than its own, AA bytes for its own, its own turned round")
    for data in (ONE, AA, FULL[:5] + [0xAA], FULL[::-1]):
        reply(0x93, data)
    reply(0x93, FULL, AA)
    title("judge, 7, a 93: its own address, but not a good one")
    for address in (NINES, AA, [0x0A] + FULL[1:], FULL[:5] + [0xA1], low(3), [0xFF] * 6):
        reply(0x93, address, address)
    title("judge, 7, a 93, two faults at once; their order cannot show: length and half byte, half byte and own address, own address and 999999999999")
    reply(0x93, [0xAA] * 5)
    reply(0x93, FULL[:5] + [0xA1])
    reply(0x93, NINES)


# ---- exchanges -------------------------------------------------------------------------------------------------------
def lent(*sizes):
    """How much memory of each of the four an exchange is lent; without sizes, the least."""
    print("lent %d %d %d %d" % (sizes or LENT))


def one_too_small():
    """The four lists of sizes with one of them one too small."""
    for i in range(4):
        yield [size - (i == j) for j, size in enumerate(LENT)]


def exchange_read(identifier=TOTAL, address=FULL):
    """A read exchanged with the meter."""
    ask_read(identifier, address)
    print("exchange")


def exchange_write(*parts, **named):
    """A write exchanged with the meter."""
    ask_write(*parts, **named)
    print("exchange")


def exchange_address():
    """A read of the address exchanged with the meter."""
    ask_address()
    print("exchange")


def refused_exchanges():
    """Exchanges refused, for each reason and for two at once, and those that end in silence."""
    title("exchange, 16 before 1: a reading, a register and the address out of range, and each size one too small")
    fresh()
    print("reading 1 12 4 100000000")
    ask_read()
    for sizes in one_too_small():
        lent(*sizes)
        print("exchange")
    fresh()
    print("register 0 0A")
    exchange_read()
    fresh()
    print("address " + hexed(NINES))
    exchange_address()
    lent()
    title("exchange, 16 alone, and before 5: a request not allowed; and the meter that comes back for a bad address")
    fresh()
    print("reading 0 0 0 100000000")
    exchange_write()
    exchange_address()
    exchange_write(value=[0x61])
    exchange_read()
    print("reading 0 0 0 99999999")
    exchange_read()
    fresh(NINES, key=False)
    exchange_address()
    title("exchange, 1 before 5: each size one too small, and a request not allowed")
    fresh()
    ask_read(0x0001FFFF)
    for sizes in one_too_small():
        lent(*sizes)
        print("exchange")
    title("exchange, 1 alone: each size one too small, for a read, read address and a write; nothing is written")
    for asked in (ask_read, ask_address, ask_write):
        asked()
        for sizes in one_too_small():
            lent(*sizes)
            print("exchange")
    lent(0, 0, 0, 0)
    print("exchange")
    print("show")
    title("exchange, 1 before silence: another address")
    lent(66, 212, 212, 195)
    exchange_read(address=ONE)
    title("exchange, 5 before silence: another address, and a request not allowed")
    lent()
    exchange_read(0x0001FFFF, ONE)
    exchange_write(value=[0x61], address=ONE)
    title("exchange, 5 alone: six AA, an identifier, a write to a short address, a level, a length, content")
    exchange_read(address=AA)
    exchange_read(0x00010500)
    exchange_write(address=low(5))
    exchange_write(level=0x0A)
    exchange_write(value=[])
    exchange_write(value=[0x3C])
    title("exchange, silence: another address, for a read, a short read and a write; 00 in place of AA")
    exchange_read(address=ONE)
    exchange_read(address=FULL[:5] + [0x13])
    exchange_read(address=[0x12, 0x35] + AA[2:])
    exchange_write(address=ONE)
    exchange_read(address=FULL[:3] + [0, 0, 0])
    print("show")
    title("exchange: requests to this meter, in the least memory and in more")
    exchange_address()
    exchange_read()
    exchange_read(address=low(3))
    exchange_write(operator=[0x01, 0x02, 0x03, 0x04])
    exchange_read(PERIOD)
    lent(256, 256, 256, 256)
    print("exchange")
    lent()
    print("show")
    title("exchange: month 13 put into the register is read as it stands, though it could not be written")
    print("register 2 13")
    exchange_read(DATE)
    exchange_write(DATE, [0x01, 0x02, 0x13, 0x26])
    title("tell: no frame, a frame for another meter, a wrong length, an address while the key is off, a meter out of range")
    fresh(key=False)
    print("tell")
    print("tell FE " + hexed(frame(AA, 0x13, [])))
    tell(ONE, 0x11, di(TOTAL))
    tell(FULL, 0x11, [])
    tell(AA, 0x13, [0x00])
    tell(AA, 0x15, ONE)
    tell(AA, 0x13, [])
    print("reading 0 0 0 100000000")
    tell(AA, 0x13, [])


# ---- a working day ---------------------------------------------------------------------------------------------------
OVEN = [0x78, 0x56, 0x34, 0x00, 0x00, 0x11]
COMPRESSOR = [0x78, 0x56, 0x34, 0x00, 0x00, 0x12]
MOVED = [0x78, 0x56, 0x34, 0x00, 0x00, 0x13]
FITTER = [0x07, 0x00, 0x00, 0xF1]
CLERK = [0x2A, 0xFF, 0x00, 0x01]


def pulse(amount, direction, rate):
    """A pulse."""
    print("pulse %d %d %d" % (amount, direction, rate))


def oven_day():
    """A working day of the first meter."""
    title("06:00 the oven's meter 110000345678 is new; the reading head asks who is there")
    fresh(OVEN, key=False)
    exchange_address()
    title("06:01 nothing counted yet; the date was never set")
    exchange_read(TOTAL, OVEN)
    exchange_read(DATE, OVEN)
    title("06:05 date and slip written while the key is off: error 04")
    exchange_write(DATE, VALUES[DATE], OVEN, operator=FITTER)
    exchange_write(SLIP, [0x05], OVEN, operator=FITTER)
    title("06:06 key on: date and time are set and read back")
    print("key 1")
    exchange_write(DATE, VALUES[DATE], OVEN, operator=FITTER)
    exchange_write(TIME, [0x00, 0x06, 0x06], OVEN, operator=FITTER)
    exchange_read(DATE, OVEN)
    exchange_read(TIME, OVEN)
    title("06:10 demand period 30, slip 5")
    exchange_write(PERIOD, [0x30], OVEN, operator=FITTER)
    exchange_write(SLIP, [0x05], OVEN, level=0, operator=FITTER)
    exchange_read(SLIP, OVEN)
    title("06:12 settlement days: the 1st at 6, the 15th at 0, the third not set")
    exchange_write(DAY1, [0x06, 0x01], OVEN, operator=FITTER)
    exchange_write(DAY2, [0x00, 0x15], OVEN, operator=FITTER)
    exchange_write(DAY3, [0x99, 0x99], OVEN, operator=FITTER)
    exchange_read(DAY2, OVEN)
    title("06:15 the meter number")
    exchange_write(NUMBER, [0x01, 0x00, 0x26, 0x20, 0x00, 0x00], OVEN, operator=CLERK)
    exchange_read(NUMBER, OVEN)
    print("show")
    title("06:20 a wrong password, and level 05: error 04, and the period stays")
    exchange_write(PERIOD, [0x60], OVEN, password=[0x00, 0x00, 0x01])
    exchange_write(PERIOD, [0x60], OVEN, level=5)
    exchange_read(PERIOD, OVEN)
    title("06:25 the password of level 4 is changed; the old one is refused then, the new one accepted")
    tell(OVEN, 0x18, di(0x04000C05) + [4] + ZERO3 + [4] + [0x65, 0x43, 0x21])
    exchange_write(PERIOD, [0x15], OVEN, operator=CLERK)
    exchange_write(PERIOD, [0x15], OVEN, password=[0x65, 0x43, 0x21], operator=CLERK)
    exchange_read(PERIOD, OVEN)
    title("06:28 key off: the new password is refused too, and no password can be changed")
    print("key 0")
    exchange_write(PERIOD, [0x45], OVEN, password=[0x65, 0x43, 0x21])
    tell(OVEN, 0x18, di(0x04000C05) + [4] + [0x65, 0x43, 0x21] + [4] + ZERO3)
    title("07:00 the oven runs: 12.50 kWh at rate 2, and 0.40 back at rate 1")
    pulse(1250, 0, 2)
    pulse(40, 1, 1)
    exchange_read(TOTAL, OVEN)
    exchange_read(0x00010200, OVEN)
    exchange_read(0x0002FF00, OVEN)
    title("10:30 rate 3: 987.65 kWh more; the total has moved")
    pulse(98765, 0, 3)
    exchange_read(TOTAL, OVEN)
    title("12:00 settlement: row 0 stays, row 1 holds the same")
    print("settle")
    exchange_read(0x0001FF00, OVEN)
    exchange_read(0x0001FF01, OVEN)
    title("12:30 more at rate 2, and a second settlement: the column of totals, forward and reverse")
    pulse(4321, 0, 2)
    exchange_read(0x00010001, OVEN)
    print("settle")
    exchange_read(0x000100FF, OVEN)
    exchange_read(0x000200FF, OVEN)
    title("13:00 short addresses of 1 to 5 bytes: each is answered from the full address")
    for k in range(1, 6):
        exchange_read(TOTAL, low(k, OVEN))
    title("13:05 wildcards filled in as 00, and other low bytes: silence")
    exchange_read(TOTAL, OVEN[:3] + [0, 0, 0])
    exchange_read(TOTAL, [0x79] + AA[1:])
    title("14:00 the address is changed to 130000345678, first with the key off, then on")
    tell(AA, 0x15, MOVED)
    print("key 1")
    tell(AA, 0x15, MOVED)
    title("14:01 the old address is silent, for reads and writes; the new one answers")
    exchange_read(TOTAL, OVEN)
    exchange_write(PERIOD, [0x60], OVEN, password=[0x65, 0x43, 0x21])
    exchange_read(TOTAL, MOVED)
    exchange_read(ADDRESS, low(3, MOVED))
    exchange_address()
    print("show")


def compressor_day():
    """What is left of the day, with the second meter."""
    title("15:00 the compressor's meter 120000345678 takes its place on the wires: the same low digits, its own record")
    fresh(COMPRESSOR, key=False)
    exchange_address()
    exchange_read(TOTAL, low(3, COMPRESSOR))
    exchange_read(TOTAL, OVEN)
    exchange_read(TOTAL, MOVED)
    title("15:30 it runs at rate 4 up to the last digit, and one step more; a settlement between")
    pulse(99999999, 0, 4)
    exchange_read(TOTAL, COMPRESSOR)
    print("settle")
    pulse(1, 0, 4)
    exchange_read(TOTAL, COMPRESSOR)
    exchange_read(0x000104FF, low(5, COMPRESSOR))
    title("16:00 it gives back 3.21 kWh at rate 1, and is settled")
    pulse(321, 1, 1)
    print("settle")
    exchange_read(0x0001FF02, COMPRESSOR)
    exchange_read(0x000201FF, COMPRESSOR)
    title("17:00 the password of level 2 is set with that of level 0, and used")
    print("key 1")
    tell(COMPRESSOR, 0x18, di(0x04000C03) + [0] + ZERO3 + [2] + [0x10, 0x20, 0x30])
    exchange_write(SLIP, [0x03], COMPRESSOR, level=2, operator=CLERK)
    exchange_write(SLIP, [0x03], COMPRESSOR, level=2, password=[0x10, 0x20, 0x30], operator=CLERK)
    exchange_read(SLIP, low(4, COMPRESSOR))
    title("18:00 key off; the last readings of the day")
    print("key 0")
    exchange_read(0x0001FF00, COMPRESSOR)
    exchange_read(0x0002FF00, low(2, COMPRESSOR))
    exchange_address()
    print("show")


def script():
    """Prints these calls."""
    builder()
    judging()
    refused_exchanges()
    oven_day()
    compressor_day()
