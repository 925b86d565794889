"""A working day on a meter's line as a trace, made record by record from a fixed seed. Only imported.

Each record is written together with the call that it stands for, made by hand; so the day knows what the meter replies,
and the replies go on the line behind their requests, as a head hears them. The blocks of 8,192 bytes in which a program
reads the trace end inside records of every kind that has a body, and between records.
"""
from line_model import SILENCE, WAKE_UP, Maker
from printed import manual_frames
from wire import REGISTERS, di, frame, frame_around, head, packed, parse

ADDRESS = [0x12, 0x34, 0x56, 0x78, 0x90, 0x12]  # the meter in the morning, low byte first
# Those that it has in the course of the day.
ADDRESSES = [[0x47, 0x11, 0x08, 0x15, 0x00, 0x00], [0x68] * 6, [0x16, 0, 0, 0, 0, 0x68], ADDRESS]
OTHERS = [[0x13, 0x34, 0x56, 0x78, 0x90, 0x12], [0x01, 0, 0, 0, 0, 0], [0x12, 0x34, 0x56, 0x78, 0x90, 0x13]]
AA = [0xAA] * 6
BLOCK = 8192  # bytes of a trace that are read at a time
NEAR = 1600  # a block's end is made when it is nearer than this; no piece between two ends is longer
LENGTHS = {0x01: 2, 0x02: 1, 0x03: 7, 0x04: 2, 0x05: 1}
AMOUNTS = [0, 1, 99999999, 100000000, 2 ** 31, 2 ** 32 - 1]
IDENTIFIERS = sorted(REGISTERS)


# ---- the trace -------------------------------------------------------------------------------------------------------
class Day:
    """A trace, the place and the replies of each of its records, and the receiver and the meter of the calls."""

    def __init__(self, seed, replay):
        """Before the first record."""
        self.make = Maker(seed)
        self.random = self.make.random
        self.replay = replay
        self.trace, self.places, self.replies = [], [], []

    @property
    def meter(self):
        """The meter."""
        return self.replay.meter

    def put(self, kind, *fields):
        """Makes a call by hand and writes its record; the replies."""
        replies, body = [], list(fields)
        if kind == 0x01:
            replies = self.replay.hear(fields[0])
        elif kind == 0x02:
            replies = self.replay.hear(SILENCE)
        elif kind == 0x03:
            direction, rate, amount = fields
            assert self.meter.pulse(amount, direction, rate) == 0
            body = [direction, rate] + [amount >> 8 * i & 255 for i in range(4)]
        elif kind == 0x04:
            assert self.meter.set_key(fields[0] == 1) == 0
        else:
            assert self.meter.settle() == 0
        self.places.append(len(self.trace))
        self.replies.append(replies)
        self.trace += [kind] + body
        assert len(self.trace) - self.places[-1] == LENGTHS[kind]
        return replies

    def hear(self, symbols):
        """Symbols on the line; the replies to what they settle."""
        return [reply for s in symbols for reply in (self.put(0x02) if s is SILENCE else self.put(0x01, s))]

    def ask(self, request):
        """A request behind wake-up bytes, and the replies to it on the line behind it; the replies."""
        replies = self.hear(WAKE_UP + request)
        for reply in replies:
            self.hear(reply)
        return replies

    def send(self, control, data, address=None):
        """A request to the meter or to another address."""
        return self.ask(frame(address or self.meter.address, control, data))

    def read(self, identifier, address=None):
        """A read."""
        return self.send(0x11, di(identifier), address)

    def write(self, identifier, value, level=2, password=None, operator=(1, 2, 3, 4)):
        """A write, with the right password unless another is given."""
        right = self.meter.passwords[level] if level < 10 else [0, 0, 0]
        return self.send(0x14, di(identifier) + [level] + (password or right) + list(operator) + value)

    def pulses(self, n):
        """So many pulses, in both directions and at all rates."""
        for _ in range(n):
            amount = self.random.choice(AMOUNTS + [self.random.randrange(2 ** 32) for _ in range(6)])
            self.put(0x03, self.random.randrange(2), self.random.randrange(1, 5), amount)


# ---- pieces of a day -------------------------------------------------------------------------------------------------
def answered(replies, *controls):
    """Whether there is a reply with each of these controls, in this order, and no other."""
    return [parse(reply)[1] for reply in replies] == list(controls)


def energy(day, t=None, s=None):
    """An identifier of energies, of either direction."""
    t = day.random.randrange(5) if t is None else t
    s = day.random.randrange(13) if s is None else s
    return day.random.randrange(1, 3) << 16 | t << 8 | s


def another(day):
    """An address that the meter can have and has not."""
    return day.random.choice([address for address in ADDRESSES if address != day.meter.address])


def value_of(day, identifier):
    """A value that an item may be written with."""
    some = day.random.randrange
    numbers = {
        0x04000101: [some(7), some(1, 32), some(1, 13), some(100)],
        0x04000102: [some(60), some(60), some(24)],
        0x04000103: [some(1, 61)],
        0x04000104: [some(1, 61)],
        0x04000402: [some(100) for _ in range(6)],
    }.get(identifier, [some(24), some(1, 29)])
    return [packed(n, 1)[0] for n in numbers]


def reads(day):
    """Reads of one reading, of five, of thirteen, of a register and of the address."""
    energies = [energy(day), energy(day, t=0xFF), energy(day, s=0xFF)]
    for identifier in energies + [day.random.choice(IDENTIFIERS), 0x04000401]:
        assert answered(day.read(identifier), 0x91)


def wrong_reads(day):
    """Reads that get an error: an identifier that is not listed, a wrong length."""
    assert answered(day.read(day.random.choice((0x02010100, 0x0001FFFF, 0x00010500, 0x04000C01))), 0xD1)
    assert answered(day.send(0x11, [0] * day.random.choice((0, 3, 5))), 0xD1)


def short_reads(day):
    """Reads with short addresses, of which the meter has some and not others."""
    own = day.meter.address
    k = day.random.randrange(1, 6)
    assert answered(day.read(energy(day), own[:k] + AA[k:]), 0x91)
    assert day.read(energy(day), AA) == []
    assert day.read(energy(day), AA[:k] + own[k:]) == []
    assert day.read(energy(day), [own[0] ^ 1] + own[1:k] + AA[k:]) == []


def writes(day):
    """Writes with the key off and on: one that is right and read back, and one for each error."""
    identifier = day.random.choice(IDENTIFIERS)
    value = value_of(day, identifier)
    day.put(0x04, 0)
    assert answered(day.write(identifier, value), 0xD4)
    day.put(0x04, 1)
    operator = [day.random.randrange(256) for _ in range(4)]
    assert answered(day.write(identifier, value, day.random.randrange(5), operator=operator), 0x94)
    assert answered(day.read(identifier), 0x91)
    right = day.meter.passwords[1]
    for replies in (
        day.write(identifier, value, 5),
        day.write(identifier, value, 1, right[:2] + [right[2] ^ 1]),
        day.write(identifier, value + [0]),
        day.write(identifier, [0xFA] + value[1:]),
        day.write(0x00010000, packed(0, 4)),
        day.write(0x04000C01, value),
        day.send(0x14, [0] * 11),
    ):
        assert answered(replies, 0xD4)
    day.put(0x04, 0)


def passwords(day):
    """A password changed, and the changes that get an error."""
    level = day.random.randrange(10)
    old, new = day.meter.passwords[level], packed(day.random.randrange(10 ** 6), 3)
    change = di(0x04000C01 + level) + [level] + old + [level] + new
    day.put(0x04, 0)
    assert answered(day.send(0x18, change), 0xD8)
    day.put(0x04, 1)
    assert answered(day.send(0x18, change), 0x98)
    assert answered(day.send(0x18, change[:7] + [old[2] ^ 0x10, level] + new), 0xD8)
    assert answered(day.send(0x18, [change[0] ^ 1] + change[1:]), 0xD8)
    assert answered(day.send(0x18, di(0x04000C01 + level) + [level] + new + [level, 0x1A, 0, 0]), 0xD8)
    assert answered(day.send(0x18, change[:11]), 0xD8)
    day.put(0x04, 0)


def addresses(day):
    """The address asked for, and changed: silent by rule with the key off, for a bad address and for a wrong length. Behind
    the change the old address is nobody's."""
    old, new = day.meter.address, another(day)
    assert answered(day.send(0x13, [], AA), 0x93)
    assert day.send(0x13, [0], AA) == [] and day.send(0x13, []) == []
    day.put(0x04, 0)
    assert day.send(0x15, new, AA) == []
    day.put(0x04, 1)
    assert day.send(0x15, [0x99] * 6, AA) == [] and day.send(0x15, new[:5], AA) == [] and day.send(0x15, new) == []
    assert answered(day.send(0x15, new, AA), 0x95)
    assert day.read(energy(day), old) == [] and answered(day.read(energy(day), new), 0x91)
    day.put(0x04, 0)


def others(day):
    """Requests to other meters and their replies, a broadcast, and frames of the manual: all of them silent."""
    other = day.random.choice(OTHERS)
    assert day.read(energy(day), other) == []
    assert day.hear(frame(other, 0x91, di(energy(day)) + packed(day.random.randrange(10 ** 8), 4))) == []
    assert day.send(0x14, di(0x04000103) + [2, 0, 0, 0, 0, 0, 0, 0, 0x30], other) == []
    assert day.hear(frame(other, 0x94, [])) == []
    assert day.send(0x18, di(0x04000C05) + [4, 0, 0, 0, 4, 1, 2, 3], other) == []
    assert day.send(0x08, packed(day.random.randrange(10 ** 12), 6), [0x99] * 6) == []
    assert day.send(day.random.choice((0x12, 0x19, 0x1A, 0x91, 0xD1, 0xB1)), di(energy(day))) == []
    day.hear(day.random.choice(manual_frames())[1] + [SILENCE])


def settlement(day):
    """A settlement between pulses, and what is read of it."""
    day.pulses(1)
    day.put(0x05)
    day.pulses(1)
    assert answered(day.read(energy(day, t=0xFF, s=0)) + day.read(energy(day, t=0xFF, s=1)), 0x91, 0x91)


def noise(day):
    """Noise, wake-up bytes and silences, behind which a read is heard."""
    some = day.random.randrange
    day.hear(day.make.quiet(some(10, 60)) + [0xFE] * some(9) + [SILENCE] * some(3))
    day.hear(day.make.some(some(40)) + [SILENCE])
    assert answered(day.read(energy(day)), 0x91)


def damaged(day):
    """A read with a wrong byte, with a silence in it, and behind a lone 68; then as it should be."""
    request = frame(day.meter.address, 0x11, di(energy(day)))
    inside = day.random.randrange(1, len(request))
    assert day.hear(WAKE_UP + request[:-2] + [request[-2] ^ 1, 0x16]) == []
    assert day.hear(WAKE_UP + request[:inside] + [SILENCE] + request[inside:] + [SILENCE]) == []
    assert answered(day.hear([0x68] + request + [SILENCE]), 0x91)
    assert answered(day.ask(request), 0x91)


def over_unfinished(day):
    """A read over an unfinished frame: answered when that frame is given up, by bytes that are heard much later."""
    request = frame(day.meter.address, 0x11, di(energy(day)))
    begun = head(day.random.choice(OTHERS), 0x91, 60) + [0x33] * day.random.randrange(5, 25)
    assert day.hear(begun + [0xFE] * 3 + request) == []
    day.pulses(3)
    # With zeros the checksum of the unfinished frame is wrong: its sum is none.
    line = begun + [0xFE] * 3 + request
    assert sum(line) & 0xFF != 0
    assert answered(day.hear([0x00] * (71 - len(line))), 0x91)


def hidden(day, frames, how, heard=True):
    """Frames inside an unfinished one, settled together by the symbol that gives it up; the replies, which may be heard too.
    In front of the frames stand wake-up bytes, so that none can begin at a 68 of the unfinished one."""
    field = [0xFE] * 7 + [b for bytes_ in frames for b in bytes_]
    more = [0x33] * day.random.randrange(min(9, 201 - len(field)))
    outer = frame_around(day.random.choice(OTHERS), 0x91, field + more)
    if how == "checksum":
        outer = outer[:-2] + [outer[-2] ^ 0xFF]
    elif how == "last byte":
        outer = outer[:-1] + [0x17]
    else:
        outer = outer[:-2] + [SILENCE]
    assert day.hear(outer[:-1]) == []
    replies = day.hear(outer[-1:])
    for reply in replies if heard else []:
        day.hear(reply)
    return replies


HOWS = ("checksum", "last byte", "silence")


def together(day):
    """Several frames settled by one symbol, each of which meets the meter that the last one left: a write between two reads
    of what it writes, behind a frame of another meter."""
    own, identifier = day.meter.address, day.random.choice(IDENTIFIERS)
    read, other = frame(own, 0x11, di(identifier)), frame(OTHERS[0], 0x11, di(identifier))
    data = di(identifier) + [3] + day.meter.passwords[3] + [9, 8, 7, 6] + value_of(day, identifier)
    for key in (0, 1):
        day.put(0x04, key)
        replies = hidden(day, [other, read, frame(own, 0x14, data), read], day.random.choice(HOWS))
        assert answered(replies, 0x91, 0x94 if key else 0xD4, 0x91)
    assert parse(replies[-1])[2] == di(identifier) + data[12:]
    day.put(0x04, 0)


def moved_together(day):
    """A change of the address and frames to the old and to the new address behind it, settled by one symbol."""
    old, new = day.meter.address, another(day)
    identifier = di(energy(day))
    to_old, to_new = frame(old, 0x11, identifier), frame(new, 0x11, identifier)
    day.put(0x04, 1)
    frames = [to_new, to_old, frame(AA, 0x15, new), to_old, to_new, frame(AA, 0x13, [])]
    replies = hidden(day, frames, day.random.choice(HOWS))
    assert answered(replies, 0x91, 0x95, 0x91, 0x93)
    assert [parse(reply)[0] for reply in replies] == [old, new, new, new]
    day.put(0x04, 0)


def twelve(day):
    """Twelve reads of thirteen readings each, settled by one symbol; their replies are not heard."""
    frames = [frame(day.meter.address, 0x11, di(energy(day, s=0xFF))) for _ in range(12)]
    assert answered(hidden(day, frames, day.random.choice(HOWS), False), *[0x91] * 12)


def fourteen(day):
    """Fourteen questions for the address, from an unfinished frame's second 68 on, whose L is a byte of the first one's
    address: settled by the byte at which that frame's checksum would stand."""
    line = [0x68] + OTHERS[2] + frame(AA, 0x13, []) * 15
    end = 12 + 0xAA - 2
    assert sum(line[:end]) & 0xFF != line[end]
    assert day.hear(line[:end]) == [] and answered(day.hear(line[end:end + 1]), *[0x93] * 14)
    assert answered(day.hear(line[end + 1:]), 0x93)


PIECES = [
    reads, wrong_reads, short_reads, writes, passwords, addresses, others, settlement, noise, damaged, over_unfinished,
    together, moved_together, twelve, fourteen,
]


# ---- block ends ------------------------------------------------------------------------------------------------------
def ends():
    """For each block's end the kind of the record that it stands in, or that begins there, and how many bytes of it stand in
    front of the end. The kinds with a body come first, at each place inside; then the borders."""
    inside = [(kind, n) for kind in (0x01, 0x03, 0x04) for n in range(1, LENGTHS[kind])]
    return inside + [(kind, 0) for kind in (0x02, 0x05, 0x01, 0x03, 0x04)]


def cross(day, kind, inside):
    """A record so that a block ends so many bytes inside it: a byte of a read, a silence in one, which damages it, or a call
    of the host; behind it a read that is answered."""
    end = (len(day.trace) // BLOCK + 1) * BLOCK
    request = frame(day.meter.address, 0x11, di(energy(day, t=0xFF)))
    before = request[:9] if kind in (0x01, 0x02) else []
    left = end - inside - 2 * len(before) - len(day.trace)
    day.pulses(left // 7 - 1)
    left -= 7 * (left // 7 - 1)
    if left % 2 == 1:
        day.put(0x02)
    day.hear([0xFE] * (left // 2) + before)
    fields = {0x01: [request[9]], 0x02: [], 0x03: [1, 4, day.random.randrange(2 ** 32)], 0x04: [1], 0x05: []}[kind]
    assert len(day.trace) + inside == end
    day.put(kind, *fields)
    if kind == 0x01:
        assert answered(day.hear(request[10:]), 0x91)
    if kind == 0x02:
        assert day.hear(request[9:]) == []
    assert answered(day.read(energy(day, t=0xFF, s=0)), 0x91)


def evening(day):
    """All that can be read of the meter, and an unfinished frame with a read in it, which is not answered: the end is no
    silence."""
    for direction in (1, 2):
        for s in range(13):
            assert answered(day.read(direction << 16 | 0xFF00 | s), 0x91)
    for identifier in IDENTIFIERS:
        assert answered(day.read(identifier), 0x91)
    day.hear(WAKE_UP + head(OTHERS[0], 0x91, 100) + frame(day.meter.address, 0x11, di(0x00010000)))


def recorded(replay):
    """The day, of a receiver and a meter that the calls are made on by hand: the pieces with pulses between, each round in
    another order, a block's end wherever one is near, and the evening."""
    day = Day(1971, replay)
    crossings, left = ends(), []
    while crossings:
        if BLOCK - len(day.trace) % BLOCK < NEAR:
            cross(day, *crossings.pop(0))
        else:
            left = left or day.random.sample(PIECES, len(PIECES))
            day.pulses(day.random.randrange(60))
            left.pop()(day)
    evening(day)
    return day
