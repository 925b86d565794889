"""The calls of the script of run_replay, and the functions that write them. Only imported."""
from line_model import SILENCE, WAKE_UP
from printed import A, C, E, I_WRONG
from replay_day import ADDRESS
from wire import di, frame, frame_around, head, hexed

ONE = "000000000001"
TWO = [2, 0, 0, 0, 0, 0]
UNKNOWN = frame(A[1:7], 0x11, di(0x02010100))  # the read that case D is the reply to
KEY_OFF, KEY_ON, SETTLE, SILENT = [0x04, 0], [0x04, 1], [0x05], [0x02]
ALL = 100000  # more steps than any trace here has


# ---- records and calls -----------------------------------------------------------------------------------------------
def heard(symbols):
    """The records of symbols heard on the line."""
    return [b for symbol in symbols for b in (SILENT if symbol is SILENCE else [0x01, symbol])]


def pulse(direction, rate, amount):
    """The record of a pulse."""
    return [0x03, direction, rate] + [amount >> 8 * i & 255 for i in range(4)]


def title(text):
    """A comment of the script."""
    print("# " + text)


def put(word, bytes_):
    """A call with bytes."""
    print((word + " " + hexed(bytes_)).rstrip())


def trace(bytes_):
    """A trace, in lines of 48 bytes at the most."""
    put("trace", bytes_[:48])
    for at in range(48, len(bytes_), 48):
        put("more", bytes_[at:at + 48])


def steps(*counts):
    """Steps, so many for each of these numbers."""
    for n in counts:
        print("steps %d" % n)


def played(bytes_):
    """A trace, and all its steps."""
    trace(bytes_)
    steps(ALL)


def start(address=ONE):
    """The start of a replay."""
    print("start " + address)


# ---- what is played --------------------------------------------------------------------------------------------------
def papers():
    """Document 01's cases, played from a trace."""
    title("a total of 123456.78 kWh and A, the line of B; a step for the pulse, the wake-up bytes, and A")
    start()
    trace(pulse(0, 1, 12345678) + heard(WAKE_UP + A))
    steps(1, 4, 15, 1, 1)
    title("C, and the reply's line")
    played(heard(C))
    title("D, to a read of an identifier that is not listed")
    played(heard(UNKNOWN))
    title("E with the key off, on, and off again")
    played(heard(E) + KEY_ON + heard(E) + KEY_OFF + heard(E))
    print("state")
    title("F and I: A behind a lone 68, and behind A with checksum B4")
    played(heard([0x68] + A))
    played(heard(I_WRONG + A))
    title("G: a silence before the last byte, none")
    played(heard(A[:-1] + [SILENCE] + A[-1:]))
    title("H: A without its last byte, none yet, though the trace ends; the last byte comes with more of the trace")
    played(heard(A[:-1]))
    steps(1)
    print("state")
    put("more", [0x01, 0x16])
    steps(1, 1)
    print("state")


def line():
    """What is on a line besides requests, and frames that one symbol settles."""
    title("replies, requests to others, and a broadcast: silent, and no line")
    start()
    reply, request = frame(A[1:7], 0x91, di(0x00010000) + [0] * 4), frame(TWO, 0x11, di(0x00010000))
    played(heard(WAKE_UP + request + reply + WAKE_UP + frame([0x99] * 6, 0x08, [0] * 6)))
    title("frames inside one that is not finished: none while it may still be completed, and the end is no silence")
    outer = frame_around(TWO, 0x91, A + C + A)
    played(heard(outer[:-2]))
    steps(2)
    title("settled together by a silence, by a wrong checksum and by a wrong last byte; none where the outer one is whole")
    put("more", SILENT)
    steps(1, 1)
    for symbols in (outer[:-2] + [outer[-2] ^ 1], outer[:-1] + [0x17], outer):
        trace(heard(symbols))
        steps(len(symbols) - 1, 1)
    title("an address changed, and frames to the old and to the new one, settled by one symbol, in their order")
    change = frame([0xAA] * 6, 0x15, TWO)
    read_two = frame(TWO, 0x11, di(0x04000401))
    moved = heard(head([7] * 6, 0x91, 150) + [0xFE] * 5 + read_two + A + change + A + read_two) + SILENT
    played(moved)
    print("state")
    played(KEY_ON + moved)
    print("state")


def host():
    """Pulses, the key and settlements."""
    title("an amount, low byte first; rates and directions; what is above 99,999,999 wraps")
    start()
    largest = pulse(1, 4, 2 ** 32 - 1)
    played([0x03, 0, 1, 0x78, 0x56, 0x34, 0x02] + largest + largest + pulse(0, 2, 99999999))
    for direction in (0, 1):
        for column in range(5):
            print("reading %d 0 %d" % (direction, column))
    title("a settlement between two pulses")
    trace(SETTLE + pulse(0, 3, 1000) + SETTLE)
    steps(1, 1, 1, 1)
    for row in range(4):
        print("reading 0 %d 0" % row)
        print("reading 0 %d 3" % row)
    title("the key off, on and off")
    for key in (KEY_OFF, KEY_ON, KEY_OFF):
        trace(key)
        steps(1)
        print("state")
    title("a step at a place inside a record reads what begins there")
    trace(pulse(1, 2, 0x05020104))
    for place in range(8):
        print("place %d" % place)
        steps(1)
    print("state")


# ---- what is refused -------------------------------------------------------------------------------------------------
# What can stand at a place, besides a good record.
UNKNOWN_KINDS = [[kind] + body for kind in (0x00, 0x06, 0x68, 0xFF) for body in ([], [0] * 7)]
CUT = [[0x01], [0x04]] + [pulse(1, 2, 3)[:n] for n in range(1, 7)]
BAD_PULSES = [(2, 1), (0xFF, 4), (0, 0), (1, 5), (1, 0xFF), (2, 0), (2, 5)]
BAD_FIELDS = [[0x04, 2], [0x04, 0xFF]] + [pulse(direction, rate, 1) for direction, rate in BAD_PULSES]
# Cut off, and a field that is there already is out of its range.
CUT_AND_BAD = [[0x03, 7]] + [pulse(2, 1, 0)[:n] for n in (2, 6)] + [pulse(0, 5, 0)[:n] for n in (3, 6)]
BREAKS = ("receiver", "kept", "meter", "register", "reading")


def refused(bytes_):
    """A record that is not played, twice, and behind one that is and changes nothing: the key stays on."""
    trace(bytes_)
    steps(1, 1)
    trace(KEY_ON + bytes_)
    steps(ALL)


def alone():
    """The start's refusal, done, and each refusal of a step alone; nothing is changed by them."""
    title("8 for a bad address: 999999999999, half bytes above 9; then every step is refused with 16")
    for address in ("999999999999", "AAAAAAAAAAAA", "00000000000A", "A00000000000"):
        start(address)
        trace(SILENT)
        steps(1)
    title("good addresses")
    for address in ("000000000000", "999999999998", "123456789012"):
        start(address)
        played(heard(C))
    title("done: an empty trace, at the end, past it")
    start()
    trace([])
    steps(1)
    played(SILENT)
    for place in (1, 2, 4294967295):
        print("place %d" % place)
        steps(1)
    title("a receiver that keeps bytes, and a meter with the key on and a reading, before what is refused")
    played(KEY_ON + pulse(0, 1, 5) + heard(A[:5]))
    print("state")
    title("1 under 8,192 bytes of memory; the record is played with 8,192 and with more")
    for room in (8191, 0, 211, 212, 8192, 8193):
        print("short %d" % room)
        trace(KEY_ON)
        steps(1)
    print("short 8192")
    title("9 for an unknown kind, alone and with bytes behind it")
    for bytes_ in UNKNOWN_KINDS:
        refused(bytes_)
    title("10 for a trace that ends inside the record, at each place")
    for bytes_ in CUT:
        refused(bytes_)
    title("9 for a key byte above 1, a direction not 0 or 1, a rate not 1 to 4")
    for bytes_ in BAD_FIELDS:
        refused(bytes_)
    title("nothing is changed")
    print("state")
    print("reading 0 0 0")
    title("a record that was cut off is played once the rest of it is there")
    trace(pulse(1, 2, 3)[:4])
    steps(1)
    put("more", pulse(1, 2, 3)[4:6])
    steps(1)
    put("more", pulse(1, 2, 3)[6:])
    steps(1, 1)
    print("reading 1 0 2")


def pairs():
    """Two of them at once, and more."""
    title("done before 1")
    start()
    played(KEY_ON + heard(A[:5]))
    for room in (0, 8191):
        print("short %d" % room)
        steps(1)
        print("place 9999")
        steps(1)
        trace([])
        steps(1)
    title("1 before 9 and before 10")
    for bytes_ in (UNKNOWN_KINDS[0], UNKNOWN_KINDS[1], CUT[0], CUT[3], BAD_FIELDS[0], BAD_FIELDS[2], CUT_AND_BAD[0]):
        trace(bytes_)
        steps(1)
    print("short 8192")
    title("10 before a field out of its range")
    for bytes_ in CUT_AND_BAD:
        refused(bytes_)
    title("nothing is changed")
    print("state")
    for what in BREAKS:
        title("16, by %s, before done, 1, 9, 10 and a good record" % what)
        start()
        print("break " + what)
        for bytes_ in ([], SILENT, pulse(0, 1, 1), UNKNOWN_KINDS[0], CUT[3], BAD_FIELDS[0]):
            trace(bytes_)
            for room in (8192, 8191):
                print("short %d" % room)
                steps(1)
        print("place 7")
        steps(1)
        print("short 8192")
        steps(1)
    title("16, by the receiver and the meter at once")
    print("break receiver")
    steps(1)


# ---- a part of a day -------------------------------------------------------------------------------------------------
def morning(day):
    """The beginning of the working day, as two traces, the second of which goes on where the first ends."""
    title("the beginning of the day")
    start("".join("%02X" % b for b in reversed(ADDRESS)))
    ends = [0] + [max(place for place in day.places if place <= end) for end in (9000, 18000)]
    for begin, end in zip(ends, ends[1:]):
        trace(day.trace[begin:end])
        steps(ALL)
        print("state")
        for direction in (0, 1):
            for column in range(5):
                print("reading %d 0 %d" % (direction, column))


def script(day):
    """Prints these calls; the last of them play the beginning of a working day."""
    papers()
    line()
    host()
    alone()
    pairs()
    morning(day)
