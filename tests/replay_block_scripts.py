"""The calls of the script of run_replay_blocks, and the functions that write them. Only imported."""
import command
import replay_texts
from printed import A, C, E
from replay_scripts import (
    BAD_FIELDS, BREAKS, CUT, CUT_AND_BAD, KEY_OFF, KEY_ON, ONE, SETTLE, SILENT, TWO, UNKNOWN_KINDS, heard, pulse, put, title)
from wire import di, frame, frame_around, head

BUFFER, MEMORY = 256, 12000  # of the program: the buffer of the blocks, and the output buffer
LARGEST = 2 ** 64 - 1
READ_TWO, CHANGE = frame(TWO, 0x11, di(0x04000401)), frame([0xAA] * 6, 0x15, TWO)


# ---- calls -----------------------------------------------------------------------------------------------------------
def begin(address=ONE):
    """A session of an address."""
    print("begin " + address)


def blocks(*parts):
    """Blocks, one for each of these lists of bytes."""
    for bytes_ in parts:
        put("block", bytes_)


def play(*counts):
    """Blocks as they stand in the buffer, with so many bytes read."""
    for n in counts:
        print("play %d" % n)


def sizes(room=MEMORY, size=BUFFER, kept=0):
    """What later calls are lent, and how many bytes are kept."""
    print("sizes %d %d %d" % (room, size, kept))


def number(which, value):
    """A number of the session."""
    print("number %d %d %d" % (which, value >> 32, value & 0xFFFFFFFF))


def state():
    """What is held."""
    print("state")
    print("reading 1 0 2")


def text_for(count):
    """The least output buffer for a block of so many bytes."""
    return 8192 + 18 * count


# ---- what is played --------------------------------------------------------------------------------------------------
def beginnings():
    """Good and bad addresses."""
    title("8 for a bad address: then every block is refused with 16, and so is one of no bytes")
    for address in ("999999999999", "AAAAAAAAAAAA", "00000000000A", "A00000000000"):
        begin(address)
        blocks(SILENT)
        play(0)
    title("good addresses")
    for address in ("000000000000", "999999999998", ONE):
        begin(address)
        blocks(heard(C))
        play(0)


def cuts():
    """Traces cut at every byte."""
    records = [0x01, A[-1]] + pulse(1, 2, 3) + KEY_ON + SETTLE + SILENT
    title("a trace cut at every byte of a byte's record, of a pulse, of a key, of a settlement and of a silence")
    for n in range(len(records) + 1):
        begin()
        blocks(heard(A[:-1]) + records[:n])
        blocks(records[n:])
        play(0)
    state()
    title("a byte at a time")
    begin()
    blocks(*[[b] for b in pulse(0, 1, 12345678) + heard(A) + KEY_OFF + SETTLE + SILENT])
    play(0)
    state()
    title("a pulse in three blocks, with a record before it and one behind it")
    begin()
    whole = pulse(1, 2, 99)
    blocks(KEY_ON + whole[:2], whole[2:5], whole[5:] + heard(E), [])
    state()


def together():
    """Frames that one symbol settles."""
    outer = heard(frame_around(TWO, 0x91, A + C + A)[:-2])
    title("three frames inside one that is not finished, settled by a silence, in one block and in two")
    begin()
    blocks(outer + SILENT)
    blocks(outer, SILENT)
    title("an address changed, and frames to the old and to the new one, settled by one symbol")
    begin()
    blocks(KEY_ON, heard(head([7] * 6, 0x91, 150) + [0xFE] * 5 + READ_TWO + A + CHANGE + A + READ_TWO) + SILENT)
    state()
    title("the end of a trace is no silence")
    blocks(outer)
    play(0, 0)


# ---- what stops a block ----------------------------------------------------------------------------------------------
def stops():
    """Records that are refused with 9 or 10."""
    title("10 at the end of the trace, for a record cut off at each place, with its place; again; and then its rest")
    for bytes_ in CUT:
        begin()
        blocks(heard(C) + bytes_)
        play(0, 0)
        blocks((pulse(1, 2, 3) if bytes_[0] == 0x03 else bytes_ + [1])[len(bytes_):])
        state()
    title("cut off, and a field that is there already is out of its range: 10 at the end, 9 when the rest is there")
    for bytes_ in CUT_AND_BAD:
        begin()
        blocks(KEY_ON, bytes_)
        play(0)
        blocks([1] * (7 - len(bytes_)))
    title("9 in the middle of a block: the records before it are played, those behind it not; and calls behind the stop")
    for bytes_ in UNKNOWN_KINDS + BAD_FIELDS:
        begin()
        blocks(heard(C) + bytes_ + heard(C))
        play(0)
        blocks(KEY_ON + bytes_, bytes_)
        state()
        blocks(heard(C))


# ---- what is refused -------------------------------------------------------------------------------------------------
def short():
    """A session with bytes kept by its receiver, and 1 for each buffer, alone and both at once."""
    title("a session that has played something: the key on, a reading, an unfinished frame")
    begin()
    blocks(KEY_ON + pulse(1, 2, 5) + heard(A[:5]))
    title("1 for a buffer shorter than the bytes kept")
    for size, kept in ((0, 1), (4, 5), (255, 256), (256, 257), (256, 4294967295)):
        sizes(size=size, kept=kept)
        play(0, 1)
    title("1 for a buffer shorter than the bytes kept and read, one byte short; then long enough")
    for kept, read in ((0, 1), (2, 4), (6, 1), (0, 200)):
        sizes(size=kept + read - 1, kept=kept)
        play(read, read + 1, 4294967295)
    for kept, read in ((0, 4), (2, 2), (4, 0)):
        sizes()
        blocks(KEY_ON + KEY_ON)
        sizes(size=3, kept=kept)
        play(read)
        sizes(size=4, kept=kept)
        play(read)
    title("1 for output memory one byte short of 8,192 and 18 for each byte, and none; then enough")
    for bytes_ in ([], [0x02], pulse(0, 1, 1), heard(C), SILENT * 211):
        for room in (0, 8191, text_for(len(bytes_)) - 1, text_for(len(bytes_))):
            sizes(room)
            blocks(bytes_)
    title("the same with bytes kept, which count too")
    begin()
    blocks(pulse(0, 1, 1)[:5])
    for room in (text_for(2), text_for(7) - 1, text_for(7)):
        sizes(room, kept=5)
        blocks(pulse(0, 1, 1)[5:])
    title("both at once, and at the end of the trace; then a call goes on")
    blocks(heard(A[:9]) + [0x03, 0])
    sizes(text_for(3) - 1, 2, 2)
    play(1)
    sizes(text_for(2) - 1, 1, 2)
    play(0)
    sizes(text_for(2) - 1, 2, 2)
    play(0)
    state()
    sizes(kept=2)
    blocks(pulse(0, 1, 1)[2:] + heard(A[9:]))
    state()


def out_of_range():
    """16, alone and before 1, 9 and 10."""
    for what in BREAKS:
        title("16, by %s, before 1, 9 and 10, and a good record" % what)
        begin()
        blocks(KEY_ON)
        print("break " + what)
        blocks([], SILENT, UNKNOWN_KINDS[0], CUT[3], BAD_FIELDS[0])
        for room, size, kept in ((8191, BUFFER, 0), (MEMORY, 0, 1), (0, 0, 1), (text_for(1) - 1, BUFFER, 0)):
            sizes(room, size, kept)
            play(1)
        sizes()
    title("16, by the receiver and the meter at once; a session begun anew goes on")
    print("break receiver")
    blocks(SILENT)
    begin()
    blocks(heard(C))


def large_numbers():
    """The numbers of a session are modulo 2^64."""
    title("place, records, frames and replies near and at their largest")
    for value in (LARGEST, LARGEST - 1, 2 ** 32 - 1):
        begin()
        for which in range(4):
            number(which, value)
        blocks(heard(C), heard(C) + CUT[1])
        play(0)


# ---- frames put to a meter -------------------------------------------------------------------------------------------
def frames():
    """Deliveries, and bytes that are none."""
    title("frames in order: read, address read, a write with the key off; nothing from another meter's")
    begin()
    for bytes_ in ([], A, A + C, C + A + READ_TWO + E, READ_TWO + CHANGE):
        put("frames", bytes_)
    title("1 under 35 bytes for each byte of the frames: one byte short, and enough; none for no frames")
    for bytes_ in (A, C + A, READ_TWO):
        for room in (0, 35 * len(bytes_) - 1, 35 * len(bytes_)):
            sizes(room)
            put("frames", bytes_)
    sizes(0)
    put("frames", [])
    sizes()
    title("an address changed, and the next frame to the new address, in one delivery; the old one is not answered")
    blocks(KEY_ON)
    put("frames", READ_TWO + A + CHANGE + A + READ_TWO)
    state()
    title("bytes that are no frame: too few, a wrong checksum, a data length above 200 and beyond the end; no line")
    begin()
    wrong = A[:-2] + [A[-2] ^ 1] + A[-1:]
    for bytes_ in ([0x68], A[:11], A[:-1], wrong, [0] * 12, [0xFF] * 40, A[:9] + [201] + A[10:], A[:9] + [5] + A[10:]):
        put("frames", bytes_)
    title("cut by their data lengths: a frame behind a piece that is none is answered, one that is cut through is not")
    for bytes_ in ([0] * 12 + A, [0] * 13 + A, [0] * 9 + [4] + [0] * 6 + A, [0] * 9 + [201] + [0] * 203 + A, wrong + A,
                   A + wrong + C, A + [0x16], A[:12] + A):
        put("frames", bytes_)
    for what in BREAKS:
        title("16, by %s if it is of the meter, before 1" % what)
        begin()
        print("break " + what)
        put("frames", A)
        sizes(559)
        put("frames", A)
        sizes()


# ---- texts -----------------------------------------------------------------------------------------------------------
def written(call, texts):
    """A text in memory that is one byte short, in as much as it has, and in more."""
    length = len(command.lines(texts))
    for room in (0, length - 1, length, length + 1):
        sizes(room)
        print(call)


def texts():
    """Texts of the replay program."""
    title("refusals, by number and place: 9 and 10 say what they mean")
    begin()
    for place in (0, 9, 10, 99, 4294967296, LARGEST):
        number(0, place)
        for refusal in (9, 10):
            written("refusal %d" % refusal, [replay_texts.refusal(refusal, place)])
    for refusal in (0, 1, 8, 11, 16, 99, 100, 255):
        written("refusal %d" % refusal, [replay_texts.refusal(refusal, LARGEST)])
    title("counts")
    for counts in ((0, 0, 0), (9, 10, 99), (LARGEST, LARGEST, LARGEST), (100, 0, 18446744073709551609)):
        for which, value in enumerate(counts):
            number(1 + which, value)
        written("counts", [replay_texts.counts(*counts)])
    title("how the program is called, and why that is said")
    for reason in range(3):
        written("usage %d" % reason, replay_texts.usage(reason))
    sizes()


def addresses():
    """Texts read as an address."""
    title("twelve digits")
    for text in ("000000000000", ONE, "129078563412", "999999999999", "999999999998", "090807060504"):
        print("address " + text)
    title("no twelve digits")
    print("address")
    for text in ("", "1", "12345678901", "1234567890123", "12345678901:", ":23456789012", "12345678901/", "/23456789012",
                 "12345678901A", "AAAAAAAAAAAA", "1234567890 2", "-12345678901", "99999999999", "9999999999999"):
        print("address " + text)


def called():
    """Calls of the replay program, by how many words they have and the second of them."""
    title("an address: a session of it, with nothing kept")
    for text in ("000000000000", "129078563412", "999999999998"):
        blocks(SETTLE, [1])
        print("called 2 " + text)
        state()
        blocks(SETTLE)
    title("a bad address, and the session stays")
    for text in ("999999999999", "", "1", "12345678901", "1234567890123", "12345678901:", "AAAAAAAAAAAA"):
        print("called 2 " + text)
    title("no address, and more than one word; that is said before a bad address")
    for words in (0, 1, 3, 4294967295):
        for text in (ONE, "999999999999", ""):
            print("called %d %s" % (words, text))
    print("called 1")
    state()


def script():
    """Prints these calls."""
    beginnings()
    cuts()
    together()
    stops()
    short()
    out_of_range()
    large_numbers()
    frames()
    texts()
    addresses()
    called()
