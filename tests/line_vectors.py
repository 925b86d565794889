#!/usr/bin/env python3
"""Lines of symbols for the program run_vectors, and what a fresh receiver must hand on of each.

    python3 tests/line_vectors.py write       writes crates/run_vectors/stdin and stdout
    python3 tests/line_vectors.py selftest    checks that the hard lines are as hard as their names say

A vector is a name and a line; the bytes and the number of frames behind it are those of the frames certain after the
line, which line_model.py works out. The lines are document 01's cases, the manual's frames, lines made here by hand,
and lines made from a fixed seed. `selftest` is quiet when all agree.
"""
import sys

sys.dont_write_bytecode = True  # no compiled copies beside the sources

import command
from line_model import MOST_KEPT, SILENCE, WAKE_UP, Maker, certain, frames_at, kept, open_places, settled, taken
from printed import A, B, C, D, E, E_ON, I_WRONG, manual_frames
from wire import ended, frame, frame_around, head, hexed, parse

ONE, TWO = [1, 0, 0, 0, 0, 0], [2, 0, 0, 0, 0, 0]
UP = [1, 2, 3, 4, 5, 6]
E_OFF = frame(ONE, 0xD4, [0x04])  # the reply to E with the key off: error 04


# ---- document 01's cases and the manual's frames ---------------------------------------------------------------------
def cases():
    """Document 01's cases A to I; those that are one frame behind wake-up bytes."""
    frames = {"A": A, "B": B, "C": C, "D": D, "E": E, "E-on": E_ON, "E-off": E_OFF}
    vectors = [(name, WAKE_UP + bytes_) for name, bytes_ in frames.items()]
    g = A[:-1] + [SILENCE] + A[-1:]
    return vectors + [
        ("F", [0x68] + A),
        ("G", g),
        ("G-then-A", g + A),
        ("G-twice-then-silence", g + g + [SILENCE]),
        ("H", A[:-1]),
        ("H-then-last-byte", A[:-1] + [0x16]),
        ("I", I_WRONG + A),
    ]


def manual():
    """The manual's frames, named by the line that they are printed at; a silence ends those that are no frames."""
    vectors, seen = [], {}
    for number, bytes_ in manual_frames():
        seen[number] = seen.get(number, 0) + 1
        name = "M" + number + ("-%d" % seen[number] if seen[number] > 1 else "")
        vectors.append((name, bytes_ if parse(bytes_) else bytes_ + [SILENCE]))
    return vectors


# ---- lines made by hand ----------------------------------------------------------------------------------------------
def broken():
    """Frames in the data of one that is given up, at each byte at which it can be; nested ones."""
    outer = frame_around(TWO, 0x91, B + A)
    third = frame_around([7] * 6, 0x11, A)
    second = frame_around([6] * 6, 0x11, third)
    first = frame_around([5] * 6, 0x11, second)
    # Each with the right checksum and a wrong last byte.
    wrong_third = third[:-1] + [0x17]
    wrong_second = frame_around([6] * 6, 0x11, wrong_third)[:-1] + [0x15]
    wrong_first = frame_around([5] * 6, 0x11, wrong_second)[:-1] + [0x15]
    return [
        ("inside-whole-outer", outer),
        ("wrong-checksum-not-yet", outer[:-2]),
        ("wrong-checksum", outer[:-2] + [0x48]),
        ("wrong-checksum-then-16", outer[:-2] + [0x48, 0x16]),
        ("wrong-last-byte-not-yet", outer[:-1]),
        ("wrong-last-byte", outer[:-1] + [0x17]),
        ("last-byte-68-begins-a-frame", outer[:-1] + A),
        ("eighth-byte-wrong-at-eight", [0x68, 5, 4, 3] + A[:4] + [SILENCE]),
        ("eighth-byte-wrong", [0x68, 5, 4, 3] + A),
        # The eighth byte is the first of a frame whose address has the control and the L of 201.
        ("length-C9-inner-begins-at-seven", [0x68] + UP + frame([0x11, 0xC9, 0, 0, 0, 0], 0x11, [0, 0, 1, 0])),
        ("length-C9-then-A", head(UP, 0x91, 201) + A),
        ("length-FF-then-A", head(UP, 0x91, 255) + A),
        ("length-C9-whole-is-no-frame", ended(head(UP, 0x91, 201) + [0x33] * 201) + [SILENCE]),
        ("nested-whole", first),
        ("nested-first-broken", first[:-1] + [0x00]),
        ("nested-two-broken", first[:-4] + [0x66, 0x16, 0x00, 0x16]),
        ("nested-three-broken", wrong_first),
        ("nested-three-broken-silence", wrong_first[:-1] + [SILENCE]),
    ]


def whole():
    """Whole frames: one after the other, covered, the longest, and all of 68."""
    outer = frame_around(ONE, 0x91, [0x33, 0x68, 0xAA, 0xAA, 0xAA, 0xAA])
    # A frame that begins at the outer one's second data byte: its address goes on with the outer one's last two bytes.
    behind = frame([0xAA] * 4 + outer[-2:], 0x13, [])[7:]
    longest = frame([9, 8, 7, 6, 5, 4], 0x91, [7 * i & 0xFF for i in range(200)])
    all_68 = frame_around([0x68] * 6, 0x68, [0x68] * 0x68)
    return [
        ("back-to-back", A + B),
        ("back-to-back-eight", A + B + C + D + E + E_ON + E_OFF + A),
        ("wake-up-between", A + WAKE_UP + B + WAKE_UP),
        ("standing-but-covered", outer + behind + [SILENCE]),
        ("covering-frame-broken", outer[:10] + [0x34] + outer[11:] + behind),
        ("begun-in-a-taken-frame-then-A", outer + A),
        ("longest", WAKE_UP + longest),
        ("longest-not-yet", longest[:-1]),
        ("longest-twice", longest + longest),
        ("all-68-frame", all_68),
        ("68-before-all-68-frame", [0x68] * 3 + all_68 + [SILENCE]),
        ("flood-of-68-then-A", [0x68] * 200 + A + [SILENCE]),
        ("flood-of-FE-then-A", [0xFE] * 300 + A),
    ]


def seventeen():
    """Seventeen frames without data, from an outer frame's second 68 on; their first gives the outer one L = 200."""
    inner = frame([0x00, 200, 1, 2, 3, 4], 0x13, [])
    for i in range(1, 17):
        inner += frame([i, 0, 1, 2, 3, 4], 0x13, [])
    line = [0x68] + UP + inner
    return [
        ("seventeen-not-yet", line[:-1]),
        ("seventeen", line),
        ("seventeen-with-silence", line[:-1] + [SILENCE]),
        ("seventeen-then-A", line + A),
        ("twice-seventeen", line + line),
    ]


def quiet():
    """Unfinished frames, silences inside and between frames, wake-up bytes wherever they can be."""
    begun = head(TWO, 0x91, 48)
    return [
        ("unfinished-outer-not-yet", begun + A),
        ("unfinished-outer-silence", begun + A + [SILENCE]),
        ("unfinished-outer-two-inside-silence", begun + A + B + [SILENCE]),
        ("unfinished-outer-silence-then-A", begun + A + [SILENCE] + A),
        ("unfinished-twice-silence", head(TWO, 0x91, 96) + head([3, 0, 0, 0, 0, 0], 0x91, 48) + A + [SILENCE]),
        ("silence-only", [SILENCE]),
        ("silences-only", [SILENCE] * 3),
        ("nothing", []),
        ("silence-before-A", [SILENCE] * 2 + A),
        ("silence-inside-each-half", A[:8] + [SILENCE] + A[8:] + [SILENCE]),
        ("silence-after-lone-68", [0x68, SILENCE] + A),
        ("wake-up-inside-address", A[:3] + WAKE_UP + A),
        ("wake-up-inside-address-silence", A[:3] + WAKE_UP + A + [SILENCE]),
        ("wake-up-inside-data", begun + WAKE_UP + A + [SILENCE]),
        ("wake-up-before-last-byte", A[:-1] + WAKE_UP + A[-1:] + A),
        ("wake-up-inside-whole-frame", frame_around(ONE, 0x91, WAKE_UP + A + WAKE_UP)),
    ]


def between():
    """Silences between frames, and one in place of each byte of a frame behind which another frame stands."""
    return [
        ("silence-between", A + [SILENCE] + B),
        ("silences-between-and-around", [SILENCE] + A + [SILENCE] * 2 + B + [SILENCE] + C + [SILENCE]),
    ] + [("silence-for-byte-%02d" % i, A[:i] + [SILENCE] + A[i + 1:] + C) for i in range(len(A))]


def together():
    """Unfinished frames, each begun in the data of the one before, whose checksums all fall on one symbol, with A in
    the data of the last; and one symbol that ends four places for four reasons."""
    count = 5
    starts = [head([k + 1] * 6, 0x91, len(A) + 10 * (count - 1 - k)) for k in range(count)]
    line = [b for start in starts for b in start] + A
    checksums = [sum(line[10 * k:]) & 0xFF for k in range(count)]
    none = min(b for b in range(256) if b not in checksums)
    third = line + checksums[2:3]
    # Next comes the first one's last byte, the second one's checksum, the third one's L, the fourth one's eighth byte.
    reasons = head([1] * 6, 0x91, 34) + head([2] * 6, 0x91, 25) + A + [0x68, 0, 0x68, 0, 0, 0, 0, 0x68]
    reasons += [sum(reasons) & 0xFF]
    return [
        ("five-open-not-yet", line),
        ("five-given-up-at-once", line + [none]),
        ("five-given-up-by-a-silence", line + [SILENCE]),
        ("four-of-five-given-up-not-yet", third),
        ("four-of-five-given-up-third-whole", third + [0x16]),
        ("four-of-five-given-up-third-broken", third + [0x17]),
        ("four-reasons-not-yet", reasons),
        ("four-reasons-at-once", reasons + [201]),
        ("four-reasons-first-whole", reasons + [0x16]),
    ]


def stopped():
    """A frame that is given up with A in its data and, behind A, an unfinished one with B in its own: A is certain
    then, and B only when that one is given up too."""
    inner = frame_around([3] * 6, 0x91, B + A)
    outer = frame_around(TWO, 0x91, A + inner[:40])
    line = outer[:-2] + inner[40:-2]
    assert len(outer[:-2]) == 10 + len(A) + 40
    return [
        ("inner-still-open", line[:len(outer) - 1]),
        ("inner-then-whole", line + inner[-2:]),
        ("inner-then-broken", line + inner[-2:-1] + [0x17]),
        ("inner-then-silence", line[:len(outer) - 1] + [SILENCE]),
    ]


# ---- lines made from a seed ------------------------------------------------------------------------------------------
def damaged():
    """Lines of two to five small frames, some in one another, some spoilt."""
    make = Maker(645)
    return [("damaged-%02d" % (i + 1), make.short_line(make.random.randint(2, 5))) for i in range(16)]


TITLE = "# Lines heard and what must be handed on: NAME: SYMBOLS > BYTES HANDED ON / NUMBER OF FRAMES. A silence is --."
GROUPS = [
    ("Cases A to I of document 01. E-on and E-off are the replies with the programming key on and off.", cases),
    ("The complete example frames of the maker's manual, by the line they stand at; the seven misprinted ones end with "
     "a silence.", manual),
    ("Frames inside a broken outer frame, which is given up at its first wrong byte and not before.", broken),
    ("Frames one after the other, covered frames and the longest frame.", whole),
    ("Seventeen frames settled by one symbol: the outer frame says 200 data bytes and its checksum falls on their last "
     "byte.", seventeen),
    ("Unfinished frames, silences and wake-up bytes.", quiet),
    ("Silences between frames, and in place of each byte of A with C behind it.", between),
    ("Several places given up by one symbol.", together),
    ("A frame given up while another, begun in its data, is still open.", stopped),
    ("Damaged lines, made with a fixed seed.", damaged),
]


# ---- the stored files ------------------------------------------------------------------------------------------------
def vector(name, line):
    """A vector as text: its name, the symbols, and the bytes and the number of the frames certain after them."""
    symbols = "".join(" --" if symbol is SILENCE else " %02X" % symbol for symbol in line)
    frames = frames_at(line, certain(line))
    handed = "".join(" " + hexed(bytes_) for bytes_ in frames)
    return "%s:%s >%s / %d" % (name, symbols, handed, len(frames))


def files():
    """The stored files of run_vectors."""
    text = [TITLE]
    names = []
    for words, group in GROUPS:
        text.append("# " + words)
        for name, line in group():
            text.append(vector(name, line))
            names.append(name)
    assert len(names) == len(set(names))
    stdin = command.lines(text)
    assert len(stdin) < 65536, len(stdin)
    told = [name + " ok" for name in names] + ["%d vectors, 0 differ" % len(names)]
    return {"crates/run_vectors/stdin": stdin, "crates/run_vectors/stdout": command.lines(told)}


def write():
    """Writes the stored files of run_vectors."""
    command.write(files())


# ---- the lines against their names -----------------------------------------------------------------------------------
def selftest():
    """What the names of hard lines say, put to the model with the line and its last symbol."""
    lines = {name: line for _words, group in GROUPS for name, line in group()}

    def last(name):
        """The frames, by their bytes, that the last symbol of a line settles."""
        line = lines[name]
        return frames_at(line, settled(line[:-1], line[-1]))

    # The manual has 177 frames, seven of them misprinted.
    assert len(manual()) == 177 and sum(line[-1] is SILENCE for _name, line in manual()) == 7
    # The line parts of document 01's cases, in its words.
    for name, bytes_ in (("A", A), ("B", B), ("C", C), ("D", D), ("E", E), ("E-on", E_ON), ("F", A), ("I", A)):
        assert last(name) == frames_at(lines[name], certain(lines[name])) == [bytes_]
    assert not certain(lines["G"]) and not certain(lines["H"]) and last("H-then-last-byte") == [A]
    # L = 200 whole, and 201 with all its bytes and the right checksum.
    assert [len(bytes_) for bytes_ in last("longest")] == [212] and len(kept(lines["longest-not-yet"])) == MOST_KEPT
    assert lines["length-C9-whole-is-no-frame"][9] == 201 and not taken(lines["length-C9-whole-is-no-frame"])
    # One symbol settles seventeen frames.
    assert not certain(lines["seventeen-not-yet"]) and len(kept(lines["seventeen-not-yet"])) == 210
    assert len(last("seventeen")) == 17 and len(last("seventeen-with-silence")) == 16
    # One symbol gives up five places, or four of them; A is settled when the last of the five is.
    assert len(open_places(lines["five-open-not-yet"])) == 5 and not certain(lines["five-open-not-yet"])
    assert last("five-given-up-at-once") == last("five-given-up-by-a-silence") == [A]
    assert not open_places(lines["five-given-up-at-once"])
    assert open_places(lines["four-of-five-given-up-not-yet"]) == [20] and not last("four-of-five-given-up-not-yet")
    assert [len(bytes_) for bytes_ in last("four-of-five-given-up-third-whole")] == [12 + len(A) + 20]
    assert last("four-of-five-given-up-third-broken") == [A]
    # Four places are given up by one symbol; one more, the last 68, stays open.
    before, after = open_places(lines["four-reasons-not-yet"]), open_places(lines["four-reasons-at-once"])
    assert before == [0, 10, 36, 38, 43] and after == [43] and last("four-reasons-at-once") == [A]
    assert [len(bytes_) for bytes_ in last("four-reasons-first-whole")] == [46]
    # A is settled while the frame behind it is open; then that one is, or the frames in it are.
    assert last("inner-still-open") == [A] and len(kept(lines["inner-still-open"])) == 41
    assert len(last("inner-then-whole")) == 1 and last("inner-then-broken") == [B, A]
    assert last("inner-then-silence") == [B]


if __name__ == "__main__":
    command.run(__doc__, {"write": write, "selftest": selftest})
