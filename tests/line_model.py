#!/usr/bin/env python3
"""The reading of the line, written from document 01 alone, and a hard recorded line for the program run_blocks.

    python3 tests/line_model.py write       writes crates/run_blocks/stdin and stdout
    python3 tests/line_model.py selftest    puts document 01's cases and short random lines to the model

It shares nothing with the Rattle sources. `write` makes the line, from a fixed seed, and works out the frames taken in
it; `selftest` is quiet when all agree.
"""
import functools
import itertools
import random
import sys

sys.dont_write_bytecode = True  # no compiled copies beside the sources

import command
from printed import A, A_LISTED, B, C, C_LISTED, D, E, E_ON, I_WRONG
from wire import frame, frame_around, listed, parse

SILENCE = None  # the other symbols are bytes
WAKE_UP = [0xFE] * 4
MOST_FRAME = 212  # bytes of a frame
MOST_KEPT = MOST_FRAME - 1  # bytes of an unfinished one


# ---- document 01, "Reading of the line": taken -----------------------------------------------------------------------
def starts(line, first):
    """The places from a first one on at which a frame can begin: those with its first byte, 68."""
    return [place for place in range(first, len(line)) if line[place] == 0x68]


def stands(line, place):
    """The length of the frame that stands at a place, or None.

    One stands there if the symbols from there are all the bytes of a frame, with no silence among them. Its tenth byte
    is L, so it can have no other length than 12 and L.
    """
    if line[place] != 0x68 or len(line) < place + 12 or line[place + 9] is SILENCE:
        return None
    length = 12 + line[place + 9]
    symbols = line[place:place + length]
    return length if SILENCE not in symbols and parse(symbols) is not None else None


def covers(start, length, place):
    """Whether a frame covers a place: each from its first byte to its last."""
    return start <= place <= start + length - 1


def taken(line):
    """The frames taken, each as its place and length: one standing at a place is taken exactly if no taken frame that
    began earlier covers that place. One that began more than 211 places earlier has ended before it."""
    chosen = []
    for place in starts(line, 0):
        length = stands(line, place)
        if length is not None:
            near = itertools.takewhile(lambda found: place - found[0] < MOST_FRAME, reversed(chosen))
            if not any(covers(start, n, place) for start, n in near):
                chosen.append((place, length))
    return chosen


def frames_at(line, frames):
    """The bytes of each of these frames of the line."""
    return [line[place:place + length] for place, length in frames]


# ---- document 01, "Reading of the line": certain ---------------------------------------------------------------------
def completed(symbols):
    """A frame that begins with these symbols and has more, or None where there is none.

    So the symbols are a proper beginning of a frame exactly if the answer is a frame. A frame's other bytes follow from
    its address, control and data: what the symbols have of these is taken from them, the rest may be anything and is
    zero, and L is zero where they end before it.
    """
    if SILENCE in symbols:
        return None
    length = symbols[9] if len(symbols) > 9 else 0
    if length > 200:
        return None
    parts = symbols + [0] * (10 + length)
    whole = frame_around(parts[1:7], parts[8], parts[10:10 + length])
    return whole if len(whole) > len(symbols) and whole[:len(symbols)] == symbols else None


def open_places(line):
    """The places from which the symbols up to the end are a proper beginning of a frame."""
    return [place for place in starts(line, max(0, len(line) - MOST_KEPT)) if completed(line[place:]) is not None]


def certain(line):
    """The frames certain after a list of symbols: those taken, at the same place, in every list that begins with it.

    It tries the list itself and, for each place that is still open, the list completed to a frame there. These are
    enough. A frame that stands in the list stands in every longer one too. Say that the choice of a longer list first
    differs at a place: there it takes a frame that does not stand in the list, so this frame ends behind the list, its
    place is open, no frame taken before covers it, and of the list's frames it covers all that begin later; those that
    began earlier are taken still. Now complete the list at that place. Either the frame there is taken, and covers the
    same; or the choice has differed earlier, by a frame that ends behind the list too, and covers these and more. So a
    frame that any longer list loses is lost in one of those tried.
    """
    return list(certain_after(tuple(line)))


@functools.cache
def certain_after(symbols):
    """The frames certain after a list of symbols; a receiver's line is asked for more than once."""
    line = list(symbols)
    tried = [line] + [line[:place] + completed(line[place:]) for place in open_places(line)]
    choices = [set(taken(longer)) for longer in tried]
    return [found for found in taken(line) if all(found in choice for choice in choices)]


def settled(line, symbol):
    """The frames that became certain with one symbol more: those certain after it and not before it."""
    before = certain(line)
    return [found for found in certain(line + [symbol]) if found not in before]


def kept(line):
    """The bytes of the unfinished frame that has to be kept: all from the first place on that may still become a frame
    and that no taken frame covers."""
    chosen = taken(line)
    for place in open_places(line):
        if not any(covers(start, length, place) for start, length in chosen):
            return line[place:]
    return []


# ---- pieces of a hard line -------------------------------------------------------------------------------------------
class Maker:
    """Makes pieces of a line, the same for the same seed."""

    def __init__(self, seed):
        """A maker of these pieces, from a seed."""
        self.random = random.Random(seed)

    def some(self, n):
        """So many bytes, of which every tenth or so is 68."""
        return [0x68 if self.random.random() < 0.1 else self.random.randrange(256) for _ in range(n)]

    def quiet(self, n):
        """So many bytes with no 68 among them."""
        return [b if b != 0x68 else 0x69 for b in (self.random.randrange(256) for _ in range(n))]

    def whole(self, n):
        """A frame with so many data bytes."""
        return frame(self.some(6), self.random.randrange(256), self.some(n))

    def around(self, inner, more=0):
        """A frame whose data field has these bytes as they stand on the line, and some more."""
        field = inner + self.some(more)
        return frame_around(self.some(6), self.random.randrange(256), field)

    def damaged(self, bytes_, how):
        """A frame with one byte that it cannot have."""
        place = {"checksum": len(bytes_) - 2, "last byte": len(bytes_) - 1, "second start": 7, "length": 9}[how]
        b = list(bytes_)
        if how == "length":
            b[place] = self.random.randrange(201, 256)
        else:
            b[place] = (b[place] + self.random.randrange(1, 256)) & 0xFF
        return b

    def cut(self, bytes_):
        """A frame without its end."""
        return bytes_[:self.random.randrange(1, len(bytes_))]

    def straddling(self, good):
        """A frame in whose data another begins that ends behind it; the outer one whole or with a wrong last byte."""
        inner = self.whole(self.random.randrange(20, 60))[:-2]
        inside = self.random.randrange(10, len(inner) - 2)
        outer = self.around(inner[:inside])
        # The inner frame goes on with the outer one's checksum and last byte; its own checksum counts them.
        inner[inside:inside + 2] = outer[-2:]
        inner += [sum(inner) & 0xFF, 0x16]
        if not good:
            # A byte of the outer one's address, which is no byte of the inner one.
            outer[1] ^= 1
        return outer + inner[inside + 2:]

    def few(self, bytes_, n):
        """So many bytes out of a few."""
        return [self.random.choice(bytes_) for _ in range(n)]

    def small(self, depth=0):
        """A small frame, mostly with another in its data, which may have a third; many bytes are 68, 16, or C9, an L
        too large by one."""
        inner = self.small(depth + 1) if depth < 2 and self.random.random() < 0.6 else []
        more = self.few((0x33, 0x68, 0x16, 0x00), self.random.choice((0, 0, 1, 4, 9)))
        address = self.few((0x00, 0x68, 0x16, 0x01, 0xAA, 0xC9), 6)
        return frame_around(address, self.random.choice((0x11, 0x91, 0x68)), inner + more)

    def spoilt(self, bytes_):
        """A frame with one fault: another byte, a byte less, a silence in it, a wrong checksum. Or with none."""
        symbols, what = list(bytes_), self.random.random()
        if what < 0.3:
            byte = self.random.choice((0x68, 0x16, 0x00, 0xC9))
            symbols[self.random.randrange(len(symbols))] = byte
        elif what < 0.5:
            del symbols[self.random.randrange(len(symbols))]
        elif what < 0.6:
            symbols.insert(self.random.randrange(len(symbols)), SILENCE)
        elif what < 0.7:
            symbols[-2] = (symbols[-2] + 1) & 0xFF
        return symbols

    def short_line(self, frames):
        """A line of so many small frames, some of them spoilt, some behind wake-up bytes; a silence may end it."""
        line = []
        for _ in range(frames):
            line += self.random.choice(([], [], WAKE_UP))
            line += self.spoilt(self.small())
        return line + ([SILENCE] if self.random.random() < 0.5 else [])


HOWS = ["checksum", "last byte", "second start", "length"]


def trouble(make, kind, turn):
    """A piece of the line that is more than whole frames behind wake-up bytes."""
    how = HOWS[turn % 4]
    small = make.random.randrange(0, 40)
    if kind == "damaged":
        return make.damaged(make.whole(small), how)
    if kind == "cut":
        return make.cut(make.whole(small)) + make.whole(2) + make.cut(make.whole(small)) + WAKE_UP + make.whole(1)
    if kind == "nested":
        return make.around(make.whole(small) + [0xFE] + make.whole(3), turn)
    if kind == "nested in a damaged one":
        return make.damaged(make.around(make.whole(small) + make.whole(0) + [0x68], turn), how)
    if kind == "nested twice":
        inner = make.damaged(make.around([0x68] + make.whole(small)), HOWS[make.random.randrange(4)])
        return make.damaged(make.around(WAKE_UP + inner + make.whole(1)), how)
    if kind == "straddling":
        return make.straddling(True)
    if kind == "straddling a damaged one":
        return make.straddling(False)
    if kind == "lone starts":
        return [0x68] + make.whole(4) + [0x68, 0xFE, 0x68] + make.whole(0) + [0x68]
    if kind == "noise":
        return make.some(60)
    raise ValueError(kind)


KINDS = [
    "damaged", "cut", "nested", "nested in a damaged one", "nested twice", "straddling", "straddling a damaged one",
    "lone starts", "noise",
]


def unfinished(make):
    """The beginning of a frame of 200 data bytes, with whole frames in its data; its last bytes are missing."""
    inner = make.whole(5) + WAKE_UP + make.whole(0) + [0x68] + make.whole(40) + make.whole(17)
    return make.around(inner, 200 - len(inner))[:205]


# ---- the line of run_blocks ------------------------------------------------------------------------------------------
def recorded():
    """The line: frames of every length, in an order of no rule, with trouble between them; long stretches; and an
    unfinished frame."""
    make = Maker(645)
    line = WAKE_UP + A
    lengths = list(range(201))
    make.random.shuffle(lengths)
    for turn, length in enumerate(lengths):
        line += WAKE_UP * (turn % 3 == 0) + make.whole(length)
        if turn % 4 == 0:
            line += trouble(make, KINDS[turn // 4 % len(KINDS)], turn // 4)
        if turn in (20, 120):
            line += make.quiet(700)
        if turn in (50, 150):
            line += [0x68] * 260
        if turn in (80, 180):
            line += [0xFE] * 320
    return line + WAKE_UP + unfinished(make)


# The calls that are lent less than document 01's rule asks, by what is too short; each is refused with 1 and leaves all as it was.
TOO_SHORT = [
    "a block, memory", "a step, memory", "a step, buffer", "a step, buffer by what is kept", "a step, both",
    "a step, the largest numbers", "a listing, text", "a listing, frames", "a listing, buffer", "a listing, all",
    "a listing, the largest numbers",
]


def output(line):
    """What the program must write of the line."""
    frames = frames_at(line, taken(line))
    return [listed(f) for f in frames] + [
        "%d frames, %d bytes" % (len(frames), sum(len(f) for f in frames)),
        "one block: the same",
        "blocks of 1 to 300 bytes: 300 the same, 0 differ",
        "ended with their last bytes: 300 the same, 0 differ",
        "too short",
    ] + ["%s: refused with 1, nothing changed" % call for call in TOO_SHORT]


def files():
    """The stored files of run_blocks."""
    line = recorded()
    assert len(line) < 32768, len(line)
    return {"crates/run_blocks/stdin": bytes(line), "crates/run_blocks/stdout": command.lines(output(line))}


def write():
    """Writes the stored files of run_blocks."""
    command.write(files())


# ---- the model against document 01 -----------------------------------------------------------------------------------
def selftest_cases():
    """Document 01's cases A to I, as lines, and a few lines more whose frames can be told by hand."""
    # A to E, each behind wake-up bytes and bare; the lines of A and C in the listing.
    for case in (A, B, C, D, E, E_ON):
        assert taken(WAKE_UP + case) == certain(WAKE_UP + case) == [(4, len(case))]
        assert taken(case) == certain(case) == [(0, len(case))]
        assert kept(case) == []
    assert listed(A) == A_LISTED and listed(C) == C_LISTED
    # F: a lone 68 and then A, which is certain with its last byte.
    assert taken([0x68] + A) == certain([0x68] + A) == settled([0x68] + A[:-1], 0x16) == [(1, 16)]
    # G: A with a silence before its last byte. None, and none later.
    g = A[:-1] + [SILENCE, 0x16]
    assert taken(g) == certain(g) == certain(g + [SILENCE]) == [] and kept(g) == []
    # H: A without its last byte. None yet; with 16 behind it A, and with a silence none.
    h = A[:-1]
    assert taken(h) == certain(h) == certain(h + [SILENCE]) == [] and kept(h) == h
    assert certain(h + [0x16]) == settled(h, 0x16) == [(0, 16)]
    # I: A with checksum B4, then A.
    assert taken(I_WRONG + A) == certain(I_WRONG + A) == [(16, 16)]
    assert kept(I_WRONG[:-2]) == I_WRONG[:-2] and kept(I_WRONG[:-1]) == []
    # A frame in a whole one is covered, in a damaged one it is taken; two frames end to end are both taken.
    make = Maker(1)
    outer = make.around(A)
    assert taken(outer) == certain(outer) == [(0, 28)]
    assert taken(make.damaged(outer, "last byte")) == [(10, 16)]
    assert taken(A + C) == certain(A + C) == [(0, 16), (16, 12)]
    # While the outer one may still complete, the inner one is taken in what there is, but not certain.
    assert taken(outer[:-1]) == [(10, 16)] and certain(outer[:-1]) == [] and kept(outer[:-1]) == outer[:-1]
    assert settled(outer[:-1], 0x16) == [(0, 28)]
    assert settled(outer[:-1], 0x17) == settled(outer[:-1], SILENCE) == [(10, 16)]
    # L is at most 200; an eighth byte has to be 68.
    assert completed(A[:9]) is not None and completed(A[:9] + [200]) is not None and completed(A[:9] + [201]) is None
    assert completed(A[:7]) is not None and completed(A[:7] + [0x69]) is None
    assert completed(A) is None and completed(A + [0x68]) is None


def selftest_random():
    """On short lines rich in 68: what document 01 says of certain frames, and that the bytes kept are enough."""
    make = Maker(2007)
    for _ in range(150):
        line = make.short_line(2)
        # With a symbol more none is lost; those certain are taken; behind a silence all those taken are certain.
        before = []
        for n in range(len(line) + 1):
            now = certain(line[:n])
            assert now[:len(before)] == before
            before = now
        assert set(before) <= set(taken(line))
        assert certain(line + [SILENCE]) == taken(line)
        # No continuation loses one; and what comes after is read from the bytes kept.
        rest = kept(line)
        gone = len(line) - len(rest)
        assert len(rest) <= MOST_KEPT and certain(rest) == []
        ends = [completed(line[place:])[len(line) - place:] for place in open_places(line)]
        for more in ends + [make.few((0x68, 0x16, 0x00), 20), make.short_line(1), make.short_line(2)]:
            assert set(before) <= set(taken(line + more))
            later = [(gone + place, length) for place, length in certain(rest + more)]
            assert certain(line + more) == before + later


def selftest():
    """Puts document 01's cases and random lines to the model."""
    selftest_cases()
    selftest_random()


if __name__ == "__main__":
    command.run(__doc__, {"write": write, "selftest": selftest})
