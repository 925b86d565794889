#!/usr/bin/env python3
"""The listing program, written from document 01 alone, and a long recorded line for the program list_frames.

    python3 tests/list_model.py write       writes crates/list_frames/stdin and stdout
    python3 tests/list_model.py selftest    puts document 01's texts to the model, and checks where the blocks end

The program reads its input into a buffer of 65,536 bytes, behind the bytes of an unfinished frame that it keeps of the
block before. So the first block ends at byte 65,536 of the input, and each other one as many bytes later, less those
kept. The recorded line has another kind of place at each block's end. What the program must write are the lines of the
frames taken in it, by line_model.py. `selftest` is quiet when all agree.
"""
import sys

sys.dont_write_bytecode = True  # no compiled copies beside the sources

import command
from line_model import (
    KINDS, MOST_KEPT, WAKE_UP, Maker, certain, frames_at, kept, open_places, taken, trouble, unfinished,
)
from printed import A, A_LISTED, B, C, C_LISTED, I_WRONG
from wire import frame, frame_around, head, listed

BLOCK = 65536
UP = [1, 2, 3, 4, 5, 6]


def listing(line):
    """The lines that the listing program writes of the bytes of a line: one for each frame taken in it. Its end is a
    silence, behind which all frames taken are certain."""
    return [listed(bytes_) for bytes_ in frames_at(line, taken(line))]


# ---- the beginning of the recorded line ------------------------------------------------------------------------------
def beginning():
    """Document 01's two texts, the longest frame, frames in a damaged one, noise, case I, and an unfinished frame with
    whole ones in its data."""
    make = Maker(645)
    wrong = frame_around([0x11, 0x22, 0x33, 0x44, 0x55, 0x66], 0x1F, B + frame([5, 0, 0, 0, 0, 0x10], 0xD1, [0x02]))
    wrong[-2] += 1
    inside = C + [0xFE] + frame([0x99] * 6, 0x08, [0x12, 0x34]) + A
    return (
        WAKE_UP + A + WAKE_UP + C
        + frame([0x78, 0x56, 0x34, 0x12, 0x90, 0x00], 0xB1, [3 + 7 * i & 0xFF for i in range(200)])
        + wrong
        + make.few((0x68, 0x16, 0xFE, 0x00, 0x33, 0xC8), 150) + [0x16] * 211
        + frame([0xFE, 0xDC, 0xBA, 0xA6, 0x68, 0xF1], 0x68, [0x68, 0x16, 0xFF, 0xCD])
        + I_WRONG + A
        + head(UP, 0x91, 200) + inside
    )


# ---- block ends ------------------------------------------------------------------------------------------------------
class Recording:
    """A recorded line, made piece by piece, and the places where the program's blocks of it end."""

    def __init__(self, seed, line):
        """The line begins with these bytes."""
        self.make, self.turn = Maker(seed), 0
        self.line, self.ends, self.next_end = list(line), [], BLOCK

    def put(self, bytes_):
        """Puts bytes at the end of the line."""
        self.line.extend(bytes_)

    def cross(self, before, after):
        """Puts two pieces on the line with a block's end between them, behind as many wake-up bytes as that takes; the
        answer is the place of that end, and the bytes that have to be kept there."""
        end = self.next_end
        self.put([0xFE] * (end - len(before) - len(self.line)))
        self.put(before)
        assert len(self.line) == end
        rest = kept(self.line)
        self.ends.append(end)
        self.next_end = end + BLOCK - len(rest)
        self.put(after)
        return end, rest

    def trouble(self):
        """Puts trouble of every kind on the line, each with a whole frame behind it."""
        for kind in KINDS:
            self.put(trouble(self.make, kind, self.turn) + WAKE_UP + self.make.whole(self.make.random.randrange(12)))
            self.turn += 1

    def frame_at(self, place):
        """The length of the frame taken at a place, or None."""
        return dict(taken(self.line)).get(place)


def cross_frame(recording):
    """Inside a frame: of the longest one all is there but the last byte."""
    longest = recording.make.whole(200)
    end, rest = recording.cross(longest[:-1], longest[-1:])
    assert rest == longest[:-1] and len(rest) == MOST_KEPT
    assert recording.frame_at(end - MOST_KEPT) == len(longest)


def cross_inner(recording, good):
    """Inside a frame that stands inside an unfinished one, behind a whole frame that stands there too. Where the outer
    one is then completed it is taken, and they are not; where it is damaged they are taken."""
    whole, inner = recording.make.whole(9), recording.make.whole(30)
    outer = recording.make.around(WAKE_UP + whole + inner, 25)
    inside = 10 + len(WAKE_UP) + len(whole) + 17
    last = outer[inside:] if good else outer[inside:-1] + [0x17]
    end, rest = recording.cross(outer[:inside], last)
    assert rest == outer[:inside]
    # At the block's end the inner one is open too, and the whole one is taken but not certain.
    before = recording.line[:end]
    place_inner, place_whole = end - 17, end - 17 - len(whole)
    assert place_inner in open_places(before)
    assert (place_whole, len(whole)) in taken(before) and (place_whole, len(whole)) not in certain(before)
    assert recording.frame_at(end - inside) == (len(outer) if good else None)
    assert recording.frame_at(place_inner) == (None if good else len(inner))
    assert recording.frame_at(place_whole) == (None if good else len(whole))


def cross_between(recording):
    """Exactly between two frames."""
    first, second = recording.make.whole(7), recording.make.whole(3)
    end, rest = recording.cross(first, second)
    assert rest == []
    assert recording.frame_at(end - len(first)) == len(first) and recording.frame_at(end) == len(second)


def cross_wake_up(recording):
    """Inside wake-up bytes."""
    end, rest = recording.cross(WAKE_UP[:2], WAKE_UP[2:] + A)
    assert rest == [] and recording.line[end - 2:end + 2] == WAKE_UP and recording.frame_at(end + 2) == len(A)


def cross_noise(recording):
    """In noise with no 68 in it."""
    end, rest = recording.cross(recording.make.quiet(300), recording.make.quiet(300) + B)
    assert rest == [] and 0x68 not in recording.line[end - 300:end + 300] and recording.frame_at(end + 300) == len(B)


def cross_lone(recording):
    """Right behind a lone 68: a frame begins behind it, and none at it."""
    end, rest = recording.cross([0x68], A)
    assert rest == [0x68] and recording.frame_at(end - 1) is None and recording.frame_at(end) == len(A)


def end_inside(recording):
    """The end of the input inside an unfinished frame: the whole frames in its data are taken, but not certain before
    the end."""
    last = unfinished(recording.make)
    recording.put(WAKE_UP + last)
    assert len(recording.line) < recording.next_end and kept(recording.line) == last
    assert len(taken(recording.line)) - len(certain(recording.line)) == 4


def recorded():
    """The line, and the places where its blocks end, each of the kind that it is meant to be."""
    recording = Recording(2645, beginning())
    for crossing in (
        cross_frame,
        lambda recording: cross_inner(recording, True),
        lambda recording: cross_inner(recording, False),
        cross_between,
        cross_wake_up,
        cross_noise,
        cross_lone,
    ):
        crossing(recording)
        recording.trouble()
    end_inside(recording)
    return recording.line, recording.ends


def files():
    """The stored files of list_frames."""
    line, _ends = recorded()
    texts = listing(line)
    assert texts[:2] == [A_LISTED, C_LISTED]
    return {"crates/list_frames/stdin": bytes(line), "crates/list_frames/stdout": command.lines(texts)}


def write():
    """Writes the stored files of list_frames."""
    command.write(files())


# ---- the model against document 01 -----------------------------------------------------------------------------------
def selftest():
    """Document 01's two texts; an end of the input inside a frame; and the recorded line, with its block ends."""
    assert listing(WAKE_UP + A) == [A_LISTED] and listing(C) == [C_LISTED] and listing([]) == []
    assert listing(A[:-1]) == [] and listing(head(UP, 0x91, 200) + A + C[:-1]) == [A_LISTED]
    line, ends = recorded()
    start = beginning()
    # The unfinished frame with which the beginning ends is damaged by what comes behind it.
    assert line[:len(start)] == start and listing(line)[:len(listing(start))] == listing(start)
    # Each block brings 65,536 bytes, less those kept of the one before.
    assert len(ends) == 7 and ends[0] == BLOCK
    for before, after in zip(ends, ends[1:]):
        assert after - before == BLOCK - len(kept(line[:before]))
    # A program that took a block's end as a silence would be wrong at the first three.
    cut = [listing(line[:end]) + listing(line[end:]) for end in ends]
    assert [texts == listing(line) for texts in cut] == [False] * 3 + [True] * 4


if __name__ == "__main__":
    command.run(__doc__, {"write": write, "selftest": selftest})
