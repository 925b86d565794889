#!/usr/bin/env python3
"""A second receiver, written from document 01 alone, and what the program run_refusals must write.

    python3 tests/receiver_model.py write       writes crates/run_refusals/stdout
    python3 tests/receiver_model.py selftest    hears lines, with refused calls between, and compares with the line

The program takes no input: the receivers and the calls that it makes stand in crates/run_refusals/src/main.rt, and here
once more. The frames that a call settles and the bytes kept come from line_model.py. `selftest` is quiet when all
agree.
"""
import sys

sys.dont_write_bytecode = True  # no compiled copies beside the sources

import command
import line_model
from line_model import MOST_FRAME, MOST_KEPT, SILENCE, Maker, certain, completed, frames_at, settled, unfinished
from printed import A

LEAST_MEMORY = MOST_FRAME
OUT_OF_RANGE, SHORT_MEMORY = 16, 1
FILL = 0xA5  # every byte of the lent memory before a call


# ---- the receiver ----------------------------------------------------------------------------------------------------
class Receiver:
    """What a receiver holds between calls: an array of 211 bytes, and how many of them it counts as kept."""

    def __init__(self, array=(), count=0):
        """A receiver whose array begins with these bytes, and has zeros behind them; without any, a fresh one."""
        self.array = (list(array) + [0] * MOST_KEPT)[:MOST_KEPT]
        self.count = count

    def same(self, other):
        """Whether both hold the same, the array behind the bytes kept too."""
        return self.array == other.array and self.count == other.count

    def in_range(self):
        """Whether the kept bytes are a proper beginning of a frame, or none."""
        return self.count == 0 or self.count <= MOST_KEPT and completed(self.array[:self.count]) is not None

    def call(self, symbol, memory):
        """A call with a symbol and with lent memory: the answer, the receiver and the memory after it.

        The answer is the number of a refusal, after which all is as before, or how many bytes and frames are handed on.
        The papers say nothing of the array behind the kept bytes; it stays as it was.
        """
        if not self.in_range():
            return OUT_OF_RANGE, self, memory
        if len(memory) < LEAST_MEMORY:
            return SHORT_MEMORY, self, memory
        line = self.array[:self.count]
        frames = frames_at(line + [symbol], settled(line, symbol))
        handed = [b for bytes_ in frames for b in bytes_]
        rest = line_model.kept(line + [symbol])
        after = Receiver(rest + self.array[len(rest):], len(rest))
        return (len(handed), len(frames)), after, handed + memory[len(handed):]


# ---- the calls of run_refusals ---------------------------------------------------------------------------------------
def keeping(place, byte, count):
    """A receiver that counts so many kept bytes, the first of which are case A with another byte at a place."""
    return Receiver(A[:place] + [byte] + A[place + 1:], count)


LARGEST = 2 ** 64 - 1
GOOD = [
    ("fresh, no memory", Receiver(), 0),
    ("fresh, 211 bytes", Receiver(), 211),
    ("fresh, 212 bytes", Receiver(), 212),
    ("A but its last byte, 211 bytes", keeping(14, 0xB3, 15), 211),
    ("A but its last byte, 212 bytes", keeping(14, 0xB3, 15), 212),
    ("A but its last byte, 300 bytes", keeping(14, 0xB3, 15), 300),
]
BAD = [
    ("a first byte 67", keeping(0, 0x67, 1), 212),
    ("a first byte 67, 211 bytes", keeping(0, 0x67, 1), 211),
    ("an eighth byte 69", keeping(7, 0x69, 8), 212),
    ("L 201", keeping(9, 201, 10), 212),
    ("A with checksum B4 but its last byte", keeping(14, 0xB4, 15), 212),
    ("A with checksum B4 but its last byte, no memory", keeping(14, 0xB4, 15), 0),
    ("A whole", keeping(14, 0xB3, 16), 212),
    ("A and a byte more", keeping(14, 0xB3, 17), 212),
    ("212 bytes counted", keeping(14, 0xB3, 212), 212),
    ("the largest count", keeping(14, 0xB3, LARGEST), 212),
    ("the largest count, 211 bytes", keeping(14, 0xB3, LARGEST), 211),
]


def told(name, receiver, symbol, room):
    """The line that the program writes of a call with so many bytes of memory: its answer, and what it changed."""
    memory = [FILL] * room
    answer, after, left = receiver.call(symbol, memory)
    return "%s, %s:%s, receiver %s, memory %s" % (
        name,
        "silence" if symbol is SILENCE else "byte",
        " refused %d" % answer if isinstance(answer, int) else " delivered %d %d" % answer,
        "as before" if after.same(receiver) else "changed",
        "as before" if left == memory else "changed",
    )


def output():
    """What the program must write: for each receiver a call with the byte 16, and one with a silence."""
    return [told(name, receiver, symbol, room) for name, receiver, room in GOOD + BAD for symbol in (0x16, SILENCE)]


def files():
    """The stored file of run_refusals."""
    return {"crates/run_refusals/stdout": command.lines(output())}


def write():
    """Writes the stored file of run_refusals."""
    command.write(files())


# ---- the receiver against the line -----------------------------------------------------------------------------------
def hear(make, line):
    """What document 01 says of a list of calls from a fresh receiver, for the calls with the symbols of a line."""
    receiver, before, most = Receiver(), [], 0
    for n, symbol in enumerate(line):
        # A call with too little memory is refused, hands on nothing and leaves all as it was.
        if make.random.randrange(4) == 0:
            short = [FILL] * make.random.randrange(LEAST_MEMORY)
            answer, after, left = receiver.call(make.random.choice((0x68, SILENCE)), short)
            assert answer == SHORT_MEMORY and after.same(receiver) and left == short
        # Any other hands on the frames certain after its symbol and not before it.
        memory = [FILL] * make.random.randrange(LEAST_MEMORY, 300)
        (size, count), receiver, left = receiver.call(symbol, memory)
        now = certain(line[:n + 1])
        frames = frames_at(line, [found for found in now if found not in before])
        assert count == len(frames) and left[:size] == [b for bytes_ in frames for b in bytes_]
        assert left[size:] == memory[size:] and receiver.count <= MOST_KEPT
        before, most = now, max(most, receiver.count)
    return most


def selftest():
    """Lists of calls from a fresh receiver; and refusals, alone and two at once."""
    make = Maker(1997)
    for _ in range(40):
        hear(make, make.short_line(2))
    hear(make, [0x68] * 40 + A + A)
    hear(make, unfinished(make) + [SILENCE])
    assert hear(make, make.whole(200)) == MOST_KEPT
    # A receiver outside its range is refused with 16 before the memory is looked at; also one that counts a byte more
    # than the array has, though its array is a proper beginning of a frame.
    longest = make.whole(200)
    assert Receiver(longest, MOST_KEPT).in_range()
    for receiver in [receiver for _name, receiver, _room in BAD] + [Receiver(longest, MOST_FRAME)]:
        for symbol in (0x16, SILENCE):
            for room in (0, 211, 212, 300):
                answer, after, left = receiver.call(symbol, [FILL] * room)
                assert answer == OUT_OF_RANGE and after is receiver and left == [FILL] * room
    for _name, receiver, room in GOOD:
        answer, _after, _left = receiver.call(SILENCE, [FILL] * room)
        assert (answer == SHORT_MEMORY) == (room < LEAST_MEMORY)


if __name__ == "__main__":
    command.run(__doc__, {"write": write, "selftest": selftest})
