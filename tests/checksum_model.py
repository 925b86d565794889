#!/usr/bin/env python3
"""The plain sum of bytes, and what the program run_checksum must write.

    python3 tests/checksum_model.py write       writes crates/run_checksum/stdin and stdout
    python3 tests/checksum_model.py selftest    puts the frames that the papers print to the plain sum

For each length from 0 to 260: how many slices of that length have the 01 in them that stands alone among zeros, which is as
many as the length, and the sums of four slices of bytes from a fixed seed. `selftest` is quiet when all agree.
"""
import random
import sys

sys.dont_write_bytecode = True  # no compiled copies beside the sources

import command
from printed import A, B, C, D, E

MOST = 260
STARTS = range(4)


def plain_sum(data):
    """The sum of the bytes, modulo 256, one after the other."""
    total = 0
    for b in data:
        total = (total + b) % 256
    return total


def given():
    """The bytes of standard input: enough for the longest slice from the last start, with no byte that adds nothing."""
    chosen = random.Random(645)
    return [chosen.randrange(1, 256) for _ in range(MOST + len(STARTS) - 1)]


def with_the_one(n):
    """How many slices of `n` bytes of zeros, a single 01 and zeros have the 01 in them."""
    data = [0] * MOST + [1] + [0] * MOST
    return sum(1 in data[start:start + n] for start in range(len(data) - n + 1))


def output(data):
    """The lines that the program writes of these bytes."""
    for n in range(MOST + 1):
        sums = "".join(" %02X" % plain_sum(data[start:start + n]) for start in STARTS)
        yield "%d bytes, %d with 01,%s" % (n, with_the_one(n), sums)


def files():
    """The stored files of run_checksum."""
    data = given()
    return {"crates/run_checksum/stdin": bytes(data), "crates/run_checksum/stdout": command.lines(output(data))}


def write():
    """Writes the stored files of run_checksum."""
    command.write(files())


def selftest():
    """Document 01's frames have the plain sum of all before it as their checksum; with 01 alone there is one slice for each
    place that it can have."""
    for frame in (A, B, C, D, E):
        assert frame[-2] == plain_sum(frame[:-2])
    assert [with_the_one(n) for n in (0, 1, 2, MOST)] == [0, 1, 2, MOST]


if __name__ == "__main__":
    command.run(__doc__, {"write": write, "selftest": selftest})
