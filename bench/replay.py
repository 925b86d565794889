"""Compares what the proved replay program and those in C come to, on the stored trace, on damaged traces and on each input,
and prints for each program the instructions that callgrind counts in the whole run, for each byte of a trace, for each byte
record, these beside the receiver's own, and for each record in traces of one other kind, and the megabytes a second that it
takes in. The first program is the proved one. One whose name has `metered` in it has a meter, and has to write what the
proved one writes, to the byte; the others have to count the same records and frames, and the pulses and settlements that the
trace has."""
import os
import random
import re
import subprocess
import sys

from counting import collected, row
from programs import best_times, instructions, print_figures, print_ratios, ran

DRIVER, FOLDER, STORED, *PROGRAMS = sys.argv[1:]
ADDRESS = "129078563412"
COMMANDS = [[program, ADDRESS] for program in PROGRAMS]
LINES = ["mixed", "long", "random", "all-FE"]
INPUTS = ["with-pulses", *LINES]
KINDS = ["silence", "pulse", "key", "settle"]
READERS = ["receive_line", "receive_line_in_place", "receive_line_by_value"]
IDENTIFIERS = [0x00010000, 0x00020000, 0x0001FF00, 0x000100FF, 0x04000101, 0x04000102, 0x04000401]
COUNTED_COPIES = 5
TIMED_COPIES = 50
ALONE = 100_000
DAMAGED = 400
BLOCK = 8192
# Records at both edges of every range, and of kinds that there are not.
EDGES = [b"", b"\0", b"\1\0", b"\2", b"\4\0", b"\4\1", b"\4\2", b"\5", b"\6", b"\xFF", b"\3\0\1\1\2\3\4", b"\3\1\4\1\2\3\4",
         b"\3\2\1\1\2\3\4", b"\3\0\0\1\2\3\4", b"\3\1\5\1\2\3\4"]


# ---- Traces ----

class Trace:
    """The bytes of a trace, and how many records of each kind stand in them."""

    def __init__(self):
        self.bytes = bytearray()
        self.byte_records = self.pulses = self.settlements = self.others = 0

    def hear(self, line):
        for byte in line:
            self.bytes += bytes((1, byte))
        self.byte_records += len(line)

    def silence(self):
        self.bytes.append(2)
        self.others += 1

    def pulse(self, direction, rate, amount):
        self.bytes += bytes((3, direction, rate)) + amount.to_bytes(4, "little")
        self.pulses += 1

    def key(self, on):
        self.bytes += bytes((4, on))
        self.others += 1

    def settle(self):
        self.bytes.append(5)
        self.settlements += 1

    def records(self):
        return self.byte_records + self.pulses + self.settlements + self.others


def line_of(name):
    """A line of the driver, 200,000 bytes."""
    return subprocess.run([DRIVER, "input", name, "1"], capture_output=True, check=True).stdout


def read_request(identifier):
    """A read of the replayed meter, with four wake-up bytes."""
    head = b"\x68" + bytes.fromhex(ADDRESS)[::-1] + b"\x68\x11\x04"
    frame = head + bytes((byte + 0x33) % 256 for byte in identifier.to_bytes(4, "little"))
    return b"\xFE" * 4 + frame + bytes((sum(frame) % 256, 0x16))


def by_chance(trace, kind, given):
    """Adds a record of a kind: a pulse, a key record, a silence or a settlement."""
    if kind == "pulse":
        trace.pulse(given.randrange(2), given.randrange(1, 5), given.randrange(1 << 32))
    elif kind == "key":
        trace.key(given.randrange(2))
    elif kind == "silence":
        trace.silence()
    else:
        trace.settle()


def trace_with_pulses():
    """The frames of the mixed line, one in four of them a read of the replayed meter instead, and between frames what a host
    does: a pulse behind every second, a silence behind one in four, the key behind one in 50, a settlement behind one in 200."""
    given = random.Random(645)
    trace, line, at = Trace(), line_of("mixed"), 0
    while at + 14 <= len(line):
        end = at + 16 + line[at + 13]
        trace.hear(read_request(given.choice(IDENTIFIERS)) if given.randrange(4) == 0 else line[at:end])
        at = end
        for kind, one_in in [("pulse", 2), ("silence", 4), ("key", 50), ("settle", 200)]:
            if given.randrange(one_in) == 0:
                by_chance(trace, kind, given)
    return trace


def trace_of(name):
    """The trace of an input's name: with pulses, or the byte records of a line of the driver and nothing else."""
    if name == "with-pulses":
        return trace_with_pulses()
    trace = Trace()
    trace.hear(line_of(name))
    return trace


def damaged(given):
    """Records by chance, in one of two traces up to the end of a block or nearly; then one at the edge of a range or beyond it,
    and a pulse; in one of two traces the end is cut off."""
    trace = Trace()
    for _ in range(given.randrange(100)):
        kind = given.choice(["read", *KINDS])
        if kind == "read":
            trace.hear(read_request(given.choice(IDENTIFIERS)))
        else:
            by_chance(trace, kind, given)
    if given.randrange(2) == 0:
        trace.bytes += b"\2" * (BLOCK - given.randrange(16) - len(trace.bytes))
    trace.bytes += given.choice(EDGES)
    trace.pulse(1, 4, 1)
    return trace.bytes[:len(trace.bytes) - given.randrange(2) * given.randrange(16)]


def file_of(content, copies=1):
    path = os.path.join(FOLDER, "trace")
    with open(path, "wb") as out:
        for _ in range(copies):
            out.write(content)
    return path


# ---- Comparing ----

def numbers(line):
    return [int(number) for number in re.findall(rb"\d+", line)]


def compare(what, path, expected=None):
    """Ends the program where two programs come to something else on a trace, or where records, pulses and settlements are not
    as many as expected; returns how the proved program ended."""
    (text, said), *others = [ran(command, path) for command in COMMANDS]
    for program, (other_text, other_said) in zip(PROGRAMS[1:], others):
        if "metered" in program or b"refused" in said:
            alike = other_said == said and (other_text == text or "metered" not in program)
        else:
            counted = numbers(other_said)
            alike = counted[:2] == numbers(said)[:2] and (expected is None or [counted[0], *counted[2:]] == expected)
        if not alike:
            sys.exit(f"DIFFERENCE: {os.path.basename(program)} on {what}: {other_said} where the proved program says {said}")
    return text, said


def compare_stored():
    """The trace that ships here, and its stored output."""
    with open(os.path.join(STORED, "stdout"), "rb") as stored:
        if compare("the stored trace", os.path.join(STORED, "stdin"))[0] != stored.read():
            sys.exit("DIFFERENCE: the programs do not write the stored output")


def compare_damaged():
    """Damaged traces; returns how many of them ended well, with 9 and with 10, and fails where one of these never came."""
    given = random.Random(2007)
    ends = {b"records": 0, b"refused with 9 ": 0, b"refused with 10 ": 0}
    for i in range(DAMAGED):
        _, said = compare(f"the damaged trace {i}", file_of(damaged(given)))
        for end in ends:
            ends[end] += end in said
    if 0 in ends.values() or sum(ends.values()) != DAMAGED:
        sys.exit(f"DIFFERENCE: of the damaged traces not every kind came: {ends}")
    return list(ends.values())


# ---- Counting ----

def receiver_cost(reader, name):
    """The instructions a byte that a receiver takes on a line by itself, as `make count` counts them."""
    counted, printed = collected([DRIVER, "run", reader, name], reader)
    return counted / int(printed.split()[0])


def print_beside_receivers(a_byte_record):
    """For byte records alone: what each program takes for one, over what its own receiver takes for a byte."""
    own = {reader: [receiver_cost(reader, name) for name in LINES] for reader in READERS}
    row("a receiver by itself, a byte", LINES)
    for reader in READERS:
        row(reader, [f"{cost:.1f}" for cost in own[reader]])
    row("a byte record / a byte", LINES)
    for program, cells in zip(PROGRAMS, a_byte_record):
        name = os.path.basename(program)
        reader = READERS[0] if program == PROGRAMS[0] else READERS[2] if "by_value" in name else READERS[1]
        row(name, [f"{cell / cost:.2f}" for cell, cost in zip(cells[1:], own[reader])])


def print_alone():
    """For traces of records of one kind, the instructions a record."""
    counted = []
    for kind in KINDS:
        given, trace = random.Random(645), Trace()
        for _ in range(ALONE):
            by_chance(trace, kind, given)
        path = file_of(trace.bytes)
        compare(f"records of the kind {kind}", path, [ALONE, trace.pulses, trace.settlements])
        counted.append([instructions(command, path) / ALONE for command in COMMANDS])
    print_figures("instructions a record of one kind", KINDS, PROGRAMS, list(zip(*counted)), "{:.0f}")


def main():
    compare_stored()
    well, nines, tens = compare_damaged()
    print(f"{len(PROGRAMS)} programs come to the same on the stored trace and on {DAMAGED} damaged traces, of which {well} end well,")
    print(f"{nines} with 9 and {tens} with 10")
    counted, a_byte_record, speeds = [], [], []
    for name in INPUTS:
        trace = trace_of(name)
        path = file_of(trace.bytes, COUNTED_COPIES)
        expected = [COUNTED_COPIES * count for count in (trace.records(), trace.pulses, trace.settlements)]
        _, said = compare(name, path, expected)
        print(f"{name}: {len(trace.bytes)} bytes, of which {COUNTED_COPIES} copies are counted; {said.decode().strip()}")
        found = [instructions(command, path) / COUNTED_COPIES for command in COMMANDS]
        counted.append([count / len(trace.bytes) for count in found])
        a_byte_record.append([count / trace.byte_records for count in found])
        path = file_of(trace.bytes, TIMED_COPIES)
        speeds.append([TIMED_COPIES * len(trace.bytes) / 1e6 / best for best in best_times(COMMANDS, path)])
    counted, a_byte_record, speeds = [list(zip(*figures)) for figures in (counted, a_byte_record, speeds)]
    print_figures("instructions a trace byte", INPUTS, PROGRAMS, counted, "{:.2f}")
    print_ratios(PROGRAMS, counted)
    print_figures("instructions a byte record", INPUTS, PROGRAMS, a_byte_record, "{:.1f}")
    print_beside_receivers(a_byte_record)
    print_alone()
    print_figures("megabytes a second", INPUTS, PROGRAMS, speeds, "{:.0f}")
    os.remove(os.path.join(FOLDER, "trace"))


main()
