#!/usr/bin/env python3
"""Runs the replay program on traces in files and in pipes, and compares with replay_model.py.

    python3 tests/replay_files.py             runs crates/replay_trace/out/replay_trace, which `rt run` makes
    python3 tests/replay_files.py PROGRAM     runs another

The one argument of the program is an address, twelve digits, highest first; the trace is its standard input. It writes the
lines of the replies on standard output, and on standard error one line: at the end of the trace the numbers of records, of
frames put to the meter and of replies; or, at a record that is refused, the number of the refusal, the place of the record
in the whole trace and what the number means. Then the lines of the records before it are written too, and no numbers. A
call with no argument, with more than one or with a bad address, an input that cannot be read and lines that cannot be
written are said there too. With `--help` among the arguments it writes one line on standard output, which begins `usage:`.
It says what differs, and ends with status 1 if anything does.
"""
import os
import random
import subprocess
import sys
import tempfile
import time

sys.dont_write_bytecode = True  # no compiled copies beside the sources

import command
import replay_day
import replay_texts
from replay_model import BAD_RECORD, CUT_OFF, KEY, PULSE, SILENT, STEP_MEMORY, day, start
from replay_scripts import heard, pulse
from replay_texts import BAD_ADDRESS, NOT_ONE, USAGE
from printed import A, C

BLOCK = replay_day.BLOCK
ADDRESS = "".join("%02X" % b for b in reversed(replay_day.ADDRESS))


# ---- what must be written --------------------------------------------------------------------------------------------
class Played:
    """A trace replayed by the model up to its end, or to a record that is refused."""

    def __init__(self, address, trace):
        """Steps, one record each."""
        replay, at, records = start(address), 0, 0
        self.lines = []
        # For each place of a record how many records, frames and replies come before it.
        self.before = {}
        while True:
            self.before[at] = records, replay.frames, len(self.lines)
            answer, lines = replay.step(trace, at, STEP_MEMORY)
            if answer[0] != "played":
                self.ends = ending(answer, self.before[at])  # the line on standard error
                return
            self.lines += lines
            records += 1
            at = answer[-1]


def ending(answer, counts):
    """The line on standard error of a replay with this last answer."""
    if answer == ("done",):
        return replay_texts.counts(*counts)
    _bad, number, place = answer
    return replay_texts.refusal(number, place)


# ---- runs ------------------------------------------------------------------------------------------------------------
class Runs:
    """Runs of the program, and what they tell."""

    def __init__(self, program, folder):
        """No run yet."""
        self.program, self.folder, self.count, self.bad = program, folder, 0, 0

    def told(self, name, problem):
        """Counts a run, and says what is wrong with it, if anything is."""
        self.count += 1
        if problem is not None:
            self.bad += 1
            print("%s: %s" % (name, problem))

    def run(self, arguments, stdin=subprocess.DEVNULL, stdout=subprocess.PIPE, feed=None):
        """A run: what it wrote on standard output and on standard error, and what is wrong with the run itself, if
        anything is. `feed` writes to the pipe that is its standard input; what the program writes meanwhile has to be
        little enough for a pipe."""
        pipe = subprocess.PIPE
        process = subprocess.Popen(
            [self.program] + arguments, cwd=self.folder, stdin=pipe if feed else stdin, stdout=stdout, stderr=pipe)
        try:
            if feed:
                feed(process.stdin)
            out, err = process.communicate(timeout=60)
        except (subprocess.TimeoutExpired, BrokenPipeError) as problem:
            process.kill()
            process.communicate()
            return None, None, "it does not read all or does not end: %s" % type(problem).__name__
        return out, err, "ended by signal %d" % -process.returncode if process.returncode < 0 else None

    def expect(self, name, arguments, lines, errors, **how):
        """A run that must write these lines on standard output, and these on standard error."""
        out, err, problem = self.run(arguments, **how)
        self.told(name, problem or difference("output", out, lines) or difference("error", err, errors))

    def replay(self, name, trace, lines, error, address=ADDRESS):
        """A replay of a trace that stands in a file."""
        path = os.path.join(self.folder, "trace")
        with open(path, "wb") as out:
            out.write(bytes(trace))
        with open(path, "rb") as file:
            self.expect(name, [address], lines, [error], stdin=file)

    def short(self, name, trace, address=A[1:7]):
        """A replay of a short trace, which the model plays anew."""
        played = Played(address, trace)
        self.replay(name, trace, played.lines, played.ends, "".join("%02X" % b for b in reversed(address)))

    def fails(self, name, where, **how):
        """A run that must say, with a reason, that standard input or output fails, and nothing else."""
        _out, err, problem = self.run([ADDRESS], **how)
        begins = b"replay_trace: standard " + where + b": "
        if problem is None and not (err.startswith(begins) and err.endswith(b"\n") and len(err) > len(begins) + 1
                                    and err.count(b"\n") == 1):
            problem = "standard error begins %r" % err[:80]
        self.told(name, problem)


def difference(where, written, lines):
    """What differs from the lines that there must be, or None."""
    if written == command.lines(lines):
        return None
    found = written.decode("latin-1").split("\n")
    if found.pop() != "":
        return "the last line on standard %s has no end" % where
    for n, (line, text) in enumerate(zip(found, lines)):
        if line != text:
            return "line %d on standard %s is %r, not %r" % (n + 1, where, line[:120], text[:120])
    return "standard %s has %d lines, not %d" % (where, len(found), len(lines))


def small_writes(trace, most, pauses):
    """Writes a trace to a pipe in pieces of one byte to so many, some of them after a pause."""
    def feed(pipe):
        """Writes the pieces."""
        make, at, raw = random.Random(most), 0, bytes(trace)
        while at < len(raw):
            size = make.randint(1, most)
            pipe.write(raw[at:at + size])
            pipe.flush()
            at += size
            if make.random() < pauses:
                time.sleep(0.002)
    return feed


def run_short(runs):
    """Short traces, and refusals in the first block."""
    runs.short("an empty trace", [])
    runs.short("a silence", [SILENT])
    runs.short("a read", heard(C + A))
    runs.short("an address of 0", heard(C), [0] * 6)
    runs.short("an address of all digits", heard(C), [0x01, 0x23, 0x45, 0x67, 0x89, 0x98])
    runs.short("the end is no silence", heard([0x68] * 200 + A))
    for name, tail in TAILS.items():
        for before in ([], [SILENT], pulse(1, 4, 7) + heard(C)):
            runs.short("%s behind %d bytes" % (name, len(before)), before + tail)
    # What stands behind a record that is refused is not played.
    runs.short("a read behind a bad record", heard(C) + [0x06] + heard(C))
    runs.short("a read behind a bad field", heard(C) + [KEY, 2] + heard(C))


# Records that are refused: an unknown kind, a field out of its range, and a record that is cut off, also with a bad field.
TAILS = {
    "an unknown kind": [0x00],
    "an unknown kind, and more": [0x06, 0x01, 0x68, 0x02],
    "a bad direction": [PULSE, 2, 1, 0, 0, 0, 0],
    "a bad rate": [PULSE, 0, 5, 0, 0, 0, 0, SILENT],
    "a bad key": [KEY, 2],
    "a byte cut off": [0x01],
    "a key cut off": [KEY],
    "a pulse cut off": [PULSE, 1, 4, 0, 0, 0],
    "a bad direction cut off": [PULSE, 7],
}


def run_long(runs, trace):
    """The working day, whole and in part: refusals around the ends of blocks, each far behind the first."""
    whole = Played(replay_day.ADDRESS, trace)
    places = sorted(whole.before)
    runs.replay("the day", trace, whole.lines, whole.ends)
    for most, pauses in ((9000, 0.1), (700, 0.02)):
        runs.expect("the day in a pipe, by %d" % most, [ADDRESS], whole.lines, [whole.ends],
                    feed=small_writes(trace, most, pauses))
    make = random.Random(645)
    for end in [BLOCK * n for n in range(1, len(trace) // BLOCK + 1)]:
        # The last places of records before the block's end, the first behind it, and one anywhere in the block.
        near = [place for place in places if end - 8 <= place <= end + 2]
        for place in near + [make.choice([place for place in places if end - BLOCK <= place < end])]:
            counts = whole.before[place]
            lines = whole.lines[:counts[2]]
            runs.replay("the day up to %d" % place, trace[:place], lines, ending(("done",), counts))
            for name in make.sample(sorted(TAILS), 3):
                number = CUT_OFF if "cut off" in name else BAD_RECORD
                runs.replay("%s at %d" % (name, place), trace[:place] + TAILS[name], lines,
                            ending(("bad", number, place), counts))


def run_calls(runs):
    """Arguments that are no address, more or fewer than one, and --help; files that fail. None of them reads the trace."""
    trace = small_writes(heard(C), 1, 0)
    for argument in ("", "1", "12345678901", "1234567890123", "12345678901 ", "+12345678901", "12345678901a",
                     "0x1234567890", "1234567890AB", "1234-5678-90", "９" * 4, "1" * 5000, "999999999999", "AAAAAAAAAAAA", "help", "-h"):
        runs.expect("the address %r" % argument[:20], [argument], [], [BAD_ADDRESS, USAGE])
    for arguments in ([], [ADDRESS, ADDRESS], [ADDRESS, "trace"], ["", ""]):
        runs.expect("%d arguments" % len(arguments), arguments, [], [NOT_ONE, USAGE])
    for arguments in (["--help"], [ADDRESS, "--help"], ["--help", ADDRESS], ["1", "2", "--help"]):
        runs.expect("arguments " + " ".join(arguments), arguments, [USAGE], [])
    folder = os.open(runs.folder, os.O_RDONLY)
    runs.fails("a folder as standard input", b"input", stdin=folder)
    os.close(folder)
    with open("/dev/full", "wb") as full:
        runs.fails("a full standard output", b"output", stdout=full, feed=trace)


def main(program):
    """Runs the program and says how many runs differ."""
    if not os.path.isfile(program):
        sys.exit("there is no program %s; `rt run` in crates/replay_trace makes out/replay_trace there" % program)
    with tempfile.TemporaryDirectory() as folder:
        runs = Runs(os.path.abspath(program), folder)
        run_calls(runs)
        run_short(runs)
        run_long(runs, day().trace)
    print("%d runs, %d differ" % (runs.count, runs.bad))
    sys.exit(1 if runs.bad else 0)


if __name__ == "__main__":
    if len(sys.argv) > 2 or sys.argv[1:] in (["--help"], ["-h"]):
        sys.exit(__doc__)
    main(sys.argv[1] if len(sys.argv) == 2 else command.at_root("crates/replay_trace/out/replay_trace"))
