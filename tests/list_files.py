#!/usr/bin/env python3
"""Runs the listing program on files, on a file as its standard input and on a pipe, and compares with list_model.py.

    python3 tests/list_files.py             runs crates/list_frames/out/list_frames, which `rt run` makes
    python3 tests/list_files.py PROGRAM     runs another

Arguments of the program are names of files, which it lists one after the other; the end of each is a silence. One that
cannot be opened or read is named on standard error, in a line `list_frames: NAME: reason`, and the others go on. With
`--help` among them it writes one line, which begins `usage:`, and lists nothing. Without arguments it lists standard
input. The files are made in a temporary folder. It says what differs, and ends with status 1 if anything does.
"""
import os
import random
import shutil
import subprocess
import sys
import tempfile
import time

sys.dont_write_bytecode = True  # no compiled copies beside the sources

import command
from line_model import WAKE_UP, Maker, unfinished
from list_model import BLOCK, beginning, listing, recorded
from printed import A, B, C
from wire import frame_around

# Nothing is forbidden to root: then the program runs as nobody.
AS_NOBODY = {"user": 65534, "group": 65534, "extra_groups": []} if os.geteuid() == 0 else {}


# ---- files -----------------------------------------------------------------------------------------------------------
def lines_of_files():
    """The bytes of each file, by its name."""
    long_line, ends = recorded()
    outer = frame_around([7] * 6, 0x91, WAKE_UP + A + B + WAKE_UP)
    files = {
        "a": WAKE_UP + A,
        "b and c": B + WAKE_UP + C,
        "empty": [],
        "beginning": beginning(),
        # A frame cut in two, and the frames that stand in one cut in two; what stands at the ends is listed.
        "cut 1": C + A[:-3],
        "cut 2": A[-3:] + B,
        "outer 1": C + outer[:-1],
        "outer 2": outer[-1:] + C,
        "lone 68": [0x68],
        "unfinished": unfinished(Maker(12)),
        # More than a block, as much as a block, one byte less and one more; a block and a frame that is cut at its end.
        "long": long_line,
        "one block": long_line[:BLOCK],
        "one block less": long_line[:BLOCK - 1],
        "one block more": long_line[:BLOCK + 1],
        "two blocks": long_line[:ends[1]],
        "frames only": (A + B + C) * 2000,
        # Names that a program could take for something else.
        "--helper": B,
        "-": C,
        "\u7535\u8868": A,
        "n" * 255: A + C,
        LONGEST: B + C,
    }
    files.update(("small %d" % i, Maker(i).whole(i % 7)) for i in range(200))
    return files


# The longest path that can be opened has 4,095 bytes.
DEEP = ("d" * 249 + "/") * 16
LONGEST = DEEP + "f" * 95
BAD = {
    "missing": "missing",
    "missing in a file": "a/missing",
    "a folder": "folder",
    "no permission": "closed",
    "no name": "",
    "a name too long": "n" * 256,
    "a path too long": DEEP + "f" * 96,
}


def make_files(folder, files):
    """Makes the files in a folder, and there also a folder and a file that nobody may read."""
    os.makedirs(os.path.join(folder, "folder"))
    # The path from the root would be too long: what is made is named from inside the folder.
    before = os.getcwd()
    os.chdir(folder)
    try:
        os.makedirs(DEEP)
        for name, line in files.items():
            with open(name, "wb") as out:
                out.write(bytes(line))
            os.chmod(name, 0o644)
        with open("closed", "wb") as out:
            out.write(bytes(A))
        os.chmod("closed", 0)
    finally:
        os.chdir(before)
    os.chmod(folder, 0o755)


# ---- runs ------------------------------------------------------------------------------------------------------------
class Runs:
    """Runs of the program in the folder, and what they tell."""

    def __init__(self, program, folder, files):
        """No run yet."""
        self.program, self.folder, self.files = program, folder, files
        self.texts = {name: listing(line) for name, line in files.items()}
        self.count, self.bad = 0, 0

    def told(self, name, problem):
        """Counts a run, and says what is wrong with it, if anything is."""
        self.count += 1
        if problem is not None:
            self.bad += 1
            print("%s: %s" % (name, problem))

    def run(self, arguments, stdin=subprocess.DEVNULL, feed=None):
        """A run: what it wrote on standard output and on standard error, and what is wrong with the run itself, if
        anything is. `feed` writes to the pipe that is its standard input; what the program writes meanwhile has to be
        little enough for a pipe."""
        pipe = subprocess.PIPE
        process = subprocess.Popen(
            [self.program] + arguments, cwd=self.folder, stdin=pipe if feed else stdin, stdout=pipe, stderr=pipe,
            **AS_NOBODY,
        )
        try:
            if feed:
                feed(process.stdin)
            out, err = process.communicate(timeout=60)
        except (subprocess.TimeoutExpired, BrokenPipeError) as problem:
            process.kill()
            process.communicate()
            return None, None, "it does not read all or does not end: %s" % type(problem).__name__
        return out, err, "ended by signal %d" % -process.returncode if process.returncode < 0 else None

    def expect(self, name, arguments, texts, bad=(), **how):
        """A run that must write these lines of the listing, and name these files on standard error."""
        out, err, problem = self.run(arguments, **how)
        self.told(name, problem or first_difference(out, texts) or naming_problem(err, bad))

    def list_files(self, name, arguments):
        """A run with these arguments, of which those that are no files are to be named."""
        texts = [text for argument in arguments for text in self.texts.get(argument, [])]
        self.expect(name, arguments, texts, [argument for argument in arguments if argument not in self.files])

    def help(self, name, arguments):
        """A run with --help among the arguments."""
        out, err, problem = self.run(arguments)
        if problem is None and not (out.startswith(b"usage:") and out.endswith(b"\n") and out.count(b"\n") == 1):
            problem = "standard output is not one line that begins 'usage:', but begins %r" % out[:80]
        if problem is None and err:
            problem = "standard error begins %r" % err[:80]
        self.told(name, problem)


def first_difference(out, texts):
    """What differs on standard output from the lines that it must have, or None."""
    if out == command.lines(texts):
        return None
    lines = out.decode("latin-1").split("\n")
    if lines.pop() != "":
        return "the last line on standard output has no end"
    for n, (line, text) in enumerate(zip(lines, texts)):
        if line != text:
            return "line %d on standard output is %r, not %r" % (n + 1, line[:80], text[:80])
    return "standard output has %d lines, not %d" % (len(lines), len(texts))


def naming_problem(err, bad):
    """What differs on standard error from a line for each of these names, in their order, or None."""
    lines = err.split(b"\n")
    if lines.pop() != b"":
        return "the last line on standard error has no end"
    starts = [b"list_frames: " + os.fsencode(name) + b": " for name in bad]
    for line, start in zip(lines, starts):
        if not line.startswith(start) or len(line) == len(start):
            return "a line of %d bytes on standard error begins %r, not with %r of %d bytes and a reason" % (
                len(line), line[:80], start[:80], len(start))
    if len(lines) != len(starts):
        return "standard error has %d lines, not %d" % (len(lines), len(starts))
    return None


def small_writes(line, most, pauses):
    """Writes a line to a pipe in pieces of one byte to so many, some of them after a pause."""
    def feed(pipe):
        """Writes the pieces."""
        make, at, raw = random.Random(most), 0, bytes(line)
        while at < len(raw):
            size = make.randint(1, most)
            pipe.write(raw[at:at + size])
            pipe.flush()
            at += size
            if make.random() < pauses:
                time.sleep(0.002)
    return feed


def run_all(runs):
    """Every run."""
    # Standard input: a file, and a pipe.
    for name in ("long", "beginning", "empty", "one block", "unfinished"):
        with open(os.path.join(runs.folder, name), "rb") as file:
            runs.expect("standard input, " + name, [], runs.texts[name], stdin=file)
    for name, most, pauses in (("beginning", 40, 0.5), ("unfinished", 1, 0.3), ("a", 3, 1), ("long", 9000, 0.1)):
        runs.expect("a pipe, " + name, [], runs.texts[name], feed=small_writes(runs.files[name], most, pauses))
    # Files: each alone, with its neighbours, all, one twice; and standard input is not read then.
    names = [name for name in runs.files if not name.startswith("small ")]
    for name in names:
        runs.list_files("the file " + name[:20], [name])
    for first, second in zip(names, names[1:]):
        runs.list_files("the files %s, %s" % (first[:20], second[:20]), [first, second])
    runs.list_files("a file twice", ["long", "long"])
    runs.list_files("a frame cut in two", ["cut 1", "cut 2"])
    runs.list_files("a frame cut in two with an empty file between", ["cut 1", "empty", "cut 2"])
    runs.list_files("an outer frame cut in two", ["outer 1", "outer 2", "lone 68", "a"])
    runs.list_files("all files", list(runs.files))
    with open(os.path.join(runs.folder, "beginning"), "rb") as file:
        runs.expect("a file, and another on standard input", ["a"], runs.texts["a"], stdin=file)
    # Names that are no files that can be read: alone, between others, behind an unfinished frame, and all of them.
    for name, argument in BAD.items():
        runs.list_files(name, [argument])
        runs.list_files(name + ", between files", ["a", argument, "b and c"])
        runs.list_files(name + ", inside a frame cut in two", ["cut 1", argument, "cut 2"])
    runs.list_files("all that is bad", list(BAD.values()))
    runs.list_files("all that is bad, with files", [name for bad in BAD.values() for name in (bad, "one block more")])
    # --help.
    for arguments in (["--help"], ["--help", "a"], ["a", "--help"], ["a", "--help", "b and c"], ["missing", "--help"]):
        runs.help("arguments " + " ".join(arguments), arguments)


def main(program):
    """Makes the files, runs the program and says how many runs differ."""
    if not os.path.isfile(program):
        sys.exit("there is no program %s; `rt run` in crates/list_frames makes out/list_frames there" % program)
    with tempfile.TemporaryDirectory() as folder:
        copy = os.path.join(folder, "list_frames")
        shutil.copyfile(program, copy)
        os.chmod(copy, 0o755)
        work = os.path.join(folder, "files")
        os.makedirs(work)
        files = lines_of_files()
        make_files(work, files)
        os.chmod(folder, 0o755)
        runs = Runs(copy, work, files)
        run_all(runs)
    print("%d runs, %d differ" % (runs.count, runs.bad))
    sys.exit(1 if runs.bad else 0)


if __name__ == "__main__":
    if len(sys.argv) > 2 or sys.argv[1:] in (["--help"], ["-h"]):
        sys.exit(__doc__)
    main(sys.argv[1] if len(sys.argv) == 2 else command.at_root("crates/list_frames/out/list_frames"))
