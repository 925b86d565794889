#!/usr/bin/env python3
"""Every stored input and output of the programs, by the generator that works it out.

    python3 tests/stored.py check       says of each stored file whether it is what its generator writes
    python3 tests/stored.py write       writes them all
    python3 tests/stored.py selftest    runs the selftest of every generator

`check` works all out anew, writes nothing, and ends with status 1 if a file differs, is missing, or has no generator.
README.md beside this file says which generator has which file, and from what it works it out.
"""
import glob
import os
import sys

sys.dont_write_bytecode = True  # no compiled copies beside the sources

import checksum_model
import command
import line_model
import line_vectors
import list_model
import model
import receiver_model
import replay_block_model
import replay_model

GENERATORS = (model, line_model, line_vectors, receiver_model, checksum_model, list_model, replay_model, replay_block_model)


def files():
    """The files of all generators, and the name of the generator of each."""
    made = {}
    for generator in GENERATORS:
        for name, content in generator.files().items():
            made[name] = content, generator.__name__ + ".py"
    return made


def found():
    """The names of the stored files that there are."""
    paths = [path for kind in ("args", "stdin", "stdout") for path in glob.glob(command.at_root("crates/*/" + kind))]
    return {os.path.relpath(path, command.ROOT) for path in paths}


def verdict(content, there):
    """How a stored file compares with what its generator writes."""
    if there is None:
        return "missing"
    if there == content:
        return "the same"
    lines, others = content.split(b"\n"), there.split(b"\n")
    same = next((i for i, (a, b) in enumerate(zip(lines, others)) if a != b), min(len(lines), len(others)))
    return "differs, first in line %d" % (same + 1)


def check():
    """Compares each stored file with what its generator writes."""
    made = files()
    names = sorted(set(made) | found())
    bad = 0
    for name in names:
        content, generator = made.get(name, (None, "no generator"))
        said = "not known" if content is None else verdict(content, command.stored(name))
        bad += said != "the same"
        print("%s, by %s: %s" % (name, generator, said))
    print("%d stored files, %d not as they must be" % (len(names), bad))
    sys.exit(1 if bad else 0)


def write():
    """Writes the files of all generators."""
    for generator in GENERATORS:
        generator.write()


def selftest():
    """Runs the selftest of every generator; each is quiet when all agree."""
    for generator in GENERATORS:
        generator.selftest()


if __name__ == "__main__":
    command.run(__doc__, {"check": check, "write": write, "selftest": selftest})
