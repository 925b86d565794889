"""Prints the instructions a byte that callgrind counts within each reader's own function, on each input, and the count
of each proved reader divided by those of the readers in C beside it."""
import subprocess
import sys

from counting import collected, row

DRIVER = sys.argv[1]


def names():
    """The names of the readers, a list for each proved one and those beside it, and of the inputs, as the driver has them."""
    lines = subprocess.run([DRIVER, "names"], capture_output=True, text=True, check=True).stdout.splitlines()
    return [line.split() for line in lines[:-1]], lines[-1].split()


def instructions_a_byte(reader, given):
    """One run under callgrind, which counts only while the reader's function is being run."""
    instructions, printed = collected([DRIVER, "run", reader, given], reader)
    heard = int(printed.split()[0])
    if instructions < heard / 20:
        sys.exit("callgrind counted next to nothing in " + reader + ": has the driver lost its name?")
    return instructions / heard


def main():
    groups, inputs = names()
    row("instructions a byte", inputs)
    for proved, *others in groups:
        counted = {reader: [instructions_a_byte(reader, i) for i in inputs] for reader in [proved, *others]}
        for reader in [proved, *others]:
            row(reader, [f"{n:.2f}" for n in counted[reader]])
        for other in others:
            row(proved + " / " + other, [f"{p / c:.2f}" for p, c in zip(counted[proved], counted[other])])


main()
