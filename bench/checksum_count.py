"""Prints the instructions a call that callgrind counts within each checksum, on slices of the lengths that frames have."""
import subprocess
import sys

from counting import collected, row

DRIVER = sys.argv[1]
LEAST, MOST = 10, 210
SOME = (10, 14, 22, 62, 210)


def instructions(name, least, most):
    """The instructions of one call for each of these lengths, together."""
    counted, _ = collected([DRIVER, "run", name, str(least), str(most)], name)
    if counted < 10:
        sys.exit("callgrind counted next to nothing in " + name + ": has the driver lost its name?")
    return counted


def main():
    names = subprocess.run([DRIVER, "names"], capture_output=True, text=True, check=True).stdout.split()
    row("instructions a call", [f"{n} bytes" for n in SOME] + [f"{LEAST} to {MOST}"])
    for name in names:
        mean = instructions(name, LEAST, MOST) / (MOST - LEAST + 1)
        row(name, [instructions(name, n, n) for n in SOME] + [f"{mean:.1f}"])


main()
