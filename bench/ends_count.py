"""Prints the instructions a call that callgrind counts within each implementation's own function, for each case of both
ends, and the count of the proved one divided by the smaller of those in C by value, and of those in C by words."""
import subprocess
import sys

from counting import collected, row

DRIVER = sys.argv[1]
WIDTH = 18


def names():
    """The names of the implementations, the proved one first, and of the cases with their operations."""
    lines = subprocess.run([DRIVER, "names"], capture_output=True, text=True, check=True).stdout.splitlines()
    return lines[0].split(), [line.split() for line in lines[1:]]


def instructions(implementation, case, operation):
    """One run under callgrind, which counts only while the implementation's function is being run. A proved call, and one in C
    by value, hands on by value what it is given, and that is counted; what the driver does to call it is not."""
    function = implementation + "_" + operation
    counted, _ = collected([DRIVER, "run", implementation, case], function)
    if counted < 10:
        sys.exit("callgrind counted next to nothing in " + function + ": has the driver lost its name?")
    return counted


def least(counted, word):
    """The smallest count of the implementations whose name has a word in it."""
    return min(count for name, count in counted.items() if word in name)


def main():
    implementations, cases = names()
    proved = implementations[0]
    row("", ["proved"] + [name.rsplit("_", 1)[0] for name in implementations[1:]] + ["proved /"] * 2, WIDTH)
    row("instructions", [""] + [name.rsplit("_", 1)[1] for name in implementations[1:]] + ["by_value", "by_words"], WIDTH)
    for case, operation in cases:
        counted = {name: instructions(name, case, operation) for name in implementations}
        ratios = [counted[proved] / least(counted, "by_value"), counted[proved] / least(counted, "by_words")]
        row(case, [*counted.values()] + [f"{ratio:.2f}" for ratio in ratios], WIDTH)


main()
