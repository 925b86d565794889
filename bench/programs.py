"""Whole programs that read a file on standard input: what they write, the instructions that callgrind counts in the whole
run, the time that they take, and tables of these."""
import os
import re
import subprocess
import time

from counting import row

ROUNDS = 7


def ran(command, path):
    """What a program writes on standard output and on standard error."""
    with open(path, "rb") as given:
        done = subprocess.run(command, stdin=given, capture_output=True, check=True)
    return done.stdout, done.stderr


def instructions(command, path):
    """The instructions of one run of a program."""
    tool = ["valgrind", "--tool=callgrind", "--callgrind-out-file=/dev/null"]
    with open(path, "rb") as given:
        done = subprocess.run(tool + command, stdin=given, stdout=subprocess.DEVNULL, stderr=subprocess.PIPE, check=True)
    return int(re.search(rb"Collected : (\d+)", done.stderr).group(1))


def seconds(command, path):
    """How long one run of a program takes."""
    start = time.perf_counter()
    with open(path, "rb") as given:
        subprocess.run(command, stdin=given, stdout=subprocess.DEVNULL, stderr=subprocess.DEVNULL, check=True)
    return time.perf_counter() - start


def best_times(commands, path):
    """The best of some rounds for each program, which take turns in each round."""
    rounds = [[seconds(command, path) for command in commands] for _ in range(ROUNDS)]
    return [min(times) for times in zip(*rounds)]


def print_figures(title, inputs, programs, figures, form):
    """The figures of each program, a column for each input."""
    row(title, inputs)
    for program, cells in zip(programs, figures):
        row(os.path.basename(program), [form.format(cell) for cell in cells])


def print_ratios(programs, figures):
    """The figures of the first program over those of each other."""
    names = [os.path.basename(program) for program in programs]
    for name, cells in zip(names[1:], figures[1:]):
        row(f"{names[0]} / {name}", [f"{a / b:.2f}" for a, b in zip(figures[0], cells)])
