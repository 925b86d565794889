"""Compares what the proved listing program and the one in C write, on each input, and prints for each program the
instructions a byte that callgrind counts in the whole run and the megabytes a second that it takes in."""
import os
import subprocess
import sys

from programs import best_times, instructions, print_figures, print_ratios, ran

DRIVER, FOLDER, *PROGRAMS = sys.argv[1:]
COMMANDS = [[program] for program in PROGRAMS]
INPUTS = subprocess.run([DRIVER, "names"], capture_output=True, text=True, check=True).stdout.splitlines()[-1].split()
COUNTED_COPIES = 10
TIMED_COPIES = 500
COPY = 200_000


def input_file(name, copies):
    path = os.path.join(FOLDER, f"input-{name}-{copies}")
    with open(path, "wb") as out:
        subprocess.run([DRIVER, "input", name, str(copies)], stdout=out, check=True)
    return path


def main():
    counted, speeds = [], []
    for name in INPUTS:
        path = input_file(name, COUNTED_COPIES)
        first, *others = [ran(command, path)[0] for command in COMMANDS]
        if any(other != first for other in others):
            sys.exit(f"DIFFERENCE: the programs list {name} differently")
        counted.append([instructions(command, path) / (COUNTED_COPIES * COPY) for command in COMMANDS])
        os.remove(path)
        path = input_file(name, TIMED_COPIES)
        speeds.append([TIMED_COPIES * COPY / 1e6 / best for best in best_times(COMMANDS, path)])
        os.remove(path)
    print(f"{len(PROGRAMS)} programs list the {len(INPUTS)} inputs alike, {COUNTED_COPIES * COPY} bytes each")
    for title, figures, form in [("instructions a byte", counted, "{:.2f}"), ("megabytes a second", speeds, "{:.0f}")]:
        figures = list(zip(*figures))
        print_figures(title, INPUTS, PROGRAMS, figures, form)
        print_ratios(PROGRAMS, figures)


main()
