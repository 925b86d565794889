"""Counting by callgrind, and tables of counts."""
import re
import subprocess
import sys


def collected(command, function):
    """The instructions that callgrind counts while a function is being run, and what the command prints."""
    tool = ["valgrind", "--tool=callgrind", "--callgrind-out-file=/dev/null", "--toggle-collect=" + function]
    done = subprocess.run(tool + command, capture_output=True, text=True)
    found = re.search(r"Collected : (\d+)", done.stderr)
    if done.returncode != 0 or found is None:
        sys.exit("callgrind failed:\n" + done.stderr)
    return int(found.group(1)), done.stdout


def row(name, cells, width=38):
    print(f"{name:{width}}" + "".join(f"{cell:>10}" for cell in cells))
