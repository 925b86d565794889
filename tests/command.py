"""How the files of this folder are called, how scripts are carried out, and how stored files are written and compared.
Only imported."""
import os
import sys

ROOT = os.path.dirname(os.path.dirname(os.path.abspath(__file__)))


def run(doc, calls):
    """Makes the call that the command line names; without one, or with another, it says how to call, with status 1."""
    if len(sys.argv) != 2 or sys.argv[1] not in calls:
        sys.exit(doc)
    calls[sys.argv[1]]()


def at_root(name):
    """The path of a file that is named from the root of the repository."""
    return os.path.join(ROOT, name)


def lines(texts):
    """The bytes of a text file with these lines."""
    return "".join(text + "\n" for text in texts).encode()


def write(files):
    """Writes each stored file: a name from the root of the repository, and its bytes."""
    for name, content in files.items():
        with open(at_root(name), "wb") as out:
            out.write(content)


def stored(name):
    """The bytes of a stored file, or None where there is none."""
    try:
        with open(at_root(name), "rb") as file:
            return file.read()
    except FileNotFoundError:
        return None


class Script:
    """What a program that carries out a script holds between its lines. Each call has a method, `call_` and its word, that
    gives the lines which the program writes of it, or None where it is no call with what stands behind the word."""

    def line(self, line):
        """The lines written of a line of the script."""
        if line.startswith("#") or not line:
            return [line]
        word, _, rest = line.partition(" ")
        call = getattr(self, "call_" + word, None)
        written = call(rest) if call else None
        return ["not a call: " + line] if written is None else written

    def output(self, lines):
        """The lines written of a whole script."""
        return [written for line in lines for written in self.line(line)]
