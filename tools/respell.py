#!/usr/bin/env python3
"""Brings this repository's own definitions and lemmas to the spelling of today's Rattle.

usage: python3 tools/respell.py        at the top of the repository, after the toolchain's port.py

A word that was camelCase is in snake_case. A dash stays in a name where it joins two names, as in `length-append`; a plain word is
joined by `_`. Types, modules and the code's own names stay. Where two names fall together the lemma gets `_lem`.
It goes by text: crates/*/{src,specs,proofs,must-fail}, and what stands in backticks in README.md and docs/.
With --map it prints the old and the new names and writes nothing.
"""
import glob
import re
import sys

WORD = r"[^\s(){}\[\],;.:λ↦`\"']+"
TOKEN = re.compile(r"[^\s(){}\[\],;.:λ↦`\"|]+")
HEAD = re.compile(r"^\s*(?:(?:abbrev|unfoldable|pub|inline|record|data|ruleset)\s+)*([^\s(){}\[\],;.:λ↦=]+(?:\s+[^\s(){}\[\],;.:λ↦=]+)*?)\s*(?:[({].*)?:(?:\s|$)")
BIND = re.compile(r"(?:\blet|\bin let|[(λ]|,)\s*([^\s(){}\[\],;.:λ↦=]+)\s*(?:=|:)")
USE = re.compile(r"(?m)^\s*(?:pub\s+)?(?:ghost\s+)?use\s+([^\s{;]+?)(?:\.\{([^}]*)\})?;?\s*$")
# Words of the library that a lemma's name may name.
LIBRARY = {
    "length", "append", "take", "drop", "set", "map", "reverse", "replicate", "get_or", "suc", "zero", "add", "sub", "mul", "div",
    "mod", "min", "max", "and", "or", "not", "some", "none", "cond", "pred", "one", "bit_and", "bit_or",
}


def files(ending):
    return sorted(p for p in glob.glob("crates/**/*", recursive=True) if p.endswith(ending) and "/out/" not in p)


def read(path):
    with open(path, encoding="utf-8") as f:
        return f.read()


def snake(name):
    return re.sub(r"(?<=[a-z0-9])([A-Z])", lambda m: "_" + m.group(1).lower(), name)


def is_word(name):
    return name[:1].islower()


def declared(text):
    """The names that a file of specs/ or proofs/ declares, those of fields, constructors and local definitions too."""
    found = set()
    for line in text.split("\n"):
        code = line.split("-- ")[0]
        if re.match(r"\s*(use|pub use|pub mod|mod)\b", code):
            continue
        m = HEAD.match(code)
        if m:
            found |= {w for w in m.group(1).split() if w not in ("pub",)}
        found |= {m.group(1) for m in re.finditer(r"\blet\s+([^\s(){}\[\],;.:λ↦=]+)\s*[=:]", code)}
    return found


def libraries(text, own):
    """The names that a file takes from elsewhere than the repository's crates."""
    found = set()
    for m in USE.finditer(text):
        part = m.group(1).split(".")
        if part[0] == "Rattle" and len(part) > 1 and part[1] in own and m.group(2):
            continue
        if m.group(2):
            found |= {w.split(" as ")[-1].strip() for w in m.group(2).split(",")}
    return found


def names():
    own = {p.split("/")[1] for p in glob.glob("crates/*/")}
    texts = {p: read(p) for p in files(".antt")}
    all_declared = set()
    for text in texts.values():
        all_declared |= declared(text)
    words = {n for n in all_declared if is_word(n)}
    functions = {snake(n) for n in words if "-" not in n} | LIBRARY
    to = {}
    for n in sorted(words):
        if "-" in n:
            parts = [snake(p) for p in n.split("-")]
            joined = "-" if all(p in functions and len(p) > 2 for p in parts) else "_"
            new = joined.join(parts).replace("__", "_")
            new = new.lower() if "_" in new or "-" in new else new
        else:
            new = snake(n)
        if new != n:
            to[n] = new
    homes = {}
    for p, text in texts.items():
        for w in set(TOKEN.findall(text)) & words:
            homes.setdefault(w, set()).add(p)
    taken = {}
    for n in sorted(words, key=lambda n: ("-" in n, n in taken, not to.get(n), n)):
        new = to.get(n, n)
        while new in taken and (n in to or homes.get(n, set()) & homes.get(taken[new], set())):
            new += "_lem"
        taken[new] = n
        if new != n:
            to[n] = new
        else:
            to.pop(n, None)
    return own, to


def respelt(text, to, leave):
    def word(m):
        w = m.group(0)
        return to[w] if w in to and w not in leave else w

    return TOKEN.sub(word, text)


def main():
    own, to = names()
    if "--map" in sys.argv:
        for n in sorted(to):
            print(n, to[n])
        return
    for p in files((".antt", ".rt", ".edit")):
        text = read(p)
        leave = libraries(text, own)
        if not p.endswith(".antt"):
            # A name of the code keeps its spelling.
            leave |= {n for n in to if n == n.lower() and "-" not in n}
        new = respelt(text, to, leave)
        if new != text:
            with open(p, "w", encoding="utf-8") as f:
                f.write(new)
    for p in ["README.md"] + sorted(glob.glob("docs/**/*.md", recursive=True)):
        text = read(p)
        new = re.sub(r"`[^`\n]+`", lambda m: respelt(m.group(0), to, set()), text)
        if new != text:
            with open(p, "w", encoding="utf-8") as f:
                f.write(new)


main()
