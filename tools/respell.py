#!/usr/bin/env python3
"""Spells this repository's own definitions and lemmas as today's Rattle does: words in snake case, facts in camel case.

usage: python3 tools/respell.py      at the top of the repository, once, after the kit's port.py

A name is its own if a file of specs/ or proofs/ declares it and it is no goal of the prover's. `first-fit` becomes
`first_fit`, and `Nothing-leaks`, a fact, `NothingLeaks`. The crate `log` has the name of a library of the kit and
becomes `command_log`. `first_of` is a tactic, so the definition that port.py spells so becomes `first_among`. In
definitions and contracts a word that the library has in two spellings gets the one that contracts use. Functions of
src/, strings, inputs and outputs keep their names. Names that would fall together with another name of the same file
are printed.
"""

import os
import re
import sys

TOP = os.getcwd()
GOALS = ("Answers.antt", "Invariants.antt")
DECLARED = re.compile(r"^\s*(?:abbrev |unfoldable )?(?:pub )?(?:abbrev |unfoldable )?(?:pub )?([^\s(){}\[\],;.«»]+) :(?: |$)")
DATA = re.compile(r"^\s*(?:pub )?(?:data|record) (\S+)")
GOAL = re.compile(r": (?:goal|given|need)\.")
CRATES = {"log": "command_log"}
TACTICS = {"first_of": "first_among"}
WORDS = {"get_or": "slice_index_or", "leb": "nat_le"}
IMPORT = re.compile(r"(?m)^((?:ghost )?use [^{\n]*\{)([^}\n]*)(\};?)$")


def files(*endings):
    for folder, dirs, names in os.walk(os.path.join(TOP, "crates")):
        dirs[:] = sorted(d for d in dirs if d != "out")
        for name in sorted(names):
            if name.endswith(endings):
                yield os.path.join(folder, name)


def read(path):
    with open(path, encoding="utf-8") as f:
        return f.read()


def write(path, text):
    with open(path, "w", encoding="utf-8") as f:
        f.write(text)


def declared():
    names = set()
    for path in files(".antt"):
        for line in read(path).split("\n"):
            m = DECLARED.match(line)
            if m and not (path.endswith(GOALS) and GOAL.search(line)):
                names.add(m.group(1))
            m = DATA.match(line)
            if m:
                names.add(m.group(1))
    return {n for n in names if "-" in n}


def spelled(name):
    if name[0].isupper():
        return "".join(w[0].upper() + w[1:] for w in name.split("-"))
    return name.replace("-", "_")


# a whole name: neither letters nor a dash may stand beside it
def whole(name):
    return r"(?<![\w'-])" + re.escape(name) + r"(?![\w'-])"


def turn(text, turned, pattern):
    return pattern.sub(lambda m: turned[m.group(0)], text)


def one_spelling(text, words):
    for old, new in words.items():
        text = re.sub(whole(old), new, text)
    # a word is imported once
    return IMPORT.sub(lambda m: m.group(1) + ", ".join(dict.fromkeys(m.group(2).split(", "))) + m.group(3), text)


def main():
    turned = {n: spelled(n) for n in declared()}
    pattern = re.compile("|".join(whole(n) for n in sorted(turned, key=len, reverse=True)))
    for path in files(".antt", ".rt"):
        text = read(path)
        for name in sorted({m.group(0) for m in pattern.finditer(text)}):
            if re.search(whole(turned[name]), text):
                print(f"look: {os.path.relpath(path, TOP)}: {name} meets {turned[name]}")
    for path in files(".antt", ".rt", ".edit"):
        text = read(path)
        new = one_spelling(turn(text, turned, pattern), TACTICS)
        if "/specs/" in path or "/src/" in path:
            new = one_spelling(new, WORDS)
        for old_crate, new_crate in CRATES.items():
            new = re.sub(r"\bRattle\.%s\." % old_crate, "Rattle.%s." % new_crate, new)
            new = re.sub(r"(?m)^(\s*(?:pub )?use )%s::" % old_crate, r"\g<1>%s::" % new_crate, new)
        if new != text:
            write(path, new)
    for old_crate, new_crate in CRATES.items():
        folder = os.path.join(TOP, "crates", old_crate)
        if os.path.isdir(folder):
            os.rename(folder, os.path.join(TOP, "crates", new_crate))
        path = os.path.join(TOP, "crates.txt")
        write(path, re.sub(r"(?m)(?<![\w])%s(?![\w])" % old_crate, new_crate, read(path)))
    pages = [os.path.join(TOP, "README.md")]
    pages += [os.path.join(TOP, "docs", f) for f in sorted(os.listdir(os.path.join(TOP, "docs"))) if f.endswith(".md")]
    for path in pages:
        text = read(path)
        new = re.sub(r"`[^`\n]*`", lambda m: turn(m.group(0), turned, pattern), text)
        if new != text:
            write(path, new)
    print(f"{len(turned)} names")
    return 0


if __name__ == "__main__":
    sys.exit(main())
