#!/usr/bin/env python3
"""Spells this repository's own definitions, lemmas, fields and locals in snake case: a dash between two words becomes an underscore.

usage: tools/snake_names.py [--list]      at the top of the repository; --list prints the table and changes nothing

It runs once, right after the kit's port.py. A name turns as a whole word, wherever it stands in a proof, a definition, a clause or an edit. Names of the kit keep their spelling, and so do the labels of goals and steps, which today's Rattle makes.
"""

import glob
import re
import sys

WORD = re.compile(r"[^\s(){}.;,@\"«»]+")
DECLARED = re.compile(r"^ *(?:(?:abbrev|unfoldable|pub|record|data|ruleset|let) )*([^\s(){}.;,@\"«»]+)(?: [({][^\n]*?[)}])* :", re.M)
LIBRARY = re.compile(r"use Rattle\.(?:std|core|std_\w+|logic)\.[^\n{]*\{([^}]*)\}")


def texts():
    for kind in ("antt", "rt", "edit"):
        yield from sorted(f for f in glob.glob(f"crates/**/*.{kind}", recursive=True) if "/out/" not in f)


def is_answers(path):
    """A function's goals, whose names Rattle makes; a module of lemmas may be called Invariants too."""
    return path.endswith(("/Answers.antt", "/Invariants.antt")) and not re.fullmatch(r"crates/\w+/proofs/Invariants\.antt", path)


def code_of(text):
    return "\n".join(re.sub(r"(^|\s)--.*", "", line) for line in text.split("\n"))


def dashed(word):
    return bool(re.fullmatch(r"[A-Za-z][A-Za-z0-9]*(-[A-Za-z0-9]+)+'*", word))


def table():
    own, library = set(), set()
    for path in texts():
        text = open(path).read()
        for names in LIBRARY.findall(text):
            library |= {n.split(" as ")[0].strip() for n in names.split(",")}
        if not path.endswith(".antt"):
            continue
        code = code_of(text)
        if is_answers(path):
            for m in DECLARED.finditer(code):
                line = code[m.start() : (code.find("\n", m.end()) + 1 or None)]
                if "goal." not in line and dashed(m[1]):
                    own.add(m[1])
        else:
            own |= {w for w in WORD.findall(code) if dashed(w)}
    return {name: name.replace("-", "_") for name in sorted(own - library)}


def main():
    names = table()
    if "--list" in sys.argv:
        for old, new in names.items():
            print(old, new)
        return
    for path in texts():
        text = open(path).read()
        turned = WORD.sub(lambda m: names.get(m[0], m[0]), text)
        if turned != text:
            open(path, "w").write(turned)


main()
