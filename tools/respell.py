#!/usr/bin/env python3
"""Respells the hyphened names of definitions, lemmas and goals: words in snake case, types and modules in camel case.

usage: python3 tools/respell.py           at the top of the repository: rewrites crates/*/**/*.antt and the clauses of crates/*/src/**/*.rt
       python3 tools/respell.py --list    changes nothing; lists each name with its new spelling, and the new names that were in use before

A name is respelled if it stands in src/, specs/ or a file of lemmas and is not imported from the library: definitions, records and
their fields, lemmas, what they bind. Names that the library has or that the check makes (loop-place-preserved) keep their dashes. Comments, strings and code keep their text; no
function of src/ has a hyphen in its name.
"""

import glob
import re
import sys

NAME = re.compile(r"(?<![\w'-])[A-Za-z_][\w']*(?:-[\w']+)+(?![\w'-])")
PLAIN = re.compile(r"(?<![\w'-])[A-Za-z_][\w']*(?![\w'-])")
# What is imported from the library.
LIBRARY = re.compile(r"use (?:Rattle\.std|lib|native|mathlib|Prim)\.[^{;\n]*\{([^}]*)\}")
# The files of one function's proof, whose names are goals.
GOALS = ("/Answers.antt", "/Invariants.antt", "/Proof.antt")
# What is no name: comments, strings and byte strings, characters.
ASIDE = {
    "antt": re.compile(r"--(?![^\s]).*|\"(?:\\.|[^\"\\])*\""),
    "rt": re.compile(r"//.*|\"(?:\\.|[^\"\\])*\"|b?'(?:\\.|[^'\\])'"),
}


def respelled(name):
    words = name.split("-")
    if name[0].isupper():
        return "".join(w[:1].upper() + w[1:] for w in words)
    return "_".join(words)


def parts(text, kind):
    """The text cut into code and what is aside, in turn."""
    at = 0
    for m in ASIDE[kind].finditer(text):
        yield True, text[at : m.start()]
        yield False, m.group()
        at = m.end()
    yield True, text[at:]


def files():
    for kind in ("antt", "rt"):
        for path in sorted(glob.glob(f"crates/*/**/*.{kind}", recursive=True)):
            if "/out/" not in path:
                yield kind, path


def declared():
    ours, theirs = set(), set()
    for kind, path in files():
        if not path.endswith(GOALS):
            with open(path, encoding="utf-8") as f:
                for code, part in parts(f.read(), kind):
                    if code:
                        for m in LIBRARY.finditer(part):
                            theirs.update(n.strip().split(" as ")[-1] for n in m.group(1).split(","))
                        ours.update(m.group() for m in NAME.finditer(part))
    return ours - theirs


def main(listing):
    ours = declared()
    found, left, used = {}, {}, {}
    for kind, path in files():
        with open(path, encoding="utf-8") as f:
            text = f.read()
        out = []
        for code, part in parts(text, kind):
            if code:
                for m in PLAIN.finditer(part):
                    used.setdefault(m.group(), set()).add(path)
                for m in NAME.finditer(part):
                    if m.group() in ours:
                        found.setdefault(m.group(), set()).add(path)
                    elif listing:
                        left.setdefault(m.group(), set()).add(path)
                part = NAME.sub(lambda m: respelled(m.group()) if m.group() in ours else m.group(), part)
            out.append(part)
        if not listing and "".join(out) != text:
            with open(path, "w", encoding="utf-8") as f:
                f.write("".join(out))
    if listing:
        back = {}
        for name in sorted(found):
            back.setdefault(respelled(name), []).append(name)
            print(name, respelled(name))
        for new, names in back.items():
            if len(names) > 1:
                print("fall together:", new, *names)
            if new in used:
                print("in use:", new, "for", *names, "in", *sorted(used[new]))
        for name in sorted(left):
            print("left:", name, "in", *sorted(left[name]))
    print(f"{len(found)} names")


main("--list" in sys.argv[1:])
