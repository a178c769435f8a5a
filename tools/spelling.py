#!/usr/bin/env python3
"""Brings this repository's own definitions and lemmas to today's spelling, once, after the kit's port.py.

usage: tools/spelling.py    at the top of a checkout that port.py has turned

A function in specs/ or proofs/ that was in camel case goes to snake case; a field, constructor or definition of specs/ that had a dash
gets an underscore; a type that had a dash is in upper camel case. A lemma that would then have its function's name ends in _lem.
Functions of src/, comments' words, strings, inputs and outputs keep theirs. Must-fail edits get the same names.
"""
import glob
import re
import sys

TOKEN = re.compile(r"[^\W\d][\w'?]*(?:-[\w'?]+)*|\d[\w'?]*(?:-[\w'?]+)*")
DECLARED = re.compile(r"^\s*(?:(?:unfoldable|abbrev|pub|pattern|axiom)\s+)*([A-Za-z][\w'?]*(?:-[\w'?]+)*)((?:\s+[\w'?-]+)*)\s+:\s")

# A lemma beside the function that it speaks of, and the files that cite it.
LEMMAS = {
    "first_live": ["crates/run/proofs/Cases.antt", "crates/guarantee/proofs/Switch.antt", "crates/guarantee/proofs/Potential.antt", "crates/lent_state/proofs/Limits.antt"],
    "entries_fit": ["crates/plan/proofs/Valid.antt"],
    "from_in": ["crates/lines/proofs/RoundTrip.antt"],
    "to_in": ["crates/lines/proofs/RoundTrip.antt"],
    "in_order": ["crates/calls/proofs/Exits.antt", "crates/block_calls/proofs/Exits.antt"],
}


def files(*patterns):
    return sorted(f for p in patterns for f in glob.glob(p, recursive=True) if "/out/" not in f)


def text_of(path):
    with open(path, encoding="utf-8") as f:
        return f.read()


def snake(name):
    return re.sub(r"([a-z0-9])([A-Z])", lambda m: m.group(1) + "_" + m.group(2).lower(), name)


def declared(paths):
    found = set()
    for p in paths:
        for line in text_of(p).split("\n"):
            m = DECLARED.match(line)
            if m:
                found |= {m.group(1), *m.group(2).split()}
    return found


def new_names(antt):
    everywhere = declared(antt)
    in_specs = declared([p for p in antt if "/specs/" in p])
    new = {n: snake(n) for n in everywhere if n[0].islower() and "-" not in n and re.search(r"[a-z0-9][A-Z]", n)}
    for n in in_specs | {n for n in everywhere if n[0].isupper()}:
        if "-" in n:
            new[n] = "".join(w[0].upper() + w[1:] for w in n.split("-")) if n[0].isupper() else n.replace("-", "_")
    return new


def renamed(code, new):
    return TOKEN.sub(lambda m: new.get(m.group(0), m.group(0)), code)


def turned(text, comment, new):
    lines = []
    for line in text.split("\n"):
        at = line.find(comment)
        code, rest = (line, "") if at < 0 else (line[:at], line[at:])
        # In a comment only names in camel case are names.
        lines.append(renamed(code, new) + renamed(rest, {n: m for n, m in new.items() if "-" not in n}))
    return "\n".join(lines)


def main():
    antt = files("crates/*/specs/**/*.antt", "crates/*/proofs/**/*.antt")
    new = new_names(antt)
    old_names = declared(antt)
    together = sorted(m for n, m in new.items() if m in old_names and m not in LEMMAS)
    print("names that two things have now, in different files:", " ".join(together) or "none")
    for p in files("crates/*/specs/**/*.antt", "crates/*/proofs/**/*.antt", "crates/*/src/*.rt", "crates/*/must-fail/*.edit"):
        before = text_of(p)
        text = before
        for name, paths in LEMMAS.items():
            if p in paths:
                text = renamed(text, {name: name + "_lem"})
        comment = "--" if p.endswith(".antt") else "//" if p.endswith(".rt") else "\0"
        text = turned(text, comment, new)
        if text != before:
            with open(p, "w", encoding="utf-8") as f:
                f.write(text)
    for n in sorted(new):
        print(f"{n} -> {new[n]}")
    return 0


if __name__ == "__main__":
    sys.exit(main())
