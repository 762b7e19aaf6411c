#!/usr/bin/env python3
"""Brings the repository's own definitions and lemmas to the spelling of the toolchain, once, after its own script.

usage: python3 tools/respell.py        at the top of the repository

Functions, lemmas, fields and local names are in snake case: `holesAt` becomes `holes_at`, and `same-down` becomes
`same_down`. Names of the library and of Rust sources keep their spelling, and so do goals, which are made anew. Where the
new name is a word of antt or of the library, or is another name here already, OTHERS has the one that is meant.
"""

import glob
import os
import re
import sys

WORD = r"A-Za-z0-9_'′→←=∷≤<>∈\-"
TOKEN = re.compile(rf"(?<![{WORD}])[{WORD}]+(?![{WORD}])")
CAMEL = re.compile(r"^→?[a-z][a-z0-9_]*[A-Z]")
DEFINED = re.compile(rf"^(?:  )*(?:abbrev |unfoldable |pub )*([a-z_→][{WORD}]*) :(?= |$)", re.M)
OTHERS = {
    # a lemma beside the definition of its name
    "is-i32": "is_i32_lem",
    "starts-well": "starts_well_lem",
    "truth-of": "truth_of_lem",
    "undone-by": "undone_by_lem",
}


def snake(name):
    name = re.sub(r"(?<=[a-z0-9])([A-Z])", lambda m: "_" + m.group(1).lower(), name)
    return re.sub(r"(?<=[A-Za-z0-9'])-(?=[A-Za-z0-9])", "_", name)


def texts():
    for pattern in ("crates/*/specs/**/*.antt", "crates/*/proofs/**/*.antt", "crates/*/src/**/*.rt", "crates/*/must-fail/*.edit"):
        yield from sorted(glob.glob(pattern, recursive=True))


def own(path):
    """A file of specs/ or of lemmas, and not of one function's proof."""
    return path.endswith(".antt") and os.path.dirname(path).split("/")[2:] in (["specs"], ["proofs"])


def main():
    read = {p: open(p, encoding="utf-8").read() for p in texts()}
    shared = set()
    local = {}
    for p, t in read.items():
        if not p.endswith(".antt"):
            continue
        names = {n for n in DEFINED.findall(t) if "-" in n or CAMEL.match(n)}
        if own(p):
            shared |= names
        else:
            goals = {m.group(1) for m in re.finditer(rf"^([{WORD}]+) : tie\.(?:Need|invariant|decreases)", t, re.M)}
            local[p] = {n for n in names if n not in goals and not n.endswith("-spec")}
    camel = set()
    for p, t in read.items():
        if p.endswith(".antt"):
            code = re.sub(r"--.*", "", t)
            camel |= {n for n in TOKEN.findall(code) if CAMEL.match(n) and "-" not in n}
    taken = set()
    for p, t in read.items():
        taken |= set(TOKEN.findall(t))
    turned = {n: OTHERS.get(n, snake(n)) for n in shared | camel}
    fell = {}
    for old, new in turned.items():
        if new != old and (new in taken or list(turned.values()).count(new) > 1) and old not in OTHERS:
            fell[old] = new
    if "--list" in sys.argv:
        for old, new in sorted(turned.items()):
            print(old, new, "TAKEN" if old in fell else "")
        return
    for p, t in read.items():
        here = dict(turned)
        here.update({n: OTHERS.get(n, snake(n)) for n in local.get(p, ())})

        def turn(m):
            word = m.group(0)
            if m.start() and t[m.start() - 1] == "." and "-" in word:
                return word
            return here.get(word, word)

        new = TOKEN.sub(turn, t)
        if new != t:
            with open(p, "w", encoding="utf-8") as f:
                f.write(new)


if __name__ == "__main__":
    main()
