#!/usr/bin/env python3
"""Spells the repository's own names of specs/ and proofs/ with underscores: a name with a hyphen, and a prime.

usage: tools/own_names.py [--check]      at the top of the repository

It rewrites the .antt files, the clauses of the .rt files and the must-fail edits of crates/. A name that a file imports from outside the
repository stays as it is, and so does a comment's prose: of a comment only the names that some file declares turn. It ends with 1 where two names
of specs/ would fall together. It is for the tree that the kit's port/port.py leaves of the commit that docs/PORT.md names first, and refuses one
without its Proof.antt files: the answers that came in their place have names of goals whose hyphens stay.
"""
import collections
import os
import re
import sys

TOKEN = re.compile(r"[^\s(){}.;,@\"«»\[\]:`]+")
HYPHENED = re.compile(r"[^\s\d◌(-][^\s]*-[^\s◌-]")
USE = re.compile(r"\b(?:pub )?(?:ghost )?use ([^\s;{]+)(?:\{([^}]*)\})?")
DECLARED = re.compile(r"^\s*(?:unfoldable |abbrev |pub |record |data )*([^\s(){}.;,@\"«»\[\]:]+)(?: .*)? :", re.M)
# A name whose plain spelling stands for something else in its file.
OTHERWISE = {"bit-xor": "last_bit_xor"}


def files():
    for folder, dirs, names in os.walk("crates"):
        dirs[:] = sorted(d for d in dirs if d not in ("out", "target"))
        for name in sorted(names):
            if name.endswith((".antt", ".rt", ".edit")):
                yield os.path.join(folder, name)


def own(crates, path):
    steps = path.split(".")
    return steps[0] == "Rattle" and len(steps) > 1 and steps[1] in crates


def spelled(name):
    if name in OTHERWISE:
        return OTHERWISE[name]
    if re.search(r"[a-z][A-Z]", name):
        name = name.replace("getD", "get_or").replace("sumTo", "sum_to")
    return name.replace("-", "_").replace("′", "'")


def parts(path, text):
    """The text cut into (code?, piece)."""
    mark = {"antt": r"(?:(?<=\s)|^)--[^\n]*", "rt": r"//[^\n]*", "edit": r"^#[^\n]*"}[path.rsplit(".", 1)[1]]
    at = 0
    for m in re.finditer(mark + r"|\"(?:[^\"\\\n]|\\.)*\"", text, re.M):
        yield True, text[at : m.start()]
        yield m.group().startswith('"') and None, m.group()
        at = m.end()
    yield True, text[at:]


def main():
    check = "--check" in sys.argv
    if not any("Proof.antt" in names for _, _, names in os.walk("crates")):
        print("no Proof.antt is here: the names of this repository are spelled already")
        return 2
    texts = {p: open(p, encoding="utf-8").read() for p in files()}
    crates = {p.split("/")[1] for p in texts}
    foreign = set()
    for text in texts.values():
        for path, items in USE.findall(text):
            if not own(crates, path):
                for item in items.split(","):
                    for word in item.replace(" as ", " ").split():
                        foreign.add(word)
    rows = {}
    for path, text in texts.items():
        for code, piece in parts(path, text):
            if code:
                for token in TOKEN.findall(piece):
                    if (HYPHENED.search(token) or "′" in token) and token not in foreign and not token.startswith(("Need-", "After-", "Lts-")):
                        rows[token] = spelled(token)
    # A new spelling that some file has already for something else.
    met = collections.defaultdict(set)
    plain = collections.defaultdict(set)
    for path, text in texts.items():
        for code, piece in parts(path, text):
            if code:
                for token in TOKEN.findall(piece):
                    plain[token].add(path)
    together = []
    for old, new in sorted(rows.items()):
        met[new].add(old)
        for path in sorted(plain[old] & plain[new]):
            together.append(f"{path}: {old} and {new}")
    together += [f"{sorted(olds)}" for new, olds in met.items() if len(olds) > 1]
    for line in together:
        print("together: " + line)
    declared = {n for p, t in texts.items() if p.endswith(".antt") for n in DECLARED.findall(t)}
    changed = 0
    for path, text in texts.items():
        new = ""
        for code, piece in parts(path, text):
            if code:
                new += TOKEN.sub(lambda m: rows.get(m.group(), m.group()), piece)
            elif code is False:
                new += TOKEN.sub(lambda m: rows.get(m.group(), m.group()) if m.group() in declared else m.group(), piece)
            else:
                new += piece
        if new != text:
            changed += 1
            if not check:
                with open(path, "w", encoding="utf-8") as f:
                    f.write(new)
    if "--table" in sys.argv:
        for old, new in sorted(rows.items()):
            print(f"{old}\t{new}")
    print(f"{len(rows)} names, {changed} files")
    return 1 if [line for line in together if "/specs/" in line or line.startswith("[")] else 0


sys.exit(main())
