#!/usr/bin/env python3
"""Checks that docs/MAP.md has each crate once by its subject, and once in the order of crates.txt, and that the files
which it names are there.

It prints what is wrong, and ends with 1 where something is.

usage: tools/check_map.py
"""
import pathlib
import re
import sys

ROOT = pathlib.Path(__file__).resolve().parent.parent
NAME, FILE = re.compile(r"`([a-z_]+)`"), re.compile(r"`((?:src|specs|proofs|must-fail|data)/[\w./]+)`")
OUTSIDE = re.compile(r"`((?:tools|python|bench|examples|docs)/[\w./]+)`")


def crates():
    """The crates, in their order."""
    lines = (ROOT / "crates.txt").read_text(encoding="utf-8").split("\n")
    return [line.partition(":")[0].split()[0] for line in lines if ":" in line and not line.startswith("#")]


def rows(text):
    """The crates that a row of the table is about, and its text."""
    for line in text.split("\n"):
        cells = line.split("|")
        if line.startswith("| `"):
            yield NAME.findall(cells[1]), line


def changes(text):
    """The crates that a row is about which tells the files of a change, and its text."""
    for line in text.split("\n"):
        if line.startswith(("| pipe_", "| worked_")):
            yield re.findall(r"\w+", line.split("|")[1]), line


def subjects(text):
    """The crates by their subject."""
    for line in text.partition("| subject | crates |\n")[2].split("\n"):
        if not line.startswith("|"):
            return
        if not line.startswith("|---"):
            yield from re.findall(r"\w+", line.split("|")[2])


def faults():
    text = (ROOT / "docs" / "MAP.md").read_text(encoding="utf-8")
    order, told = crates(), [name for names, _ in rows(text) for name in names]
    for names, row in [*rows(text), *changes(text)]:
        yield from (f"{name}: no crate" for name in names if name not in order)
        for path in FILE.findall(row):
            # a row about several crates has the files of one of them
            if not any((ROOT / "crates" / name / path).exists() for name in names):
                yield f"{', '.join(names)}: no file {path}"
    yield from (f"{name}: told of {told.count(name)} times" for name in order if told.count(name) != 1)
    under = list(subjects(text))
    yield from (f"{name}: no crate, and has a subject" for name in under if name not in order)
    yield from (f"{name}: has {under.count(name)} subjects" for name in order if under.count(name) != 1)
    known = [name for name in told if name in order]
    for one, other in zip(known, known[1:]):
        if order.index(one) > order.index(other):
            yield f"{other} stands behind {one}, and before it in crates.txt"
    yield from (f"no file {path}" for path in OUTSIDE.findall(text) if not (ROOT / path).exists())


if __name__ == "__main__":
    found = list(faults())
    print("\n".join(found) if found else "docs/MAP.md has each crate, in order, and no file that isn't there")
    sys.exit(1 if found else 0)
