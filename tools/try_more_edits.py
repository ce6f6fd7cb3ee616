#!/usr/bin/env python3
"""Tries the wrong bodies that stand beside the gate's: crates/NAME/more-edits/*.edit.

Works on a copy of the repository, in which more-edits stand in the place of must-fail, and has the toolchain try them
side by side there, with what it keeps of earlier proofs. Then says by crate how many were refused by a clause, and
names the others: refused only because an answer names a step that is gone (mend or drop these), refused by a limit
of the prover, not refused, or unreadable. Ends with 0 where each was refused by a clause.
"""

import argparse
import collections
import glob
import os
import re
import shutil
import subprocess
import sys
import tempfile

TOP = os.path.dirname(os.path.dirname(os.path.abspath(__file__)))
TOLD = re.compile(r"must-fail (\w+)/(\S+?)\.edit: (.*)")
# What the toolchain says of an edit, and what that means here.
KINDS = {
    "refused, as it must be (only because a proof file names": "an answer names a step that is gone",
    "refused, as it must be (only by a limit": "a limit of the prover alone",
    "refused, as it must be": "by a clause",
    "NOT REFUSED": "NOT REFUSED",
    "BAD EDIT": "unreadable",
    "NOT TRIED": "not tried",
}
BY_A_CLAUSE = KINDS["refused, as it must be"]


def all_edits(names):
    """The edits beside the gate's of these crates, or of all."""
    every = sorted(glob.glob(f"{TOP}/crates/*/more-edits/*.edit"))
    return [it for it in every if not names or crate_of(it) in names]


def crate_of(edit):
    return edit.split("/")[-3]


def sample(edits, size):
    """As many edits as wanted: others at each commit, so that all come round."""
    ran = subprocess.run(["git", "rev-list", "--count", "HEAD"], cwd=TOP, stdout=subprocess.PIPE, check=True)
    first = int(ran.stdout) * size % max(1, len(edits))
    return (edits + edits)[first : first + min(size, len(edits))]


def copied(to, edits):
    """A copy of the crates without what was built, in which these edits are the gate's."""
    skip = shutil.ignore_patterns("out", ".git", "must-fail", "more-edits")
    shutil.copytree(f"{TOP}/crates", f"{to}/crates", ignore=skip)
    for name in ("crates.txt", "HANDLES"):
        shutil.copy(f"{TOP}/{name}", to)
    for edit in edits:
        gate = f"{to}/crates/{crate_of(edit)}/must-fail"
        os.makedirs(gate, exist_ok=True)
        shutil.copy(edit, gate)
    subprocess.run(["git", "init", "-q", to], check=True)


def tried(top, names):
    """What the toolchain says of each edit, as its kind and its words."""
    # a run over named crates is no gate, and the toolchain refuses one that passes itself off as such
    surroundings = {name: value for name, value in os.environ.items() if name != "CI"}
    ran = subprocess.Popen(
        ["rt", "ci", *names], cwd=top, env=surroundings, stdout=subprocess.PIPE, stderr=subprocess.STDOUT, text=True
    )
    for line in ran.stdout:
        found = TOLD.search(line)
        if found:
            crate, name, words = found.groups()
            yield crate, name, next(kind for start, kind in KINDS.items() if words.startswith(start)), words
        elif "NOT PROVED" in line:
            print(line, end="", flush=True)
    ran.wait()


def tell(edits, results):
    """Says by crate what came of the edits. Gives whether each was refused by a clause."""
    found = {(crate, name): (kind, words) for crate, name, kind, words in results}
    counts, others = collections.defaultdict(collections.Counter), []
    for edit in edits:
        key = crate_of(edit), os.path.basename(edit)[: -len(".edit")]
        kind, words = found.get(key, (KINDS["NOT TRIED"], "its crate was not proved"))
        counts[key[0]][kind] += 1
        if kind != BY_A_CLAUSE:
            others.append(f"{key[0]}/{key[1]}: {kind}: {words[:160]}")
    for crate, kinds in counts.items():
        print(f"{crate}: {', '.join(f'{number} {kind}' for kind, number in kinds.items())}")
    print(*others, sep="\n", end="\n" if others else "")
    print(f"{len(edits) - len(others)} of {len(edits)} edits refused by a clause", flush=True)
    return not others


def main():
    parser = argparse.ArgumentParser(description=__doc__.splitlines()[0])
    parser.add_argument("crates", nargs="*", metavar="NAME", help="a crate with more edits; none: each that has some")
    parser.add_argument("--sample", type=int, metavar="N", help="N of them alone, others at each commit")
    parser.add_argument("--list", action="store_true", help="only tell how many edits each crate has")
    given = parser.parse_args()
    edits = all_edits(given.crates)
    unknown = {*given.crates} - {crate_of(it) for it in edits}
    if unknown:
        sys.exit(f"no more-edits in: {', '.join(sorted(unknown))}")
    if given.list:
        for crate, number in collections.Counter(map(crate_of, edits)).items():
            print(f"{crate}: {number}")
        return 0
    if given.sample is not None:
        edits = sample(edits, given.sample)
    if not edits:
        return 0
    with tempfile.TemporaryDirectory(prefix="more-edits-") as to:
        copied(to, edits)
        return 0 if tell(edits, tried(to, sorted({crate_of(it) for it in edits}))) else 1


if __name__ == "__main__":
    sys.exit(main())
