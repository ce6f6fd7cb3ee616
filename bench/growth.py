#!/usr/bin/env python3
"""Builds each named benchmark over the crates, runs it in turn, and prints how its times grow with its sizes.

    growth.py [--in FOLDER] NAME..

It builds in FOLDER, which it keeps, or else in a folder that it removes. A benchmark is a folder beside this script,
as against_rust.py says, but without a counterpart. Its program writes lines of a name, a size, nanoseconds, and a number
that must be the same in every run. Printed are, for each name and size, the median in milliseconds, the number, and
the growth per doubling of the size since the size before.
"""

import argparse
import collections
import math
import statistics
import subprocess
import sys
import tempfile
from pathlib import Path

from against_rust import make_repository

TURNS = 5


def build(top, name):
    """The program."""
    crate = top / "crates" / f"bench_{name}"
    subprocess.run(["rt", "run"], cwd=crate, stdout=subprocess.DEVNULL, check=True)
    return crate / "out" / f"bench_{name}"


def measure(program):
    """The times by name and size, and the number of each."""
    times = collections.defaultdict(lambda: collections.defaultdict(list))
    numbers = {}
    for _ in range(TURNS):
        for line in subprocess.run([program], capture_output=True, text=True, check=True).stdout.splitlines():
            name, size, nanoseconds, number = line.rsplit(" ", 3)
            times[name][int(size)].append(int(nanoseconds) / 1e6)
            if numbers.setdefault((name, size), number) != number:
                sys.exit(f"{name} {size} gives {number} after {numbers[name, size]}")
    return times, numbers


def main(top, names):
    make_repository(top, names)
    for name in names:
        times, numbers = measure(build(top, name))
        print(f"{name}\n  {'':12} {'size':>9} {'ms':>9} {'number':>9} {'per doubling':>13}")
        for call, by_size in times.items():
            before = None
            for size, taken in by_size.items():
                taken = statistics.median(taken)
                growth = ""
                if before:
                    growth = f"{(taken / before[1]) ** (1 / math.log2(size / before[0])):.2f}"
                print(f"  {call:12} {size:9} {taken:9.2f} {numbers[call, str(size)]:>9} {growth:>13}")
                before = size, taken


if __name__ == "__main__":
    parser = argparse.ArgumentParser()
    parser.add_argument("--in", dest="folder", type=Path)
    parser.add_argument("names", nargs="+")
    words = parser.parse_args()
    if words.folder:
        words.folder.mkdir(parents=True, exist_ok=True)
        main(words.folder.resolve(), words.names)
    else:
        with tempfile.TemporaryDirectory() as made:
            main(Path(made), words.names)
