#!/usr/bin/env python3
"""Runs a job over two tables of 40 columns, of which three are needed, before and after `optimize`.

    bench/wide_jobs/optimized.py [--rows N] [--turns N] [--program PROGRAM]

Prints the least processor time and the peak memory of `check` (which reads the job and no more), of `run`, of
`optimize`, and of `run` on what it wrote. The rows of both runs are the same, or it ends with 1.
"""

import argparse
import os
import subprocess
import sys
import tempfile
from pathlib import Path

TOP = Path(__file__).resolve().parent.parent.parent
PROGRAM = TOP / "crates" / "liskevar" / "out" / "liskevar"
# Where the program runs, as ./liskevar has it.
ENVIRONMENT = {**os.environ, "MALLOC_ARENA_MAX": "1", "MALLOC_MMAP_THRESHOLD_": "524288"}


def measured(words, given, found):
    """The seconds of processor time and the MiB of a process that reads a file and writes another."""
    with open(given, "rb") as source, open(found, "wb") as target:
        process = subprocess.Popen(words, stdin=source, stdout=target, env=ENVIRONMENT)
        _, status, used = os.wait4(process.pid, 0)
    process.returncode = os.waitstatus_to_exitcode(status)
    if process.returncode:
        sys.exit(f"{words} ended with {process.returncode}")
    return used.ru_utime + used.ru_stime, used.ru_maxrss / 1024


def main():
    parser = argparse.ArgumentParser(description=__doc__, formatter_class=argparse.RawDescriptionHelpFormatter)
    parser.add_argument("--rows", type=int, default=100_000)
    parser.add_argument("--turns", type=int, default=5)
    parser.add_argument("--program", default=str(PROGRAM))
    given = parser.parse_args()
    if not os.access(given.program, os.X_OK):
        sys.exit("build the program first: ./liskevar --version")
    with tempfile.TemporaryDirectory() as folder:
        wide, narrow, before, after, said = (Path(folder) / it for it in ("wide", "narrow", "before", "after", "said"))
        # this process stays small: the peak of another counts from what it begins with
        with open(wide, "wb") as file:
            subprocess.run([sys.executable, TOP / "examples" / "wide_job.py", str(given.rows)], stdout=file, check=True)
        works = {
            "check": ("check", wide, said), "run": ("run", wide, before), "optimize": ("optimize", wide, narrow),
            "run of what it wrote": ("run", narrow, after),
        }  # fmt: skip
        best = {}
        for _ in range(given.turns):
            for name, (command, *files) in works.items():
                best[name] = min(best.get(name, (9e9, 9e9)), measured([given.program, command], *files))
        if before.read_bytes() != after.read_bytes():
            sys.exit("the rows differ")
        rows = before.read_bytes().count(b"\n") - 1
        print(f"{wide.stat().st_size / 2**20:.1f} MiB, {given.rows} rows a table, {rows} rows given")
        for name, (seconds, peak) in best.items():
            print(f"{name:20} {seconds:6.2f} s {peak:6.0f} MiB")


if __name__ == "__main__":
    main()
