#!/usr/bin/env python3
"""Tells how the program's time and memory grow with the size of whole jobs.

    bench/whole_jobs/growth.py [--rows N] [--turns N] [--work NAME ..]

Each work of works.py is run with N, 2 N and 4 N rows. Times are seconds of processor time of the whole process, the
least of some turns, so that what else the machine does matters little; memory is the program's peak in bytes a byte of
the job. The exponent is that of the power of the job's length by which the time grows from the first size to the last.
"""

import argparse
import json
import math
import os
import subprocess
import sys
import tempfile
from pathlib import Path

import works
from run import ENVIRONMENT, PROGRAM, peak_of


def processor_seconds(job):
    """The seconds of processor time of one run."""
    with open(job, "rb") as source:
        run = subprocess.Popen([PROGRAM, "run"], stdin=source, stdout=subprocess.DEVNULL, env=ENVIRONMENT)
        _, status, used = os.wait4(run.pid, 0)
    if status != 0:
        sys.exit(f"{job} ended with {os.waitstatus_to_exitcode(status)}")
    return used.ru_utime + used.ru_stime


def grown(name, folder, given):
    """One row of the table."""
    lengths, seconds, peaks = [], [], []
    for rows in (given.rows, 2 * given.rows, 4 * given.rows):
        text = json.dumps(works.WORKS[name](rows, 1), separators=(",", ":"))
        if len(text) > works.BYTES_OF_A_JOB:
            break
        job = folder / f"{name}.json"
        job.write_text(text)
        lengths.append(len(text))
        seconds.append(min(processor_seconds(job) for _ in range(given.turns)))
        peaks.append(peak_of(job) / len(text))
    exponent = math.log(seconds[-1] / seconds[0]) / math.log(lengths[-1] / lengths[0]) if len(lengths) > 1 else math.nan
    cells = [name, *(f"{it / 2**20:.1f}" for it in lengths), *(f"{it:.2f}" for it in seconds), *(f"{it:.1f}" for it in peaks)]
    return cells, exponent


def main():
    parser = argparse.ArgumentParser(description=__doc__, formatter_class=argparse.RawDescriptionHelpFormatter)
    parser.add_argument("--rows", type=int, default=400_000, help="rows of the larger frames in the first size")
    parser.add_argument("--turns", type=int, default=3)
    parser.add_argument("--work", action="append", choices=list(works.WORKS), help="given again for the next; all, if left out")
    given = parser.parse_args()
    if not PROGRAM.exists():
        sys.exit("the program isn't built: ./liskevar --version builds it")
    print("| work | MiB, size by size | processor seconds | exponent | memory |\n|---|---|---|---|---|")
    with tempfile.TemporaryDirectory() as folder:
        for name in given.work or works.WORKS:
            (name, *cells), exponent = grown(name, Path(folder), given)
            third = len(cells) // 3
            lengths, seconds, peaks = (", ".join(cells[n * third : (n + 1) * third]) for n in range(3))
            print(f"| {name} | {lengths} | {seconds} | {exponent:.2f} | {peaks} |", flush=True)


if __name__ == "__main__":
    main()
