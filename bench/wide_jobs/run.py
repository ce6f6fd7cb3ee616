#!/usr/bin/env python3
"""Runs the program on jobs of ever wider frames, and tells how its time grows with the columns.

    run.py [COLUMNS ..]

Each job joins a frame of so many columns of one cell with a frame of one column, so that the header has all names.
Beside it stands the same text with a version that no job has, which is refused as soon as the JSON is read: that is
what the reading of the JSON alone takes. Prints, for each size, the best of several rounds of both, their ratio, and
how much longer the run took than that of the size before.
"""

import json
import os
import subprocess
import sys
import tempfile
import time
from pathlib import Path

TOP = Path(__file__).resolve().parent.parent.parent
PROGRAM = TOP / "crates" / "liskevar" / "out" / "liskevar"
SIZES = [31_250, 62_500, 125_000, 250_000, 500_000]
ROUNDS = 3


def job_of(columns, version):
    """A job whose left frame is so wide; its names have a long common prefix."""
    column = lambda name: {"name": name, "type": "Int64", "values": [1]}
    wide = [column(f"measured_{it:07}") for it in range(columns)]
    key = {"col": wide[0]["name"]}
    join = {
        "node": "Join", "left": 0, "right": 1, "left_on": [key], "right_on": [{"col": "k"}], "how": "inner",
        "join_nulls": False, "coalesce": "JoinSpecific", "suffix": "_right", "rows_left": [None, 0],
        "rows_right": [None, 0],
    }  # fmt: skip
    scan = lambda frame: {"node": "DataFrameScan", "frame": frame, "columns": None}
    return json.dumps(
        {
            "version": version, "workers": 1, "chunk_rows": 1000, "row_limit": 1000,
            "frames": [{"columns": wide}, {"columns": [column("k")]}], "plan": [scan(0), scan(1), join], "root": 2,
        }, separators=(",", ":"),
    )  # fmt: skip


def seconds(text, folder):
    """The best time of a run, and its status."""
    job = Path(folder) / "job.json"
    job.write_text(text)
    best = None
    for _ in range(ROUNDS):
        with open(job, "rb") as source:
            began = time.perf_counter()
            ran = subprocess.run([PROGRAM, "run"], stdin=source, stdout=subprocess.DEVNULL, stderr=subprocess.DEVNULL)
            took = time.perf_counter() - began
        best = took if best is None else min(best, took)
    return best, ran.returncode


def main():
    if not os.access(PROGRAM, os.X_OK):
        sys.exit("build the program first: ./liskevar run < examples/first_join.json")
    sizes = [int(it) for it in sys.argv[1:]] or SIZES
    before = None
    with tempfile.TemporaryDirectory() as folder:
        print("columns    run (s)  JSON alone (s)  ratio  against the size before")
        for columns in sizes:
            ran, status = seconds(job_of(columns, 1), folder)
            read, refused = seconds(job_of(columns, 99), folder)
            if status != 0 or refused == 0:
                sys.exit(f"{columns} columns: the run ended with {status}, the reading with {refused}")
            growth = f"{ran / before:.2f}" if before else "-"
            print(f"{columns:7}  {ran:9.3f}  {read:14.3f}  {ran / read:5.2f}  {growth}")
            before = ran


if __name__ == "__main__":
    main()
