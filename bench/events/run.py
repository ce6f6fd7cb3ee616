#!/usr/bin/env python3
"""Replays lists of about 2,500 to 20,000 events over small frames, and tells how the time grows with the events.

    run.py [EVENTS ..]

`takes` takes and hands on the rows of one scan, one row at a time. `join` does so below a full join whose built side
has ten rows, with the keys marked, and flushes at the end. `sort` takes the rows of a sort one at a time. Each list is
complete: the program must say so, or the run ends here. Prints the least processor time of several rounds, and how
much longer it took than the size before.
"""

import json
import os
import subprocess
import sys
import tempfile
from pathlib import Path

TOP = Path(__file__).resolve().parent.parent.parent
PROGRAM = TOP / "crates" / "events_program" / "out" / "events_program"
SIZES = [2_500, 5_000, 10_000, 20_000]
ROUNDS = 3
ON_K = [{"col": "k"}]


def scan(frame):
    return {"node": "DataFrameScan", "frame": frame, "columns": None}


def one_by_one(source, rows):
    """Each row of a source is taken, and handed on with its marks."""
    for row in range(rows):
        yield ["Take", 0, source, row, 1]
        yield ["Done", 0]


def takes(rows):
    return [list(range(rows))], [scan(0)], [*one_by_one(0, rows)]


def join(rows):
    full = {
        "node": "Join", "left": 0, "right": 1, "left_on": ON_K, "right_on": ON_K, "how": "full", "join_nulls": False,
        "coalesce": "KeepColumns", "suffix": "_right", "rows_left": [None, rows], "rows_right": [None, 10],
    }  # fmt: skip
    events = [["Take", 0, 1, 0, 10], ["Done", 0], ["Close", 2, "Build"], *one_by_one(0, rows), ["Close", 2, "Probe"]]
    frames = [[row % 20 for row in range(rows)], list(range(10))]
    return frames, [scan(0), scan(1), full], [*events, ["Flush", 0, 2, 0], ["Emit", 0]]


def sort(rows):
    down = {"node": "Sort", "input": 0, "by": ["k"], "descending": [True], "nulls_last": [False], "slice": None}
    return (
        [list(range(rows))],
        [scan(0), down],
        [["Take", 0, 0, 0, rows], ["Done", 0], ["Close", 1, "Sort"], *one_by_one(1, rows)],
    )


KINDS = {"takes": takes, "join": join, "sort": sort}


def input_of(kind, events):
    """The input of a list of about so many events, behind its length."""
    frames, plan, listed = KINDS[kind](events // 2)
    columns = [[{"name": "k", "type": "Int64", "values": values}] for values in frames]
    job = {
        "version": 1, "workers": 1, "chunk_rows": 1, "row_limit": 1_000_000,
        "frames": [{"columns": it} for it in columns], "plan": plan, "root": len(plan) - 1,
    }  # fmt: skip
    text = json.dumps({"job": job, "events": listed}).encode()
    return b"%d\n%s" % (len(text), text)


def seconds(file):
    """The processor time of a replay, and what it told."""
    with open(file, "rb") as source, tempfile.TemporaryFile() as told:
        child = subprocess.Popen([PROGRAM], stdin=source, stdout=told)
        _, status, usage = os.wait4(child.pid, 0)
        told.seek(0)
        lines = told.read().decode().splitlines()
    if status or lines[1] != "complete":
        sys.exit(f"a list that is no complete one: {lines[:2]}")
    return usage.ru_utime + usage.ru_stime


def main():
    if not os.access(PROGRAM, os.X_OK):
        sys.exit("build the program first: rt run in crates/events_program")
    sizes = [int(it) for it in sys.argv[1:]] or SIZES
    print(f"{'':8} {'events':>8} {'s':>8} {'growth':>8}")
    with tempfile.TemporaryDirectory() as folder:
        for kind in KINDS:
            before = None
            for size in sizes:
                file = Path(folder) / "input"
                file.write_bytes(input_of(kind, size))
                least = min(seconds(file) for _ in range(ROUNDS))
                print(f"{kind:8} {size:8} {least:8.2f} {f'{least / before:.2f}' if before else '':>8}")
                before = least


main()
