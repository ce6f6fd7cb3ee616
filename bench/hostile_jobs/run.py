#!/usr/bin/env python3
"""Runs the program on the longest jobs that it reads, each built to be hard in one way, and tells what each ends with.

    bench/hostile_jobs/run.py [--work NAME ..]

Each must end with the status and the line that stand beside it here, within 30 seconds and 5 GiB of memory. Printed
are the length of the job, the status, the seconds of the whole process and its peak of memory; the script ends with 1
where one of them isn't as it must be.
"""

import argparse
import json
import os
import resource
import subprocess
import sys
import tempfile
import time
from pathlib import Path

TOP = Path(__file__).resolve().parent.parent.parent
PROGRAM = TOP / "crates" / "liskevar" / "out" / "liskevar"
BYTES_OF_A_JOB = 33_554_432
SECONDS = 30
BYTES_OF_MEMORY = 5 * 2**30


def column(name, values, dtype="Int64"):
    return {"name": name, "type": dtype, "values": values}


def scan(frame):
    return {"node": "DataFrameScan", "frame": frame, "columns": None}


def job(frames, plan, row_limit=4_294_967_294):
    return {
        "version": 1, "workers": 4, "chunk_rows": 65_536, "row_limit": row_limit,
        "frames": [{"columns": it} for it in frames], "plan": plan, "root": len(plan) - 1,
    }  # fmt: skip


def join(how, left_on, right_on):
    return {
        "node": "Join", "left": 0, "right": 1, "left_on": left_on, "right_on": right_on, "how": how, "join_nulls": False,
        "coalesce": "JoinSpecific", "suffix": "_right", "rows_left": [None, 0], "rows_right": [None, 0],
    }  # fmt: skip


def one_key(how):
    """As many rows as fit, all of one key on both sides, and a limit that lets both sides in and stops their join."""
    rows = 8_388_000
    key = [{"col": "k"}]
    return job([[column("k", [1] * rows)], [column("k", [1] * rows)]], [scan(0), scan(1), join(how, key, key)], rows)


def wide():
    """A frame of 700,000 columns and no row."""
    return job([[column(f"c{n}", []) for n in range(700_000)]], [scan(0)])


def chain():
    """As many nodes as a plan may have, one above the other, over one row."""
    below = {"lt": [{"col": "k"}, {"lit": {"type": "Int64", "value": 2}}]}
    filters = [{"node": "Filter", "input": n, "predicate": below} for n in range(4095)]
    return job([[column("k", [1])]], [scan(0), *filters])


def unions():
    """As many nodes as a plan may have: unions of a scan and the union below."""
    plan = [scan(0)]
    while len(plan) < 4095:
        plan += [scan(0), {"node": "Union", "inputs": [len(plan) - 1, len(plan)]}]
    return job([[column("k", [1])]], plan)


def deep():
    """A filter by an expression of 120 levels, over as many rows as fit."""
    expression = {"eq": [{"col": "k"}, {"col": "k"}]}
    for _ in range(57):
        expression = {"not": expression}
    return job([[column("k", list(range(4_000_000)))]], [scan(0), {"node": "Filter", "input": 0, "predicate": expression}])


def long_texts():
    """Two texts of 16 MiB less some bytes, which are the two sides' keys."""
    text = "a" * (2**24 - 400)
    key = [{"col": "k"}]
    sides = [[column("k", [text], "String")], [column("k", [text], "String")]]
    return job(sides, [scan(0), scan(1), join("inner", key, key)])


def objects(item, count):
    """An array of so many objects, which is no job."""
    return "[" + ",".join([item] * count) + "]"


# Each job, and the status and the line that it has to end with.
WORKS = {
    "one key, inner": (lambda: one_key("inner"), 7, "error 7: TooMany at node 2"),
    "one key, left": (lambda: one_key("left"), 7, "error 7: TooMany at node 2"),
    "one key, full": (lambda: one_key("full"), 7, "error 7: TooMany at node 2"),
    "one key, semi": (lambda: one_key("semi"), 0, ""),
    "one key, anti": (lambda: one_key("anti"), 0, ""),
    "700,000 columns": (wide, 0, ""),
    "4,096 nodes, filters": (chain, 0, ""),
    "4,095 nodes, unions": (unions, 0, ""),
    "an expression 120 deep": (deep, 0, ""),
    "texts of 16 MiB": (long_texts, 0, ""),
    "4,000,000 objects": (lambda: objects('{"a":1}', 4_000_000), 5, "error 5: not a job"),
    "11,000,000 empty objects": (lambda: objects("{}", 11_000_000), 5, "error 5: not a job"),
    "4,000,000 arrays": (lambda: objects("[[[]]]", 4_000_000), 5, "error 5: not a job"),
    "one-digit numbers": (lambda: objects("1", 16_777_000), 5, "error 5: not a job"),
}


def confined():
    resource.setrlimit(resource.RLIMIT_AS, (2 * BYTES_OF_MEMORY, 2 * BYTES_OF_MEMORY))


def run(name, folder):
    """One line of the table, and whether the job ended as it must."""
    make, status, line = WORKS[name]
    made = make()
    text = made if isinstance(made, str) else json.dumps(made, separators=(",", ":"))
    if len(text) > BYTES_OF_A_JOB:
        sys.exit(f"{name}: a job of {len(text)} bytes is longer than the program reads")
    file = folder / "job.json"
    file.write_text(text)
    with open(file, "rb") as source:
        began = time.perf_counter()
        process = subprocess.Popen([PROGRAM, "run"], stdin=source, stdout=subprocess.DEVNULL, stderr=subprocess.PIPE, preexec_fn=confined)
        told = process.stderr.read().decode().strip()
        _, ended, used = os.wait4(process.pid, 0)
        seconds = time.perf_counter() - began
    code = os.waitstatus_to_exitcode(ended)
    peak = used.ru_maxrss * 1024
    well = (code, told) == (status, line) and seconds <= SECONDS and peak <= BYTES_OF_MEMORY
    print(f"| {name} | {len(text) / 2**20:.1f} | {code} | {seconds:.1f} | {peak / 2**20:.0f} | {peak / len(text):.1f} | {'' if well else 'NOT AS IT MUST BE: ' + told} |", flush=True)
    return well


def main():
    parser = argparse.ArgumentParser(description=__doc__, formatter_class=argparse.RawDescriptionHelpFormatter)
    parser.add_argument("--work", action="append", choices=list(WORKS), help="given again for the next; all, if left out")
    given = parser.parse_args()
    if not PROGRAM.exists():
        sys.exit("the program isn't built: ./liskevar --version builds it")
    print("| job | MiB | status | seconds | peak MiB | bytes a byte | |\n|---|---|---|---|---|---|---|")
    with tempfile.TemporaryDirectory() as folder:
        ends = [run(name, Path(folder)) for name in given.work or WORKS]
    sys.exit(0 if all(ends) else 1)


if __name__ == "__main__":
    main()
