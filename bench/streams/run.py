#!/usr/bin/env python3
"""Streams a job's rows beside running it: times, peak memory, and orders of blocks.

    bench/streams/run.py [--program ./liskevar] [--rows N] [--turns N] [--orders N]

A join whose answer has about ROWS rows is run and streamed in turn, to a file and through a pipe; times are of whole
processes in seconds, the least of the turns, and peak memory is what the kernel tells of each process. Then a small
sorted job is streamed ORDERS times, and each answer has to be its blocks in an order in which the even ones ascend and
the odd ones ascend. Last come a pipe that is closed behind the first line, a full device and a slow reader.
"""

import argparse
import json
import os
import resource
import subprocess
import sys
import tempfile
import time

TOP = os.path.dirname(os.path.dirname(os.path.dirname(os.path.abspath(__file__))))


def column(name, values):
    return {"name": name, "type": "Int64", "values": values}


def join_of(rows, copies):
    """A job whose rows are ROWS, from tables of ROWS // COPIES and of COPIES rows a key."""
    keys = rows // copies
    left = [column("k", list(range(keys))), column("x", [7 * it % 1009 for it in range(keys)])]
    right = [column("k", [it % keys for it in range(rows)]), column("y", [it % 10 for it in range(rows)])]
    scans = [{"node": "DataFrameScan", "frame": it, "columns": None} for it in (0, 1)]
    join = {
        "node": "Join", "left": 0, "right": 1, "left_on": [{"col": "k"}], "right_on": [{"col": "k"}], "how": "inner",
        "join_nulls": False, "coalesce": "JoinSpecific", "suffix": "_right", "rows_left": [None, 0],
        "rows_right": [None, 0],
    }
    return job([left, right], [*scans, join], 4, 4096)


def sorted_job(rows, chunk_rows):
    """A job whose rows are 0 to ROWS - 1 in order."""
    sort = {"node": "Sort", "input": 0, "by": ["n"], "descending": [False], "nulls_last": [False], "slice": None}
    scan = {"node": "DataFrameScan", "frame": 0, "columns": None}
    return job([[column("n", [rows - 1 - it for it in range(rows)])]], [scan, sort], 2, chunk_rows)


def job(frames, plan, workers, chunk_rows):
    return json.dumps({
        "version": 1, "workers": workers, "chunk_rows": chunk_rows, "row_limit": 100_000_000,
        "frames": [{"columns": it} for it in frames], "plan": plan, "root": len(plan) - 1,
    }).encode()


def measured(command, job_file, out):
    """The seconds and the peak memory in MB of a process; its status has to be 0."""
    with open(job_file, "rb") as given:
        began = time.monotonic()
        process = subprocess.Popen(command, stdin=given, stdout=out)
        _, status, used = os.wait4(process.pid, 0)
        seconds = time.monotonic() - began
    if status != 0:
        sys.exit(f"{' '.join(command)} ended with wait status {status}")
    return seconds, used.ru_maxrss / 1024


def through_a_pipe(command, job_file):
    """The same where what is written goes through a pipe to a reader that counts its lines."""
    reader = subprocess.Popen(["wc", "-l"], stdin=subprocess.PIPE, stdout=subprocess.DEVNULL)
    found = measured(command, job_file, reader.stdin)
    reader.stdin.close()
    reader.wait()
    return found


def compare(program, rows, turns, folder):
    job_file = f"{folder}/job.json"
    with open(job_file, "wb") as file:
        file.write(join_of(rows, 4))
    print(f"job {os.path.getsize(job_file) / 1e6:.1f} MB, {rows} rows")
    print("| words | to | seconds | MB |\n|---|---|---|---|")
    for to in ("a file", "a pipe"):
        for word in ("run", "stream"):
            found = []
            for _ in range(turns):
                if to == "a file":
                    with open(f"{folder}/{word}", "wb") as out:
                        found.append(measured([program, word], job_file, out))
                else:
                    found.append(through_a_pipe([program, word], job_file))
            print(f"| {word} | {to} | {min(it[0] for it in found):.2f} | {min(it[1] for it in found):.0f} |")
    lines = [sorted(open(f"{folder}/{word}", "rb")) for word in ("run", "stream")]
    if lines[0] != lines[1]:
        sys.exit("run and stream wrote other lines")


def ascends(numbers):
    return all(one < other for one, other in zip(numbers, numbers[1:]))


def check_orders(program, times):
    """Streams a sorted job again and again, and looks at the order of its blocks."""
    rows, chunk = 1000, 10
    given, seen = sorted_job(rows, chunk), set()
    for _ in range(times):
        lines = subprocess.run([program, "stream"], input=given, stdout=subprocess.PIPE, check=True).stdout.split(b"\n")
        if lines[0] != b'["n"]' or lines[-1] != b"":
            sys.exit("no header, or no end of a line")
        numbers = [int(it[1:-1]) for it in lines[1:-1]]
        blocks = [numbers[at : at + chunk] for at in range(0, rows, chunk)]
        order = [it[0] // chunk for it in blocks]
        if any(it != list(range(it[0], it[0] + chunk)) for it in blocks) or sorted(order) != list(range(rows // chunk)):
            sys.exit("a block that isn't one")
        if not ascends([it for it in order if it % 2 == 0]) or not ascends([it for it in order if it % 2 == 1]):
            sys.exit(f"an order that isn't allowed: {order}")
        seen.add(tuple(order))
    print(f"{times} streams, each in an allowed order; {len(seen)} orders seen")


def check_readers(program, folder):
    """A reader that leaves, one that takes nothing for a while, and a device that is full."""
    given = sorted_job(200_000, 100)
    with open(f"{folder}/sorted.json", "wb") as file:
        file.write(given)
    for reader in ("head -n 1", "sh -c 'sleep 2; wc -l'"):
        ran = subprocess.run(
            ["bash", "-c", f"{program} stream < {folder}/sorted.json | {reader} > {folder}/read; echo ${{PIPESTATUS[0]}}"],
            stdout=subprocess.PIPE, stderr=subprocess.PIPE, timeout=60, text=True,
        )
        with open(f"{folder}/read", encoding="utf-8") as file:
            print(f"{reader}: {file.read().strip()}; status {ran.stdout.strip()} {ran.stderr.strip()}")
    with open("/dev/full", "wb") as full, open(f"{folder}/sorted.json", "rb") as file:
        ran = subprocess.run([program, "stream"], stdin=file, stdout=full, stderr=subprocess.PIPE, timeout=60, text=True)
    print(f"/dev/full: status {ran.returncode} {ran.stderr.strip()}")


def main():
    parser = argparse.ArgumentParser(description=__doc__.splitlines()[0])
    parser.add_argument("--program", default=f"{TOP}/liskevar")
    parser.add_argument("--rows", type=int, default=1_000_000)
    parser.add_argument("--turns", type=int, default=3)
    parser.add_argument("--orders", type=int, default=1000)
    given = parser.parse_args()
    resource.setrlimit(resource.RLIMIT_CORE, (0, 0))
    with tempfile.TemporaryDirectory() as folder:
        compare(given.program, given.rows, given.turns, folder)
        check_orders(given.program, given.orders)
        check_readers(given.program, folder)


if __name__ == "__main__":
    main()
