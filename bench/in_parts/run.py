#!/usr/bin/env python3
"""Joins, filters and sorts two CSV tables in parts on Dask's workers, beside sqlite3 and Dask's own merge.

    bench/in_parts/run.py [--rows N] [--workers N,N,..] [--folder DIRECTORY] [--seed N] [--without-sqlite]

Both tables have N rows, whose keys are drawn from N numbers. The rows in parts are compared line by line with those of
sqlite3, which has them in one order, since the sort is by all columns. Dask's merge reads the same files with pandas (left
out where pandas isn't there), and writes CSV too, which are the same rows line by line. For each there are the seconds of
the whole call, with the start of the workers, the seconds of processor time and the peak memory of all its processes
together, looked at a few times a second.

In a directory that is told the tables and what sqlite3 made of them stay, and are taken again.
"""

import argparse
import contextlib
import hashlib
import os
import random
import sqlite3
import subprocess
import sys
import tempfile
import time
from typing import NamedTuple

TOP = os.path.dirname(os.path.dirname(os.path.dirname(os.path.abspath(__file__))))
QUERY = "select l.k as k, l.a as a, r.b as b from l join r on l.k = r.k where l.a > r.b order by k, a, b"
# Dask's own way to the same rows, in a process of its own with so many workers.
MERGE = """
import sys, dask.dataframe as dd
from distributed import Client, LocalCluster
def in_order(rows, **told):
    return rows.sort_values(["k", "a", "b"])
if __name__ == "__main__":
    folder, workers = sys.argv[1], int(sys.argv[2])
    with LocalCluster(n_workers=workers, threads_per_worker=1, dashboard_address="127.0.0.1:0") as cluster, Client(cluster):
        l, r = (dd.read_csv(f"{folder}/{it}.csv", blocksize="8MiB") for it in "lr")
        made = l.merge(r, on="k")
        # of several partitions Dask sorts by one column alone; equal keys come into one of them
        made = made[made.a > made.b].sort_values("k", sort_function=in_order)
        made.to_csv(f"{folder}/merged.csv", single_file=True, index=False)
"""


PAUSE = 0.25


class Used(NamedTuple):
    """What a call took: seconds, seconds of processor time, MiB of all its processes, and what it said."""

    seconds: float
    processor: float
    memory: float
    said: str

    def __str__(self):
        return f"{self.seconds:.1f} s, {self.processor:.1f} s of processor time, {self.memory:.0f} MiB"


def write_tables(folder, rows, seed):
    chance = random.Random(seed)
    draw = lambda below: int(chance.random() * below)
    for name, column in (("l", "a"), ("r", "b")):
        path = os.path.join(folder, f"{name}.csv")
        if not os.path.exists(path):
            with open(path, "w") as file:
                file.write(f"k,{column}\n")
                file.writelines(f"{draw(rows)},{draw(1000)}\n" for _ in range(rows))


def used_by(session):
    """The processor time and the memory of the processes of a session, and of those that ended below them."""
    ticks, pages = 0, 0
    for it in filter(str.isdigit, os.listdir("/proc")):
        with contextlib.suppress(OSError), open(f"/proc/{it}/stat", "rb") as file:
            said = file.read().rpartition(b")")[2].split()
            if int(said[3]) == session:
                ticks, pages = ticks + sum(map(int, said[11:15])), pages + int(said[21])
    return ticks / os.sysconf("SC_CLK_TCK"), pages * os.sysconf("SC_PAGE_SIZE") / 2**20


def timed(words, **told):
    """What a call took; it ends this one where it fails."""
    start, processor, memory = time.perf_counter(), 0.0, 0.0
    with tempfile.TemporaryFile() as file:
        process = subprocess.Popen(words, stderr=file, start_new_session=True, **told)
        while process.poll() is None:
            found = used_by(process.pid)
            processor, memory = max(processor, found[0]), max(memory, found[1])
            time.sleep(PAUSE)
        seconds = time.perf_counter() - start
        file.seek(0)
        said = file.read().decode()
    if process.returncode != 0:
        sys.exit(f"{words[:4]} ended with {process.returncode}: {said[-2000:]}")
    return Used(seconds, processor, memory, said)


def by_sqlite(folder):
    """What sqlite3 makes of the tables in memory; it writes sqlite.csv."""
    base = sqlite3.connect(":memory:")
    for name, column in (("l", "a"), ("r", "b")):
        base.execute(f"create table {name} (k integer, {column} integer)")
        with open(os.path.join(folder, f"{name}.csv")) as file:
            next(file)
            base.executemany(f"insert into {name} values (?, ?)", (line.split(",") for line in file))
    base.execute("create index of_r on r (k)")
    with open(os.path.join(folder, "sqlite.csv"), "w") as file:
        file.write("k,a,b\n")
        file.writelines(f"{k},{a},{b}\n" for k, a, b in base.execute(QUERY))


def lines_of(path):
    """The number of lines and what they have."""
    count, sum_ = 0, hashlib.sha256()
    with open(path, "rb") as file:
        for block in iter(lambda: file.read(1 << 20), b""):
            sum_.update(block)
            count += block.count(b"\n")
    return count, sum_.hexdigest()


def in_parts(folder, workers):
    """What a run in parts took; it writes parts.csv."""
    files = [f"{it}={folder}/{it}.csv" for it in "lr"]
    words = [sys.executable, "-m", "liskevar", "distribute", "--sql", QUERY, *files, "--local", str(workers), "--quiet"]
    environment = {**os.environ, "PYTHONPATH": os.path.join(TOP, "python")}
    return timed([*words, "--output", f"{folder}/parts.csv"], env=environment)


def compared(folder, workers_told, wanted):
    """Runs both with each number of workers."""
    has_pandas = subprocess.run([sys.executable, "-c", "import pandas"], stderr=subprocess.DEVNULL).returncode == 0
    for workers in workers_told:
        used = in_parts(folder, workers)
        found = lines_of(os.path.join(folder, "parts.csv"))
        same = "" if wanted is None else f", rows {'the same' if found == wanted else 'DIFFER'}"
        print(f"in parts, {workers} workers: {used} ({used.said.strip().splitlines()[-1]}){same}", flush=True)
        if not has_pandas:
            print("Dask's merge: left out, pandas isn't there")
            continue
        used = timed([sys.executable, "-c", MERGE, folder, str(workers)])
        same = "the same" if lines_of(os.path.join(folder, "merged.csv")) == found else "DIFFER"
        print(f"Dask's merge, {workers} workers: {used}, rows {same}", flush=True)


def main():
    parser = argparse.ArgumentParser(description=__doc__, formatter_class=argparse.RawDescriptionHelpFormatter)
    parser.add_argument("--rows", type=int, default=5_000_000)
    parser.add_argument("--workers", default="1,2,4")
    parser.add_argument("--folder")
    parser.add_argument("--seed", type=int, default=1)
    parser.add_argument("--without-sqlite", action="store_true")
    parser.add_argument("--sqlite", help=argparse.SUPPRESS)
    given = parser.parse_args()
    if given.sqlite:
        by_sqlite(given.sqlite)
        return
    with contextlib.ExitStack() as closing:
        folder = given.folder or closing.enter_context(tempfile.TemporaryDirectory())
        write_tables(folder, given.rows, given.seed)
        wanted, path = None, os.path.join(folder, "sqlite.csv")
        if not given.without_sqlite:
            if not os.path.exists(path):
                print(f"sqlite3: {timed([sys.executable, __file__, '--sqlite', folder])}", flush=True)
            wanted = lines_of(path)
        compared(folder, [int(it) for it in given.workers.split(",") if it], wanted)


if __name__ == "__main__":
    main()
