#!/usr/bin/env python3
"""Runs whole jobs by the program and by its peers in turn, compares their rows, and prints medians and ratios.

    bench/whole_jobs/run.py [--rows N] [--turns N] [--work NAME ..] [--seed N]

Each work is one job: the program reads it from a file and writes its lines to another. Peers that read the same JSON:
Python's `json` with dictionaries (plain.py), SQLite in memory (by_sqlite.py). Peers that read the frames as CSV files,
made before the clock starts, and write CSV: pandas (by_pandas.py), R's data.table (by_data_table.R), Miller, for the
works that it has verbs for. A peer that isn't there is left out and named. Times are of the whole process, from its
start to its end, in seconds; a ratio is the program's median over the peer's. Memory is the program's peak, in bytes a
byte of the job.
"""

import argparse
import collections
import csv
import json
import os
import platform
import shutil
import statistics
import subprocess
import sys
import tempfile
import time
from pathlib import Path

import works

HERE = Path(__file__).resolve().parent
TOP = HERE.parent.parent
PROGRAM = TOP / "crates" / "liskevar" / "out" / "liskevar"
# Where the program runs, as ./liskevar has it.
ENVIRONMENT = {**os.environ, "MALLOC_ARENA_MAX": "1", "MALLOC_MMAP_THRESHOLD_": "524288"}


# A work by Miller, over the CSV files of its frames, {0}, {1} and so on.
MILLER = {
    "inner": "join -j k -f {0} {1}",
    "texts": "join -j k -f {0} {1}",
    "anti": "join --np --ul -j k -f {0} {1}",
    "filtered": "filter $k<100 then put $sum=$k+$a {0}",
    "union": "filter $a<500 then cut -f k {0} {1} {2} {3}",
    "star": "join -j k0 -f {1} then join -j k1 -f {2} then join -j k2 -f {3} then join -j k3 -f {4}"
    " then template -f k0,k1,k2,k3,name0,name1,name2,name3 {0}",
}


# Runs its words, and tells the peak of memory. A process of its own: a child's peak counts what its parent held.
PEAK = "import os, subprocess, sys; run = subprocess.Popen(sys.argv[1:]); print(os.wait4(run.pid, 0)[2].ru_maxrss, file=sys.stderr)"


def timed(command, job, lines):
    """The seconds of one run."""
    environment = ENVIRONMENT if command[0] == PROGRAM else os.environ
    with open(job, "rb") as source, open(lines, "wb") as sink:
        start = time.perf_counter()
        status = subprocess.run(command, stdin=source, stdout=sink, env=environment).returncode
        seconds = time.perf_counter() - start
    if status != 0:
        sys.exit(f"{' '.join(map(str, command))} ended with {status}")
    return seconds


def peak_of(job):
    """The program's peak of memory for a job, in bytes."""
    with open(job, "rb") as source:
        command = [sys.executable, "-c", PEAK, PROGRAM, "run"]
        run = subprocess.run(command, stdin=source, stdout=subprocess.DEVNULL, stderr=subprocess.PIPE, env=ENVIRONMENT)
    return int(run.stderr) * 1024


def text_of(cell):
    return "" if cell is None else str(cell)


def answer(lines, ordered, is_csv):
    """What is compared: the names, and the rows as texts, in order where the plan sorts them."""
    with open(lines, encoding="utf-8", newline="") as file:
        if is_csv:
            head, *rows = csv.reader(file)
        else:
            head, *rows = ([text_of(cell) for cell in json.loads(line)] for line in file)
    rows = [tuple(row) for row in rows]
    return head, rows if ordered else collections.Counter(rows)


def write_frames(job, name, folder):
    """The frames of a job as CSV files, in order."""
    files = []
    for number, frame in enumerate(job["frames"]):
        files.append(folder / f"{name}.{number}.csv")
        with open(files[-1], "w", encoding="utf-8", newline="") as file:
            writer = csv.writer(file)
            writer.writerow(it["name"] for it in frame["columns"])
            writer.writerows(zip(*(it["values"] for it in frame["columns"])))
    return files


def has_module(python, name):
    return subprocess.run([python, "-c", f"import {name}"], capture_output=True).returncode == 0


def peers():
    """For each peer that is there its command for a work and its files, none where it has no verbs for it; and the
    names of those that aren't there."""
    found, missing = {"python": lambda name, files: [sys.executable, HERE / "plain.py"]}, []
    pandas = next((it for it in (sys.executable, "/usr/bin/python3") if has_module(it, "pandas")), None)
    asked = {
        "sqlite": (has_module(sys.executable, "sqlite3"), lambda name, files: [sys.executable, HERE / "by_sqlite.py", name]),
        "pandas": (pandas, lambda name, files: [pandas, HERE / "by_pandas.py", name, files[0].parent]),
        "data.table": (
            shutil.which("Rscript") and subprocess.run(["Rscript", "-e", "library(data.table)"], capture_output=True).returncode == 0,
            lambda name, files: ["Rscript", HERE / "by_data_table.R", name, files[0].parent],
        ),
        "miller": (
            shutil.which("mlr"),
            lambda name, files: ["mlr", "--csv", *MILLER[name].format(*files).split(" ")] if name in MILLER else None,
        ),
    }
    for name, (is_there, command) in asked.items():
        if is_there:
            found[name] = command
        else:
            missing.append(name)
    return found, missing


def compare(name, work, folder, found, given):
    """One row of the table."""
    made = work(given.rows, given.seed)
    text = json.dumps(made, separators=(",", ":"))
    if len(text) > works.BYTES_OF_A_JOB:
        sys.exit(f"{name}: a job of {len(text)} bytes is longer than the program reads; give fewer --rows")
    job = folder / f"{name}.json"
    job.write_text(text)
    files = write_frames(made, name, folder)
    commands = {"liskevar": [PROGRAM, "run"], **{peer: command(name, files) for peer, command in found.items()}}
    ordered = made["plan"][-1]["node"] == "Sort"
    seconds, answers = collections.defaultdict(list), {}
    for _ in range(given.turns):
        for peer, command in commands.items():
            if command is None:
                continue
            lines = folder / f"{name}.{peer}"
            seconds[peer].append(timed(command, job, lines))
            answers[peer] = answer(lines, ordered, peer in ("pandas", "data.table", "miller"))
    differing = [peer for peer, it in answers.items() if it != answers["liskevar"]]
    if differing:
        sys.exit(f"{name}: the rows of {', '.join(differing)} differ from the program's")
    medians = {peer: statistics.median(it) for peer, it in seconds.items()}
    rows = len(answers["liskevar"][1]) if ordered else answers["liskevar"][1].total()
    cells = [name, f"{len(text) / 2**20:.1f}", str(rows), f"{peak_of(job) / len(text):.1f}", f"{medians['liskevar']:.3f}"]
    for peer in found:
        cells += [f"{medians[peer]:.3f}", f"{medians['liskevar'] / medians[peer]:.2f}"] if peer in medians else ["", ""]
    return cells


def main():
    parser = argparse.ArgumentParser(description=__doc__, formatter_class=argparse.RawDescriptionHelpFormatter)
    parser.add_argument("--rows", type=int, default=100_000, help="rows of the larger frames")
    parser.add_argument("--turns", type=int, default=5)
    parser.add_argument("--seed", type=int, default=1)
    parser.add_argument("--work", action="append", choices=list(works.WORKS), help="given again for the next; all, if left out")
    given = parser.parse_args()
    if not PROGRAM.exists():
        sys.exit("the program isn't built: ./liskevar --version builds it")
    found, missing = peers()
    head = ["work", "MiB", "rows given", "memory", "liskevar s"]
    for peer in found:
        head += [f"{peer} s", "ratio"]
    print(f"{os.cpu_count()} processors ({platform.machine()}), {given.turns} turns, medians; not there: {', '.join(missing) or 'none'}")
    print("| " + " | ".join(head) + " |")
    print("|" + "---|" * len(head))
    with tempfile.TemporaryDirectory() as folder:
        for name in given.work or works.WORKS:
            print("| " + " | ".join(compare(name, works.WORKS[name], Path(folder), found, given)) + " |", flush=True)


if __name__ == "__main__":
    main()
