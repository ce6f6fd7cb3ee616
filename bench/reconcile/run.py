#!/usr/bin/env python3
"""Reconciles two tables by the program, by Python's dictionaries, pandas and data.table in turn, and compares their lines.

    bench/reconcile/run.py [--rows N] [--turns N] [--seed N]

The keys are drawn at random: one whole number, or two. The program and the dictionaries read one JSON text, pandas and
data.table CSV files of the same tables, made before the clock starts; times are of whole processes in seconds, the least
of the turns. A peer that isn't there is left out and named.
"""

import argparse
import json
import random
import shutil
import subprocess
import sys
import tempfile
import time
from pathlib import Path

HERE = Path(__file__).resolve().parent
PROGRAM = HERE.parent.parent / "crates" / "liskevar" / "out" / "liskevar"


def drawn(rows, seed, on):
    """Two tables: for each its columns by name."""
    chance = random.Random(seed)
    most = max(rows // len(on), 1)
    return [{name: [chance.randrange(most if name == "k" else 100) for _ in range(rows)] for name in on} for _ in range(2)]


def write(folder, tables, on):
    frames = [{"columns": [{"name": name, "type": "Int64", "values": it[name]} for name in on]} for it in tables]
    asked = {"version": 1, "workers": 4, "chunk_rows": 65536, "row_limit": 4294967294, "frames": frames, "on": on, "join_nulls": False}
    (folder / "tables.json").write_text(json.dumps(asked, separators=(",", ":")))
    for number, table in enumerate(tables):
        rows = zip(*(table[name] for name in on))
        (folder / f"{number}.csv").write_text("\n".join([",".join(on), *(",".join(map(str, row)) for row in rows), ""]))


def seconds_of(command, source, sink):
    with open(source, "rb") as read, open(sink, "wb") as written:
        start = time.perf_counter()
        subprocess.run(command, stdin=read, stdout=written, check=True)
        return time.perf_counter() - start


def peers(folder, on):
    files = [folder / "0.csv", folder / "1.csv", *on]
    yield "liskevar", [PROGRAM, "reconcile"]
    yield "python", [sys.executable, HERE / "by_python.py"]
    for name, tool, script, has in (
        ("pandas", sys.executable, "by_pandas.py", [sys.executable, "-c", "import pandas"]),
        ("data.table", "Rscript", "by_data_table.R", ["Rscript", "-e", "library(data.table)"]),
    ):
        if shutil.which(tool) and subprocess.run(has, capture_output=True).returncode == 0:
            yield name, [tool, HERE / script, *files]
        else:
            print(f"{name} isn't there")


def main():
    parser = argparse.ArgumentParser(description=__doc__, formatter_class=argparse.RawDescriptionHelpFormatter)
    parser.add_argument("--rows", type=int, default=1_000_000)
    parser.add_argument("--turns", type=int, default=3)
    parser.add_argument("--seed", type=int, default=1)
    words = parser.parse_args()
    for on in (["k"], ["k", "m"]):
        with tempfile.TemporaryDirectory() as made:
            folder = Path(made)
            write(folder, drawn(words.rows, words.seed, on), on)
            commands = list(peers(folder, on))
            times = {name: [] for name, _ in commands}
            for _ in range(words.turns):
                for name, command in commands:
                    times[name].append(seconds_of(command, folder / "tables.json", folder / name))
            wanted = (folder / "liskevar").read_bytes()
            for name, spent in times.items():
                same = "the same lines" if (folder / name).read_bytes() == wanted else "OTHER LINES"
                print(f"by {len(on)} columns  {name:12} {min(spent):7.2f} s  ratio {min(times['liskevar']) / min(spent):5.2f}  {same}")


if __name__ == "__main__":
    main()
