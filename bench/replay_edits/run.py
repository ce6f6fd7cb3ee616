#!/usr/bin/env python3
"""Runs `replay-edits` beside plain dictionaries and SQLite on the same JSON, compares what they write, and prints medians.

    bench/replay_edits/run.py [--program PATH] [--edits N] [--rows N] [--turns N] [--seed N] [--part NAME ..]

Parts: `random`: random edits over two tables under a left join, beside dictionaries (which tell each edit too) and
SQLite in memory (which makes the join anew after each thousand edits, and tells nothing of an edit). `sizes`: what an
edit costs at 1,000 to 1,000,000 rows a table: the time with edits less the time without, by the number of edits.
`colliding`: 100,000 inserts of distinct keys on each side, first of keys drawn at random and then of keys that have one
hash under FNV-1a (bench/hostile_jobs/colliding.py). Times are seconds of whole processes, from start to end, in turns.
"""

import argparse
import json
import os
import platform
import random
import statistics
import subprocess
import sys
import tempfile
import time
from pathlib import Path

HERE = Path(__file__).resolve().parent
TOP = HERE.parent.parent
sys.path.insert(0, str(HERE.parent / "hostile_jobs"))

from colliding import random_long_texts, texts_of_one_hash  # noqa: E402

# Where the program runs, as ./liskevar has it.
ENVIRONMENT = {**os.environ, "MALLOC_ARENA_MAX": "1", "MALLOC_MMAP_THRESHOLD_": "524288"}
PEERS = {
    "dictionaries": [sys.executable, str(HERE / "by_dictionaries.py")],
    "sqlite": [sys.executable, str(HERE / "by_sqlite.py")],
}


def compact(value):
    return json.dumps(value, separators=(",", ":"))


def asked(columns, edits):
    """The input: columns k and x of the left table, k and y of the right one, or k alone."""
    join = {
        "node": "Join", "left": 0, "right": 1, "left_on": [{"col": "k"}], "right_on": [{"col": "k"}], "how": "left",
        "join_nulls": False, "coalesce": "JoinSpecific", "suffix": "_right", "rows_left": [None, 0], "rows_right": [None, 0],
    }  # fmt: skip
    frames = [{"columns": it} for it in columns]
    return compact({"version": 1, "row_limit": 4294967294, "frames": frames, "join": join, "edits": edits})


def table(chance, rows, name):
    keys = [chance.randrange(rows) for _ in range(rows)]
    values = [chance.randrange(10) for _ in range(rows)]
    return [{"name": "k", "type": "Int64", "values": keys}, {"name": name, "type": "Int64", "values": values}]


def tables(chance, rows):
    return [table(chance, rows, "x"), table(chance, rows, "y")]


def edits_over(chance, columns, count):
    """Half of them put a new row in, half take one out that stands there or stood there once."""
    rows = [list(map(list, zip(*(it["values"] for it in own)))) for own in columns]
    edits = []
    for _ in range(count):
        side = chance.randrange(2)
        if chance.random() < 0.5:
            row = [chance.randrange(len(rows[side])), chance.randrange(10)]
            rows[side].append(row)
            edits.append([("left", "right")[side], "insert", row])
        else:
            edits.append([("left", "right")[side], "remove", chance.choice(rows[side])])
    return edits


def timed(command, source, lines):
    with open(source, "rb") as read, open(lines, "wb") as written:
        start = time.perf_counter()
        status = subprocess.run(command, stdin=read, stdout=written, env=ENVIRONMENT).returncode
        seconds = time.perf_counter() - start
    if status != 0:
        sys.exit(f"{' '.join(map(str, command))} ended with {status}")
    return seconds


def medians(folder, text, commands, turns):
    """The median of each command's seconds, in turns, and what each wrote."""
    source = folder / "input.json"
    source.write_text(text)
    seconds, written = {name: [] for name in commands}, {}
    for _ in range(turns):
        for name, command in commands.items():
            lines = folder / name
            seconds[name].append(timed(command, source, lines))
            written[name] = lines.read_text().splitlines()
    return {name: statistics.median(it) for name, it in seconds.items()}, written


def random_edits(folder, chance, given):
    columns = tables(chance, given.rows)
    text = asked(columns, edits_over(chance, columns, given.edits))
    commands = {"liskevar": [given.program, "replay-edits"], **PEERS}
    seconds, written = medians(folder, text, commands, given.turns)
    if written["liskevar"] != written["dictionaries"]:
        sys.exit("the dictionaries tell something else")
    own = written["liskevar"]
    if own[:1] + own[1 + given.edits :] != written["sqlite"]:
        sys.exit("SQLite has other rows")
    print(f"{given.edits} edits over two tables of {given.rows} rows, {len(text)} bytes, {len(own) - 1 - given.edits} rows at the end")
    for name, it in seconds.items():
        print(f"  {name:13} {it:8.2f} s   {it / seconds['liskevar']:6.2f} of liskevar's")


def sizes(folder, chance, given):
    commands = {"liskevar": [given.program, "replay-edits"], "dictionaries": PEERS["dictionaries"]}
    count = 100_000
    print(f"microseconds an edit, of {count} edits")
    for rows in (1_000, 10_000, 100_000, 1_000_000):
        columns = tables(chance, rows)
        with_edits, _ = medians(folder, asked(columns, edits_over(chance, columns, count)), commands, given.turns)
        without, _ = medians(folder, asked(columns, []), commands, given.turns)
        told = ", ".join(f"{name} {(with_edits[name] - without[name]) / count * 1e6:.2f}" for name in commands)
        print(f"  {rows:9} rows a table: {told} (without an edit: {without['liskevar']:.2f} s)")


def colliding_keys(folder, _chance, given):
    count = 100_000
    command = {"liskevar": [given.program, "replay-edits"]}
    drawn, made = random_long_texts(count), texts_of_one_hash(count)
    columns = [[{"name": "k", "type": "String", "values": []}] for _ in range(2)]
    print(f"{count} inserts of distinct texts of {len(made[0])} bytes on each side")
    for name, keys in (("drawn at random", drawn), ("of one FNV-1a hash", made)):
        edits = [[side, "insert", [key]] for side in ("left", "right") for key in keys]
        seconds, written = medians(folder, asked(columns, edits), command, given.turns)
        if len(written["liskevar"]) != 1 + 3 * count:
            sys.exit(f"{len(written['liskevar'])} lines")
        print(f"  {name:18} {seconds['liskevar']:6.2f} s")


PARTS = {"random": random_edits, "sizes": sizes, "colliding": colliding_keys}


def main():
    parser = argparse.ArgumentParser(description=__doc__.split("\n")[0])
    parser.add_argument("--program", default=str(TOP / "crates" / "liskevar" / "out" / "liskevar"))
    parser.add_argument("--edits", type=int, default=1_000_000)
    parser.add_argument("--rows", type=int, default=100_000)
    parser.add_argument("--turns", type=int, default=3)
    parser.add_argument("--seed", type=int, default=1)
    parser.add_argument("--part", nargs="+", choices=sorted(PARTS), default=list(PARTS))
    given = parser.parse_args()
    chance = random.Random(given.seed)
    print(f"{platform.processor() or platform.machine()}, {os.cpu_count()} processors, Python {platform.python_version()}")
    with tempfile.TemporaryDirectory() as folder:
        for name in given.part:
            PARTS[name](Path(folder), chance, given)


if __name__ == "__main__":
    main()
