#!/usr/bin/env python3
"""Joins whose keys collide on purpose beside joins of random keys.

    bench/hostile_jobs/colliding.py [--rows N ..] [--rounds N] [--program FILE ..]

The hash of a key is FNV-1a of its encoding, which anyone can compute, and so is the word by which an index puts a key
of one value of eight bytes. Here all keys of both sides agree in the low 22 bits of one of them, so that they would
stand behind one another in an index that begins its searches there, or in the whole of the hash. Each job is an inner
join of two frames of one column: Int64 by hash and by word, texts of six bytes, and texts of 60 bytes of one hash (each
five of the blocks of one_hash.json, which lead the hash from one value to one value; they were found by short vectors
of the lattice of what a block adds to it). The job beside it has as many random keys of the same kind. The jobs are run
in turn; printed are the length of the job, the least seconds of all rounds, and their ratio. Without --rows these are
400,000 rows a side, 250,000 of the long texts, and as many whole numbers as a job has room for.
"""

import argparse
import itertools
import json
import random
import subprocess
import sys
import tempfile
import time
from pathlib import Path

TOP = Path(__file__).resolve().parent.parent.parent
PROGRAM = TOP / "crates" / "liskevar" / "out" / "liskevar"
BLOCKS = Path(__file__).resolve().parent / "one_hash.json"
ROWS_OF_A_JOB = 795_000
ROWS_OF_LONG_TEXTS = 250_000

PRIME = 1_099_511_628_211
START = 14_695_981_039_346_656_037
BITS = 22
MASK = 2**BITS - 1
BACK = pow(PRIME, -1, 2**BITS)
TARGET = 0x155AA5
# What values are multiplied by, and its inverse modulo 2^64.
SPREAD = 1_459_730_039_949_522_579
UNSPREAD = pow(SPREAD, -1, 2**64)


def after(state, encoded):
    """The low bits of the hash after some bytes more."""
    for byte in encoded:
        state = (state ^ byte) * PRIME & MASK
    return state


def endings(width, allowed):
    """What three last bytes may be, each below 2^width, by the bits that they leave as they are of the hash before."""
    table = {}
    for last in allowed:
        before_last = TARGET * BACK & MASK ^ last
        for middle in allowed:
            first = (before_last * BACK & MASK ^ middle) * BACK & MASK
            table.setdefault(first >> width, []).append((first, middle, last))
    return table


def colliding(head, free, width, allowed, count):
    """So many byte strings of `free` bytes and three more that collide behind a head of all of them."""
    table, begun, found = endings(width, allowed), after(START & MASK, head), []
    digits = sorted(allowed)
    for number in range(len(digits) ** free):
        front = [digits[number // len(digits) ** place % len(digits)] for place in range(free)]
        state = after(begun, front)
        for first, middle, last in table.get(state >> width, ()):
            byte = first ^ state
            if byte in allowed:
                found.append(bytes([*front, byte, middle, last]))
                if len(found) == count:
                    return found
    sys.exit(f"only {len(found)} keys collide")


EVERY_BYTE = frozenset(range(256))
# What a text of one-byte characters is made of. Letters alone are too few for so many keys.
CHARACTERS = frozenset(range(128)) - {0}


def hostile_numbers(count):
    keys = colliding([1], 5, 8, EVERY_BYTE, count)
    assert len({after(START & MASK, [1, *key]) for key in keys}) == 1
    return [int.from_bytes(key, "little", signed=True) for key in keys]


def numbers_of_one_word(count):
    """Numbers whose words end in 22 zeros: a word is a number times SPREAD modulo 2^64, with its halves exchanged."""
    words = [number << BITS for number in range(count)]
    keys = [(word % 2**32 * 2**32 + word // 2**32) * UNSPREAD % 2**64 for word in words]
    return [key - 2**64 if key >= 2**63 else key for key in keys]


def random_numbers(count):
    drawn, numbers = random.Random(1), set()
    while len(numbers) < count:
        numbers.add(drawn.getrandbits(64) - 2**63)
    return list(numbers)


def hostile_texts(count):
    head = [1, 6, 0, 0, 0, 0, 0, 0, 0]
    keys = colliding(head, 3, 7, CHARACTERS, count)
    assert len({after(START & MASK, [*head, *key]) for key in keys}) == 1
    return [key.decode() for key in keys]


def random_texts(count, digits=CHARACTERS, length=6):
    drawn, digits, texts = random.Random(2), sorted(digits), set()
    while len(texts) < count:
        texts.add(bytes(drawn.choices(digits, k=length)).decode())
    return list(texts)


def texts_of_one_hash(count):
    texts = ["".join(blocks) for blocks in itertools.product(*json.loads(BLOCKS.read_text()))]
    random.Random(4).shuffle(texts)
    return texts[:count]


def random_long_texts(count):
    return random_texts(count, frozenset(range(32, 127)) - frozenset(b'"\\'), 60)


# What collides, and what stands beside it, each with the type of its column.
KINDS = {
    "Int64": ("Int64", hostile_numbers, random_numbers),
    "Int64 by word": ("Int64", numbers_of_one_word, random_numbers),
    "texts of six": ("String", hostile_texts, random_texts),
    "texts of one hash": ("String", texts_of_one_hash, random_long_texts),
}


def job(dtype, keys, workers):
    """The inner join of the keys with the same keys in another order."""
    others = keys[:]
    random.Random(3).shuffle(others)
    scans = [{"node": "DataFrameScan", "frame": frame, "columns": None} for frame in (0, 1)]
    key = [{"col": "k"}]
    join = {
        "node": "Join", "left": 0, "right": 1, "left_on": key, "right_on": key, "how": "inner", "join_nulls": False,
        "coalesce": "JoinSpecific", "suffix": "_right", "rows_left": [None, 0], "rows_right": [None, 0],
    }  # fmt: skip
    frames = [{"columns": [{"name": "k", "type": dtype, "values": side}]} for side in (keys, others)]
    return json.dumps(
        {
            "version": 1, "workers": workers, "chunk_rows": 65_536, "row_limit": 4_294_967_294,
            "frames": frames, "plan": [*scans, join], "root": 2,
        },
        separators=(",", ":"),
    )  # fmt: skip


def seconds_of(program, file):
    with open(file, "rb") as source:
        began = time.perf_counter()
        ended = subprocess.run([program, "run"], stdin=source, stdout=subprocess.DEVNULL, check=False)
        taken = time.perf_counter() - began
    if ended.returncode != 0:
        sys.exit(f"status {ended.returncode}")
    return taken


def main():
    parser = argparse.ArgumentParser(description=__doc__, formatter_class=argparse.RawDescriptionHelpFormatter)
    parser.add_argument("--rows", action="append", type=int, help="rows a side, of each kind")
    parser.add_argument("--rounds", type=int, default=4)
    parser.add_argument("--program", action="append", type=Path, help="given again for the next; each is run in turn")
    given = parser.parse_args()
    programs = given.program or [PROGRAM]
    for program in programs:
        if not program.exists():
            sys.exit(f"{program} isn't built: ./liskevar --version builds it")
    cases = [(kind, rows) for rows in given.rows or () for kind in KINDS]
    if not cases:
        cases = [(kind, 400_000) for kind in ("Int64", "Int64 by word", "texts of six")]
        cases += [("texts of one hash", ROWS_OF_LONG_TEXTS), ("Int64", ROWS_OF_A_JOB), ("Int64 by word", ROWS_OF_A_JOB)]
    print("| program | keys | rows a side | MiB | workers | colliding s | random s | ratio |\n|---|---|---|---|---|---|---|---|")
    with tempfile.TemporaryDirectory() as folder:
        for kind, rows in cases:
            for workers in (1, 4):
                files = []
                dtype, *makers = KINDS[kind]
                for name, make in zip(("colliding", "random"), makers):
                    file = Path(folder) / f"{name}.json"
                    file.write_text(job(dtype, make(rows), workers))
                    files.append(file)
                size = files[0].stat().st_size / 2**20
                times = {}
                for _ in range(given.rounds):
                    for program in programs:
                        for file in files:
                            times.setdefault((program, file), []).append(seconds_of(program, file))
                for program in programs:
                    hostile, plain = (min(times[program, file]) for file in files)
                    print(f"| {program.name} | {kind} | {rows} | {size:.1f} | {workers} | {hostile:.2f} | {plain:.2f} | {hostile / plain:.2f} |", flush=True)


if __name__ == "__main__":
    main()
