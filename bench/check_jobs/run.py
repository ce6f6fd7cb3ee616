#!/usr/bin/env python3
"""Looks at jobs of 1 to 32 MiB of numbers, of texts and of mixed columns, beside the reading of their JSON alone.

    run.py [MIB ..]

Each job scans one frame. Beside it stands the same text with a `chunk_rows` that no job has, the first of a job's
members to be looked at: it is refused as soon as `serde_json` made the value of the text, so it takes what that and
its end take. Prints, for each job, the least processor time of several rounds of both in turn, their ratio, and how
much longer the look took than that of the size before.
"""

import json
import os
import random
import subprocess
import sys
import tempfile
from pathlib import Path

TOP = Path(__file__).resolve().parent.parent.parent
PROGRAM = TOP / "crates" / "liskevar" / "out" / "liskevar"
SIZES = [1, 2, 4, 8, 16, 32]
ROUNDS = 4
MOST = 33_554_432


def number(chance):
    return chance.choice([None, chance.randrange(100), chance.randrange(-(2**63), 2**63)])


def text(chance):
    return chance.choice([None, "", "plain text", 'a "quoted" line\n', "é" * chance.randrange(20)])


def hexadecimal(chance):
    return chance.choice([None, chance.randbytes(chance.randrange(12)).hex()])


def truth(chance):
    return chance.choice([None, True, False])


KINDS = {
    "numbers": [("Int64", number)],
    "texts": [("String", text)],
    "mixed": [("Int64", number), ("String", text), ("Binary", hexadecimal), ("Boolean", truth)],
}


def job_of(kind, size):
    """A job of about so many bytes, and the same with no good `chunk_rows`."""
    chance = random.Random(size)
    columns = [[] for _ in KINDS[kind]]
    left = min(size, MOST - 200) - 400
    while left > 0:
        for cells, (_, cell) in zip(columns, KINDS[kind]):
            cells.append(json.dumps(cell(chance), ensure_ascii=False))
            left -= len(cells[-1].encode()) + 1
    spelled = ",".join(
        f'{{"name":"c{place}","type":"{dtype}","values":[{",".join(cells)}]}}'
        for place, (cells, (dtype, _)) in enumerate(zip(columns, KINDS[kind]))
    )
    back = f'"workers":1,"row_limit":1,"frames":[{{"columns":[{spelled}]}}],"root":0,"plan":[{{"node":"DataFrameScan","frame":0,"columns":null}}]}}'
    return [f'{{"version":1,"chunk_rows":{rows},{back}'.encode() for rows in (1, -1)]


def seconds(job):
    """The processor time of a look at a job, and its status."""
    with open(job, "rb") as source:
        child = subprocess.Popen([PROGRAM, "check"], stdin=source, stdout=subprocess.DEVNULL, stderr=subprocess.DEVNULL)
        _, status, usage = os.wait4(child.pid, 0)
        return usage.ru_utime + usage.ru_stime, os.waitstatus_to_exitcode(status)


def main():
    if not os.access(PROGRAM, os.X_OK):
        sys.exit("build the program first: ./liskevar check < examples/first_join.json")
    sizes = [int(it) for it in sys.argv[1:]] or SIZES
    with tempfile.TemporaryDirectory() as folder:
        good, bad = Path(folder) / "good.json", Path(folder) / "bad.json"
        print("kind     MiB  check (s)  JSON alone (s)  ratio  against the size before")
        for kind in KINDS:
            before = None
            for size in sizes:
                for job, content in zip((good, bad), job_of(kind, size * 1024 * 1024)):
                    job.write_bytes(content)
                looks, reads = [], []
                for _ in range(ROUNDS):
                    for job, wanted, times in ((good, 0, looks), (bad, 5, reads)):
                        took, status = seconds(job)
                        if status != wanted:
                            sys.exit(f"{kind}, {size} MiB: status {status}, and not {wanted}")
                        times.append(took)
                look, read = min(looks), min(reads)
                growth = f"{look / before:.2f}" if before else "-"
                print(f"{kind:8} {size:3}  {look:9.3f}  {read:14.3f}  {look / read:5.2f}  {growth:>23}")
                before = look


if __name__ == "__main__":
    main()
