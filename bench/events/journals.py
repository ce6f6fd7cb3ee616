#!/usr/bin/env python3
"""Runs random small plans, and judges the journals of the runs by the play of `compare.py`.

    journals.py [SEED] [PLANS]

The play is written from the definitions of worlds and events alone. Each event of a journal has to be allowed where it
stands, the list has to be complete, and the root has to have the rows that the run gives; no worker may take more rows
at once than a chunk has, and all of them together no more than four times each to a question of the stop check. Many
plans have joins that mark: full joins, and semi and anti joins whose left side is built.
"""

import json
import random
import subprocess
import sys
from collections import Counter

from compare import TOP, Plan, answer

PROGRAM = TOP / "crates" / "journal_program" / "out" / "journal_program"


def answers_of_program(inputs):
    text = b"".join(b"%d\n%s" % (len(it), it) for it in inputs)
    told = subprocess.run([PROGRAM], input=text, stdout=subprocess.PIPE, check=True).stdout
    while told:
        length, _, told = told.partition(b"\n")
        yield told[: int(length)].decode().splitlines()
        told = told[int(length) :]


def main():
    if not PROGRAM.exists():
        sys.exit("build the program first: rt run in crates/journal_program")
    given = [int(it) for it in sys.argv[1:]]
    seed, count = given + [1, 1000][len(given) :]
    rng = random.Random(seed)
    plans = [Plan(rng) for _ in range(count)]
    jobs = [{**plan.job(), "chunk_rows": rng.randint(1, 3)} for plan in plans]
    told = Counter()
    for plan, job, lines in zip(plans, jobs, answers_of_program([json.dumps(it).encode() for it in jobs]), strict=True):
        if lines[0] != "ran":
            sys.exit(f"not run: {lines} {json.dumps(job)}")
        at = lines.index("rows")
        asked, *events = [json.loads(it) for it in lines[1:at]]
        rows = [json.loads(it) for it in lines[at + 1 :]]
        first, expected = answer(plan, events)
        if first != "complete" or sorted(map(json.dumps, rows)) != sorted(map(json.dumps, expected)):
            sys.exit(f"{first}, rows {rows} and {expected}: {events} {json.dumps(job)}")
        takes = [it for it in events if it[0] == "Take"]
        if len(takes) > 4 * plan.workers * asked or any(it[4] > job["chunk_rows"] for it in takes):
            sys.exit(f"{asked} questions: {takes} {json.dumps(job)}")
        told[f"{plan.workers} workers"] += 1
        told["with a join that marks"] += any(it.kind == "join" and it.marks() for it in plan.nodes)
        told["events"] += len(events)
        told["takes"] += len(takes)
        told["questions"] += asked
        told["flushes"] += sum(it[0] == "Flush" for it in events)
    print(f"{len(plans)} journals, all complete, with the rows of their runs: {dict(told)}")


if __name__ == "__main__":
    main()
