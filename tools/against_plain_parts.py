#!/usr/bin/env python3
"""Judges the rules by which a plan's scans may be cut, and the command `parts`, by random plans and plain Python.

    tools/against_plain_parts.py [--program PROGRAM] [--plain PLAIN_PROGRAM] [--seed N] [--plans N]

For random plans without a fault, choices by the rules of tools/plain_jobs.py and random cuts that keep to them: the
rows of all parts together are the plan's rows, each as often, and the gather plan over them is the plan's list. Jobs
are run by tools/plain_jobs.py, or with --plain by the plain program. With --program what its command `parts` writes is
held beside the rules: it is one of their choices, the one that leaves the fewest rows to be had whole, or is refused
where they have none. Then plans that are cut as they mustn't be, at least one for each kind of node
(tools/wrong_cuts.py): there some cut gives other rows, and no choice by the rules is that cut.
"""

import argparse
import collections
import json
import random
import subprocess
import sys

from against_plain_program import Jobs, plain_answers
from plain_jobs import Fault, choices, heights_of, inputs_of, lines_of, parts_of, root_of, rows_of, schemas, told_of
from wrong_cuts import WRONG

NAMES = ["a", "b", "c", "d", "k"]
CELLS = {"Int64": [0, 1, 2, None], "String": ["", "a", "1", None], "Int128": ["0", "-1", "7", None]}
MOST = 10**9
HOWS = ["inner", "left", "full", "cross", "semi", "anti"]
UNARY = ["Filter", "SimpleProjection", "Select", "HStack", "Rename", "Unpivot", "Sort"]


class Sound(Jobs):
    """The jobs of the judge of the program without those that have a byte that doesn't fit."""

    def is_rare(self, share):
        return share != 0.05 and super().is_rare(share)


class Plans:
    """Random jobs whose joins mostly share keys; a node that would have a fault isn't put."""

    def __init__(self, seed):
        self.chance = random.Random(seed)
        self.job = {"version": 2, "workers": 1, "chunk_rows": 2, "row_limit": 3000, "plan": [], "root": 0}
        self.job["frames"] = [self.frame() for _ in range(3)]

    def rare(self, share):
        return self.chance.random() < share

    def frame(self):
        height, columns = self.chance.choice([0, 1, 3, 5]), []
        for name in self.chance.sample(NAMES, self.chance.randint(1, 4)):
            dtype = self.chance.choice(["Int64"] * 6 + ["String", "Int128"])
            values = [self.chance.choice(CELLS[dtype]) for _ in range(height)]
            columns.append({"name": name, "type": dtype, "values": values})
        return {"columns": columns}

    def put(self, node, otherwise=None):
        """The number of a new node, or `otherwise` where it has a fault."""
        plan = self.job["plan"]
        plan.append(node)
        try:
            schemas({**self.job, "root": len(plan) - 1})
        except Fault:
            plan.pop()
            return otherwise
        return len(plan) - 1

    def columns(self, n):
        return schemas({**self.job, "root": n})[n]

    def some(self, names, most):
        return self.chance.sample(list(names), min(len(names), self.chance.randint(1, most)))

    def expression(self, names):
        if self.rare(0.6):
            return {"col": self.chance.choice(names)}
        one = {"lit": {"type": "Int64", "value": self.chance.choice([0, 1, 2, None])}}
        return one if self.rare(0.4) else {"add": [{"col": self.chance.choice(names)}, one]}

    def scan(self):
        frame = self.chance.randrange(3)
        names = [it["name"] for it in self.job["frames"][frame]["columns"]]
        columns = None if self.rare(0.6) else self.some(names, 4)
        return self.put({"node": "DataFrameScan", "frame": frame, "columns": columns})

    def union(self, depth):
        left, right = self.plan(depth - 1), self.plan(depth - 1)
        names, pool = list(self.columns(left)), list(self.columns(right))
        exprs = [{"name": it, "expr": {"col": it} if it in pool else self.expression(pool)} for it in names]
        made = self.put({"node": "Select", "input": right, "exprs": exprs})
        return left if made is None else self.put({"node": "Union", "inputs": [left, made]}, left)

    def join(self, depth):
        sides = [self.plan(depth - 1), self.plan(depth - 1)]
        names = [list(self.columns(it)) for it in sides]
        how, count = self.chance.choice(HOWS), self.chance.randint(1, 2)
        common = [it for it in names[0] if it in names[1]]
        on = [self.chance.sample(it, min(count, len(names[0]), len(names[1]))) for it in names]
        on = [self.some(common, 2)] * 2 if common and self.rare(0.7) else on
        keys = [[] if how == "cross" else [{"col": it} for it in side] for side in on]
        if how != "cross" and self.rare(0.1):
            keys[0][0] = {"add": [keys[0][0], {"lit": {"type": "Int64", "value": 0}}]}
        hint = lambda: [self.chance.choice([None, 1, 3]), self.chance.randrange(6)]
        coalesce = self.chance.choice(["JoinSpecific", "CoalesceColumns", "KeepColumns"])
        node = {
            "node": "Join", "left": sides[0], "right": sides[1], "left_on": keys[0], "right_on": keys[1], "how": how,
            "join_nulls": self.rare(0.4), "coalesce": coalesce, "suffix": "_r", "rows_left": hint(), "rows_right": hint(),
        }  # fmt: skip
        return self.put(node, sides[0])

    def told(self, kind, names):
        """What a node of one input is told."""
        exprs = lambda most: [{"name": it, "expr": self.expression(names)} for it in self.some(NAMES, most)]
        if kind == "Filter":
            return {"predicate": {self.chance.choice(["lt", "eq"]): [self.expression(names), self.expression(names)]}}
        if kind == "SimpleProjection":
            return {"columns": self.some(names, len(names))}
        if kind in ("Select", "HStack"):
            return {"exprs": exprs(3 if kind == "Select" else 2)}
        if kind == "Rename":
            old = self.some(names, len(names))
            new = self.chance.sample([*NAMES, "f", "g", *names], len(old))
            return {"pairs": [{"existing": a, "new": b} for a, b in zip(old, new)]}
        if kind == "Unpivot":
            on = self.some(names, 3)
            return {"on": on, "index": [it for it in names if it not in on], "variable": "variable", "value": "value"}
        by, cut = self.some(names, 2), [self.chance.randint(0, 2), self.chance.randint(0, 4)]
        flags = lambda: [self.rare(0.5) for _ in by]
        return {"by": by, "descending": flags(), "nulls_last": flags(), "slice": None if self.rare(0.6) else cut}

    def plan(self, depth):
        """The number of the top of a new plan."""
        if depth == 0 or self.rare(0.1):
            return self.scan()
        kind = self.chance.choice(["Union", *UNARY, *["Join"] * 6])
        if kind in ("Union", "Join"):
            return self.union(depth) if kind == "Union" else self.join(depth)
        n = self.plan(depth - 1)
        return self.put({"node": kind, "input": n, **self.told(kind, list(self.columns(n)))}, n)

    def made(self):
        self.job["root"] = self.plan(self.chance.randint(1, 4))
        return self.job


def cut(chance, job, scans, count):
    """Random parts of a job that keep to what is told of its scans; each is what a part's job has as frames."""
    parts, places = [[] for _ in range(count)], {}
    for scan in scans:
        frame = job["frames"][scan["frame"]]["columns"]
        names, height = [it["name"] for it in frame], len(frame[0]["values"])
        held = [[] for _ in range(count)]
        for row in range(height):
            if scan["cut"] == "whole":
                into = range(count)
            elif "key" in scan:
                cells = tuple(frame[names.index(it)]["values"][row] for it in scan["columns"])
                place = places.setdefault((scan["key"], cells), chance.randrange(count))
                into = [chance.randrange(count) if None in cells and scan["cut"] != "key" else place]
            else:
                into = [chance.randrange(count)]
            for it in into:
                held[it].append(row)
        for part, rows in zip(parts, held):
            part.append({"columns": [{**it, "values": [it["values"][row] for row in rows]} for it in frame]})
    return parts


def part_job(job, root, scans, frames):
    """The job of a part: each scan reads a frame of its own."""
    plan = [dict(it) for it in job["plan"]]
    for number, scan in enumerate(scans):
        plan[scan["node"]]["frame"] = number
    return {**job, "plan": plan, "root": root, "frames": frames, "row_limit": MOST}


def by_python(jobs):
    """The rows of some jobs by the plain evaluator, as lines, the first with the names."""
    return [lines_of(it) for it in jobs]


def by_program(program):
    """What runs some jobs by the plain program."""

    def work(jobs):
        answers = plain_answers(program, [json.dumps(it).encode() for it in jobs])
        if [status for status, _ in answers] != [0] * len(jobs):
            sys.exit(f"the plain program ended {answers} of {json.dumps(jobs)}")
        return [text.decode().splitlines() for _, text in answers]

    return work


def gathering(job, root, gather, lines):
    """The job that gathers the parts' rows."""
    rows, frame = list(map(json.loads, lines)), []
    for place, (name, dtype) in enumerate(schemas(job)[root].items()):
        frame.append({"name": name, "type": dtype, "values": [row[place] for row in rows]})
    return {**job, "frames": [{"columns": frame}], "plan": gather, "root": 1, "row_limit": MOST}


def differs(chance, job, root, gather, scans, count, run):
    """Whether a random cut as it is told gives other rows."""
    parts = [part_job(job, root, scans, it) for it in cut(chance, job, scans, count)]
    wanted, *found = run([{**job, "root": root, "row_limit": MOST}, *parts])
    lines = [it for part in found for it in part[1:]]
    if any(it[0] != wanted[0] for it in found) or collections.Counter(lines) != collections.Counter(wanted[1:]):
        return True
    if gather is None:
        return False
    gathered, whole = run([gathering(job, root, gather, lines), {**job, "row_limit": MOST}])
    return gathered != whole


def told_by(program, job):
    """What the program's `parts` writes of a job."""
    ran = subprocess.run([program, "parts"], input=json.dumps(job).encode(), capture_output=True)
    return json.loads(ran.stdout) if ran.returncode == 0 else {"status": ran.returncode, "line": ran.stderr.decode()}


def flags_for_each(gather):
    """A gather plan with a flag for each key of its sort; one flag may stand for all."""
    if gather is None:
        return None
    scan, sort = gather
    each = {it: sort[it] * len(sort["by"]) if len(sort[it]) == 1 else sort[it] for it in ("descending", "nulls_last")}
    return [scan, {**sort, **each}]


def beside_rules(told, job, heights, made):
    """What is wrong with what the program told, or None."""
    wanted = parts_of(job, heights)
    if "status" in told or list(told) != sorted(wanted):
        return f"it wrote {told}"
    scans = sorted(told["scans"], key=lambda it: it["node"])
    if not wanted["parts"]:
        return None if {**told, "scans": scans} == wanted else f"the rules have no choice, by {wanted['refused']}"
    for member in ("parts", "root", "gather", "whole_rows", "refused"):
        found, by_rules = (flags_for_each(it[member]) if member == "gather" else it[member] for it in (told, wanted))
        if found != by_rules:
            return f"{member} is {found}, by the rules {by_rules}"
    return None if scans in made else "the rules haven't that choice"


def random_jobs(seed, count):
    """Jobs without a fault: of each three two from here, and one from the judge of the program."""
    jobs = Sound(seed)
    for number in range(count):
        if number % 3:
            yield Plans(seed * 10_000_019 + number).made()
            continue
        while True:
            try:
                job = {**json.loads(jobs.job()), "workers": 1, "chunk_rows": 2, "row_limit": 3000}
                rows_of(job)
                break
            except Fault:
                continue
        yield job


def judged(chance, job, program, run, counts):
    """Tries some choices of a plan's; gives what differs, as words."""
    found, (root, gather) = schemas(job), root_of(job)
    heights = heights_of(job)
    made = [told_of(job, it, heights)[0] for it in choices(job, found, root, "split")]
    counts["without a choice"] += not made
    for scans in chance.sample(made, min(6, len(made))):
        counts["cuts"] += 1
        counts.update(f"scans {it['cut']}" for it in scans)
        if differs(chance, job, root, gather, scans, chance.choice([1, 2, 3, 8]), run):
            return f"other rows: {scans}"
    wrong = beside_rules(told_by(program, job), job, heights, made) if program else None
    return wrong and f"parts: {wrong}"


def wrong_cuts(chance, run):
    """Cuts the named plans as they mustn't be; gives the names of those where no cut gave other rows."""
    kept = []
    for name, (job, root, gather, scans) in WRONG.items():
        own = choices(job, schemas(job), root, "split")
        is_allowed = scans in [told_of(job, it, [0] * len(job["frames"]))[0] for it in own]
        if is_allowed or not any(differs(chance, job, root, gather, scans, 2, run) for _ in range(60)):
            kept.append(name)
    return kept


def kinds_in(job):
    under = {job["root"]}
    for n in range(job["root"], -1, -1):
        under |= set(inputs_of(job["plan"][n])) if n in under else set()
    return [it.get("how") or it["node"] for it in (job["plan"][n] for n in under)]


def main():
    parser = argparse.ArgumentParser(description=__doc__, formatter_class=argparse.RawDescriptionHelpFormatter)
    parser.add_argument("--program")
    parser.add_argument("--plain")
    parser.add_argument("--seed", type=int, default=1)
    parser.add_argument("--plans", type=int, default=3000)
    given = parser.parse_args()
    run = by_program(given.plain) if given.plain else by_python
    chance, counts, kinds, differ = random.Random(given.seed), collections.Counter(), collections.Counter(), 0
    for job in random_jobs(given.seed, given.plans):
        try:
            rows_of(job)
        except Fault:
            counts["too many rows"] += 1
            continue
        counts["plans"] += 1
        kinds.update(kinds_in(job))
        wrong = judged(chance, job, given.program, run, counts)
        if wrong:
            differ += 1
            print(f"{wrong}\n  {json.dumps(job)}")
    kept = wrong_cuts(chance, run)
    print(f"{dict(counts)}, {differ} differ\nnodes: {dict(kinds)}")
    print(f"{len(WRONG)} plans cut as they mustn't be, {len(kept)} of them without other rows {', '.join(kept)}")
    return 1 if differ or kept else 0


if __name__ == "__main__":
    sys.exit(main())
