#!/usr/bin/env python3
"""Compares the program with the plain program over random jobs: status, line and rows.

    tools/against_plain_program.py PROGRAM PLAIN_PROGRAM [--seed N] [--jobs N]

Both programs have to be built (`rt ci` leaves them in crates/liskevar/out and crates/plain_program/out). Jobs are of every
kind of node, in both versions, with names and types that mostly fit; a few have a member or a byte that doesn't. Rows are
compared as often as they come, and in their order where the root is a sort. Where a node has too many rows, the plain
program tells the least of them and the program any; that the one told has too many is asked of the plain program again.
A job that differs is kept in a file.
"""

import argparse
import collections
import json
import random
import re
import subprocess
import sys
import tempfile

TYPES = ["Int32", "Int64", "UInt32", "UInt64", "Boolean", "String", "Binary"]
NAMES = ["a", "b", "k", "v", "k_right", "id", "variable", 'x"y']
CELLS = {
    "Int32": [0, 1, -1, 2**31 - 1, -(2**31)], "Int64": [0, 1, -5, 2**63 - 1], "UInt32": [0, 1, 2**32 - 1],
    "UInt64": [0, 3, 2**64 - 1], "Boolean": [True, False], "String": ["", "a", 'k"', "é"], "Binary": ["", "00", "ff00"],
    "Int128": ["0", "-1", "7"],
}  # fmt: skip
PAIRED = ["add", "sub", "mul", "eq", "not_eq", "lt", "lt_eq", "gt", "gt_eq", "and", "or"]
SINGLE = ["not", "is_null", "is_not_null"]


class Jobs:
    """Random jobs from a seed."""

    def __init__(self, seed):
        self.chance = random.Random(seed)

    def is_rare(self, share):
        return self.chance.random() < share

    def cell(self, dtype):
        return None if self.is_rare(0.2) else self.chance.choice(CELLS[dtype])

    def frame(self, types):
        height = self.chance.randrange(4)
        dtype = lambda: self.chance.choice(types) if self.is_rare(0.6) else "Int64"
        columns = [(name, dtype()) for name in self.chance.sample(NAMES, self.chance.randint(1, 4))]
        cells = lambda it: [self.cell(it) for _ in range(height)]
        return {"columns": [{"name": name, "type": it, "values": cells(it)} for name, it in columns]}

    def names(self, columns, most):
        """One name or more of some columns, distinct but for a few times, and known but for a few times."""
        if self.is_rare(0.08):
            return [self.chance.choice(NAMES) for _ in range(self.chance.randint(1, most))]
        distinct = list(dict.fromkeys(columns)) or NAMES
        return self.chance.sample(distinct, min(self.chance.randint(1, most), len(distinct)))

    def expression(self, depth, types, columns):
        kind = self.chance.random()
        if depth == 0 or kind < 0.4:
            return {"col": self.chance.choice(NAMES if self.is_rare(0.1) or not columns else columns)}
        if kind < 0.55:
            dtype = self.chance.choice(types)
            return {"lit": {"type": dtype, "value": self.cell(dtype)}}
        part = lambda: self.expression(depth - 1, types, columns)
        if kind < 0.65:
            return {self.chance.choice(SINGLE): part()}
        return {self.chance.choice(PAIRED): [part(), part()]}

    def predicate(self, types, columns):
        if self.is_rare(0.3):
            return self.expression(2, types, columns)
        return {self.chance.choice(SINGLE[1:]): self.expression(1, types, columns)}

    def join(self, inputs, sides, types):
        how = self.chance.choice(["inner", "left", "full", "cross", "semi", "anti"])
        count = 0 if how == "cross" else self.chance.randint(1, 2)
        key = lambda names: {"col": self.chance.choice(names)} if not self.is_rare(0.1) else self.expression(1, types, names)
        hint = lambda: [self.chance.choice([None, 1, 3]), self.chance.randrange(6)]
        node = {
            "node": "Join", "left": inputs[0], "right": inputs[1], "left_on": [key(sides[0]) for _ in range(count)],
            "right_on": [key(sides[1]) for _ in range(count)], "how": how, "join_nulls": self.is_rare(0.3),
            "coalesce": self.chance.choice(["JoinSpecific", "CoalesceColumns", "KeepColumns"]),
            "suffix": self.chance.choice(["_right", "_right", "", "2"]), "rows_left": hint(), "rows_right": hint(),
        }  # fmt: skip
        kept = [] if how in ("semi", "anti") else [it + "_right" if it in sides[0] else it for it in sides[1]]
        return node, list(dict.fromkeys(sides[0] + kept))

    def sort(self, below, columns):
        by = self.names(columns, 2)
        flags = lambda: [self.is_rare(0.5) for _ in range(self.chance.choice([1, len(by)]))]
        cut = None if self.is_rare(0.6) else [self.chance.choice([0, 1, 2, -1]), self.chance.choice([0, 1, 5])]
        return {"node": "Sort", "input": below, "by": by, "descending": flags(), "nulls_last": flags(), "slice": cut}, columns

    def unary(self, below, columns, types):
        """A node over one input, with the names that it gives."""
        kind = self.chance.choice(["Filter", "SimpleProjection", "Select", "HStack", "Unpivot", "Rename", "Sort"])
        node = {"node": kind, "input": below}
        if kind == "Sort":
            return self.sort(below, columns)
        if kind == "Filter":
            return {**node, "predicate": self.predicate(types, columns)}, columns
        if kind == "SimpleProjection":
            names = self.names(columns, 3)
            return {**node, "columns": names}, names
        if kind in ("Select", "HStack"):
            names = self.names(NAMES, 2)
            exprs = [{"name": name, "expr": self.expression(1, types, columns)} for name in names]
            return {**node, "exprs": exprs}, names if kind == "Select" else list(dict.fromkeys(columns + names))
        if kind == "Unpivot":
            on = self.names(columns, 2)
            index = self.names([it for it in columns if it not in on], 2) if self.is_rare(0.6) else []
            variable, value = self.chance.choice(["variable", "a"]), self.chance.choice(["value", "b"])
            return {**node, "on": on, "index": index, "variable": variable, "value": value}, [*index, variable, value]
        pairs = [{"existing": name, "new": self.chance.choice(NAMES)} for name in self.names(columns, 2)]
        return {**node, "pairs": pairs}, columns

    def taken(self, free):
        """None, one or two of the nodes that nothing reads yet, which are then read."""
        count = min(len(free), self.chance.choice([0, 1, 1, 2]))
        return [free.pop(self.chance.randrange(len(free))) for _ in range(count)]

    def plan(self, frames, types):
        """Nodes whose inputs are mostly nodes that nothing reads yet."""
        nodes, given, free = [], [], []
        for number in range(self.chance.randint(1, 7)):
            taken = self.taken(free)
            if not taken:
                frame = self.chance.randrange(len(frames))
                names = [it["name"] for it in frames[frame]["columns"]]
                columns = None if self.is_rare(0.5) else self.names(names, 2)
                made = {"node": "DataFrameScan", "frame": frame, "columns": columns}, columns or names
            elif len(taken) == 2 and self.is_rare(0.75):
                made = self.join(taken, [given[it] for it in taken], types)
            elif len(taken) == 2:
                made = {"node": "Union", "inputs": taken}, given[taken[0]]
            else:
                made = self.unary(taken[0], given[taken[0]], types)
            nodes.append(made[0])
            given.append(made[1])
            free.append(number)
        return nodes

    def job(self):
        version = self.chance.choice([1, 1, 2])
        types = TYPES + ["Int128"] * (version == 2)
        frames = [self.frame(types) for _ in range(self.chance.randint(1, 3))]
        plan = self.plan(frames, types)
        numbers = self.is_rare(0.1)
        text = json.dumps({
            "version": version, "workers": self.chance.choice([0, 1, 256, 257] if numbers else [1, 2, 4]),
            "chunk_rows": self.chance.choice([1, 2, 100]), "row_limit": self.chance.choice([0, 1, 4] if numbers else [1000]),
            "frames": frames, "plan": plan, "root": len(plan) - 1,
        }, ensure_ascii=self.is_rare(0.5))  # fmt: skip
        if self.is_rare(0.05):
            place = self.chance.randrange(len(text))
            text = text[:place] + self.chance.choice(["", "0", '"', "}", ","]) + text[place + 1 :]
        return text.encode()


def plain_answers(program, jobs):
    """The status and the text of the plain program for each job."""
    text = b"".join(b"%d\n%s" % (len(it), it) for it in jobs)
    told = subprocess.run([program, "many"], input=text, capture_output=True).stdout
    answers, place = [], 0
    while place < len(told):
        end = told.index(b"\n", place)
        status, length = map(int, told[place:end].split())
        answers.append((status, told[end + 1 : end + 1 + length]))
        place = end + 1 + length
    return answers


def has_too_many(plain, job, line):
    """Whether the node that a line of status 7 names has more rows than the job's limit."""
    told = re.fullmatch(rb"error 7: TooMany at node (\d+)\n", line)
    if not told:
        return False
    task = json.loads(job)
    limit, task["root"], task["row_limit"] = task["row_limit"], int(told[1]), 4_294_967_294
    ((status, text),) = plain_answers(plain, [json.dumps(task).encode()])
    return status == 0 and len(text.splitlines()) - 1 > limit


def are_alike(plain, job, ran, status, text):
    """Whether the program answered what the plain program did."""
    if ran.returncode != status:
        return False
    if status == 7 and ran.stderr != text:
        return ran.stdout == b"" and has_too_many(plain, job, ran.stderr)
    if status != 0:
        return ran.stdout == b"" and ran.stderr.strip() == text.strip()
    given, wanted = ran.stdout.splitlines(), text.splitlines()
    task = json.loads(job)
    if task["plan"][task["root"]]["node"] == "Sort":
        return given == wanted
    return given[:1] == wanted[:1] and collections.Counter(given) == collections.Counter(wanted)


def main():
    parser = argparse.ArgumentParser(description=__doc__, formatter_class=argparse.RawDescriptionHelpFormatter)
    parser.add_argument("program")
    parser.add_argument("plain")
    parser.add_argument("--seed", type=int, default=1)
    parser.add_argument("--jobs", type=int, default=1000)
    given = parser.parse_args()
    made = Jobs(given.seed)
    jobs = [made.job() for _ in range(given.jobs)]
    answers = plain_answers(given.plain, jobs)
    if len(answers) != len(jobs):
        sys.exit(f"the plain program answered {len(answers)} of {len(jobs)} jobs")
    statuses, differ = collections.Counter(), 0
    for job, (status, text) in zip(jobs, answers):
        ran = subprocess.run([given.program, "run"], input=job, capture_output=True)
        statuses[status] += 1
        if not are_alike(given.plain, job, ran, status, text):
            differ += 1
            with tempfile.NamedTemporaryFile(suffix=".json", delete=False) as file:
                file.write(job)
            print(f"status {ran.returncode} and {status}: {file.name}")
    print(f"{len(jobs)} jobs, by status {dict(sorted(statuses.items()))}, {differ} differ")
    return 1 if differ else 0


if __name__ == "__main__":
    sys.exit(main())
