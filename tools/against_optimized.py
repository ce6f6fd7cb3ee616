#!/usr/bin/env python3
"""Compares `optimize` with what it promises, over random jobs: the rows of a run on its text, and the form of its plan.

    tools/against_optimized.py PROGRAM [--seed N] [--jobs N]

The program has to be built (`rt ci` leaves it in crates/liskevar/out). A job is optimized, and the given job and the text
are run. Of a bad job `optimize` ends as `check` does. Of a good one the text is the compact JSON of a good job with the
same numbers and frames, the rows are those of the given job, as often as they come and in their order where its root is a
sort, and the plan is judged as it stands: no filter on a filter, no conjunct of a filter that may go lower, each scan's
columns exactly those that are needed, no more than twice the nodes, and no node of more rows than the given plan's longest.
The judge is written from the table of docs/FORMATS.md and not from the program. A job that differs is kept in a file.
"""

import argparse
import collections
import json
import pathlib
import subprocess
import sys
import tempfile

sys.path.insert(0, str(pathlib.Path(__file__).parent))
from against_plain_program import NAMES, Jobs  # noqa: E402


class Plans(Jobs):
    """Random jobs of good plans mostly, with many filters of several conjuncts."""

    def names(self, columns, most):
        """Known names of some columns but for a few times."""
        if self.is_rare(0.01):
            return super().names(NAMES, most)
        distinct = list(dict.fromkeys(columns)) or NAMES
        return self.chance.sample(distinct, min(self.chance.randint(1, most + 1), len(distinct)))

    def test(self, columns):
        """A truth value that has a type whatever the columns' types are."""
        column = lambda: {"col": self.chance.choice(columns or NAMES)}
        kind = self.chance.random()
        if kind < 0.35:
            return {self.chance.choice(["is_null", "is_not_null"]): column()}
        if kind < 0.6:
            name = self.chance.choice(columns or NAMES)
            return {self.chance.choice(["eq", "lt_eq", "not_eq"]): [{"col": name}, {"col": name}]}
        if kind < 0.7:
            return {"lit": {"type": "Boolean", "value": self.chance.choice([True, True, False, None])}}
        if kind < 0.8:
            return {"not": self.test(columns)}
        return {"or": [self.test(columns), self.test(columns)]}

    def predicate(self, types, columns):
        if self.is_rare(0.03):
            return super().predicate(types, columns)
        tests = [self.test(columns) for _ in range(self.chance.randint(1, 4))]
        while len(tests) > 1:
            place = self.chance.randrange(len(tests) - 1)
            tests[place : place + 2] = [{"and": tests[place : place + 2]}]
        return tests[0]

    def unary(self, below, columns, types):
        if self.is_rare(0.5):
            return {"node": "Filter", "input": below, "predicate": self.predicate(types, columns)}, columns
        return super().unary(below, columns, types)

    def plan(self, frames, types):
        nodes = super().plan(frames, types)
        free = set(range(len(nodes))) - {it for node in nodes for it in inputs_of(node)}
        if len(nodes) - 1 in free and self.is_rare(0.7):
            columns = list(dict.fromkeys(name for frame in frames for name in fields_of(frame)))
            for _ in range(self.chance.randint(1, 3)):
                nodes.append(self.unary(len(nodes) - 1, columns, types)[0])
        return nodes


# ---- plans


def fields_of(frame):
    return [it["name"] for it in frame["columns"]]


def inputs_of(node):
    """The nodes that a node reads."""
    if node["node"] == "DataFrameScan":
        return []
    if node["node"] == "Union":
        return node["inputs"]
    return [node["left"], node["right"]] if node["node"] == "Join" else [node["input"]]


def under(task):
    """The numbers of the nodes under the root."""
    found, left = set(), [task["root"]]
    while left:
        number = left.pop()
        if number not in found:
            found.add(number)
            left.extend(inputs_of(task["plan"][number]))
    return sorted(found)


def reads(expr):
    """The names that an expression reads."""
    ((kind, part),) = expr.items()
    if kind == "col":
        return {part}
    if kind == "lit":
        return set()
    return set().union(*map(reads, part)) if isinstance(part, list) else reads(part)


def conjuncts(expr):
    return [it for part in expr["and"] for it in conjuncts(part)] if "and" in expr else [expr]


def shown(node, left, right):
    """The right input's fields under the names that a join shows them."""
    if node["how"] in ("semi", "anti"):
        return {}
    drops = node["coalesce"] == "CoalesceColumns" or (node["coalesce"] == "JoinSpecific" and node["how"] in ("inner", "left"))
    keys = {it["col"] for it in node["right_on"] if "col" in it} if drops else set()
    return {name + node["suffix"] if name in left else name: name for name in right if name not in keys}


def schemas(task):
    """The field names of each node under the root."""
    given = {}
    for number in under(task):
        node = task["plan"][number]
        kind, below = node["node"], [given[it] for it in inputs_of(node)]
        if kind == "DataFrameScan":
            given[number] = node["columns"] or fields_of(task["frames"][node["frame"]])
        elif kind == "SimpleProjection":
            given[number] = node["columns"]
        elif kind == "Select":
            given[number] = [it["name"] for it in node["exprs"]]
        elif kind == "HStack":
            given[number] = list(dict.fromkeys(below[0] + [it["name"] for it in node["exprs"]]))
        elif kind == "Unpivot":
            given[number] = [*node["index"], node["variable"], node["value"]]
        elif kind == "Rename":
            new = {it["existing"]: it["new"] for it in node["pairs"]}
            given[number] = [new.get(it, it) for it in below[0]]
        elif kind == "Join":
            given[number] = below[0] + list(shown(node, below[0], below[1]))
        else:
            given[number] = below[0]
    return given


# ---- the judge


def may_go_lower(task, given, number, read):
    """Whether a conjunct that reads these names may go below a node on which its filter stands."""
    node = task["plan"][number]
    kind, below = node["node"], [given[it] for it in inputs_of(node)]
    if kind in ("Filter", "SimpleProjection", "Rename", "Union"):
        return True
    if kind == "Sort":
        return node["slice"] is None
    if kind == "Select":
        plain = {it["name"] for it in node["exprs"] if "col" in it["expr"]}
        return read <= plain
    if kind == "HStack":
        return read <= set(below[0]) - {it["name"] for it in node["exprs"]}
    if kind == "Unpivot":
        return read <= set(node["index"])
    if kind != "Join" or node["how"] == "full":
        return False
    right = set(shown(node, *below))
    return read <= set(below[0]) or (node["how"] in ("inner", "cross") and read <= right)


def needed(task, given):
    """What each node under the root has to give."""
    need = {number: set() for number in given}
    need[task["root"]] = set(given[task["root"]])
    for number in sorted(given, reverse=True):
        need[number] = need[number] or set(given[number][:1])
        wants, node = need[number], task["plan"][number]
        kind, inputs = node["node"], inputs_of(node)
        below = [given[it] for it in inputs]
        if kind == "Filter":
            need[inputs[0]] = wants | reads(node["predicate"])
        elif kind == "SimpleProjection":
            need[inputs[0]] = set(wants)
        elif kind == "Select":
            need[inputs[0]] = set().union(*(reads(it["expr"]) for it in node["exprs"] if it["name"] in wants))
        elif kind == "HStack":
            added = [reads(it["expr"]) for it in node["exprs"] if it["name"] in wants]
            need[inputs[0]] = (wants & set(below[0])).union(*added)
        elif kind == "Rename":
            new = {it["existing"]: it["new"] for it in node["pairs"]}
            need[inputs[0]] = {it for it in below[0] if new.get(it, it) in wants}
        elif kind == "Unpivot":
            need[inputs[0]] = {*node["on"], *node["index"]}
        elif kind == "Union" or (kind == "Sort" and node["slice"] is not None):
            for it in inputs:
                need[it] = set(given[it])
        elif kind == "Sort":
            need[inputs[0]] = wants | set(node["by"])
        elif kind == "Join":
            right = {old for new, old in shown(node, *below).items() if new in wants}
            right = right.union(*map(reads, node["right_on"]))
            need[inputs[1]] = right
            need[inputs[0]] = (wants & set(below[0])).union(set(below[0]) & (right or set(below[1][:1])), *map(reads, node["left_on"]))
    return need


def faults(task, made):
    """What a rewritten job has that it may not have."""
    for member in ("version", "workers", "chunk_rows", "row_limit", "frames"):
        if made[member] != task[member]:
            yield f"{member} has changed"
    given, plan = schemas(made), made["plan"]
    need = needed(made, given)
    if len(plan) > 2 * len(under(task)):
        yield f"{len(plan)} nodes"
    asked, root = task["plan"][task["root"]], plan[made["root"]]
    if asked["node"] == "Sort" and {**root, "input": 0} != {**asked, "input": 0}:
        yield "the root is another sort"
    for number in given:
        node = plan[number]
        if node["node"] == "DataFrameScan" and set(given[number]) != need[number]:
            yield f"scan {number} gives {given[number]}, and {sorted(need[number])} are needed"
        if node["node"] == "Filter":
            if plan[node["input"]]["node"] == "Filter":
                yield f"filter {number} stands on a filter"
            for part in conjuncts(node["predicate"]):
                if may_go_lower(made, given, node["input"], reads(part)):
                    yield f"{part} of filter {number} may go lower"


def run(program, word, job):
    return subprocess.run([program, word], input=job, capture_output=True)


def heights(program, task):
    """How many rows each node under the root has, told by running the plan up to it."""
    counts = {}
    for number in under(task):
        ran = run(program, "run", json.dumps({**task, "root": number}).encode())
        if ran.returncode == 0:
            counts[number] = len(ran.stdout.splitlines()) - 1
    return counts


def same_lines(task, given, made):
    one, other = given.splitlines(), made.splitlines()
    if task["plan"][task["root"]]["node"] == "Sort":
        return one == other
    return one[:1] == other[:1] and collections.Counter(one) == collections.Counter(other)


def differences(program, job, deep):
    """What is wrong with what `optimize` makes of a job."""
    made, checked = run(program, "optimize", job), run(program, "check", job)
    if checked.returncode != 0:
        if (made.returncode, made.stderr, made.stdout) != (checked.returncode, checked.stderr, b""):
            yield f"status {made.returncode}, and {checked.returncode} of check"
        return
    if made.returncode != 0:
        yield f"status {made.returncode}"
        return
    task, better = json.loads(job), json.loads(made.stdout)
    if json.dumps(better, separators=(",", ":"), ensure_ascii=False, sort_keys=True).encode() + b"\n" != made.stdout:
        yield "the text isn't compact"
    yield from faults(task, better)
    given, ran = run(program, "run", job), run(program, "run", made.stdout)
    if given.returncode == 0 and ran.returncode != 0:
        yield f"the text ends with {ran.returncode}"
    if given.returncode == 0 and ran.returncode == 0 and not same_lines(task, given.stdout, ran.stdout):
        yield "the rows differ"
    if run(program, "check", made.stdout).returncode != 0:
        yield "the text is no good job"
    if deep and given.returncode == 0:
        most = max(heights(program, task).values())
        if max(heights(program, better).values()) > most:
            yield f"a node of more than {most} rows"


def main():
    parser = argparse.ArgumentParser(description=__doc__, formatter_class=argparse.RawDescriptionHelpFormatter)
    parser.add_argument("program")
    parser.add_argument("--seed", type=int, default=1)
    parser.add_argument("--jobs", type=int, default=10_000)
    args = parser.parse_args()
    plans, statuses = Plans(args.seed), collections.Counter()
    for number in range(args.jobs):
        job = plans.job()
        statuses[run(args.program, "optimize", job).returncode] += 1
        told = list(differences(args.program, job, deep=number % 20 == 0))
        if told:
            with tempfile.NamedTemporaryFile(prefix="optimized_", suffix=".json", delete=False) as file:
                file.write(job)
            sys.exit(f"job {number} of seed {args.seed} differs: {'; '.join(told)}; it is in {file.name}")
    print(f"{args.jobs} jobs keep what is promised, with statuses {dict(sorted(statuses.items()))}")


if __name__ == "__main__":
    main()
