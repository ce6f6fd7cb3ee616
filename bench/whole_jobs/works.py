"""The works: each a job of about so many rows, made from a seed."""

import random

BYTES_OF_A_JOB = 33_554_432


def column(name, dtype, values):
    return {"name": name, "type": dtype, "values": values}


def numbers(chance, rows, below):
    return [chance.randrange(below) for _ in range(rows)]


def scan(frame):
    return {"node": "DataFrameScan", "frame": frame, "columns": None}


# A hint that tells nothing.
UNKNOWN = [None, 0]


def known(rows):
    """A hint that tells how many rows a side has."""
    return [rows, rows]


def join(left, right, on, how, rows_left=UNKNOWN, rows_right=UNKNOWN):
    keys = [{"col": name} for name in on]
    return {
        "node": "Join", "left": left, "right": right, "left_on": keys, "right_on": keys, "how": how, "join_nulls": False,
        "coalesce": "JoinSpecific", "suffix": "_right", "rows_left": rows_left, "rows_right": rows_right,
    }  # fmt: skip


def sort(below, by):
    return {"node": "Sort", "input": below, "by": by, "descending": [False], "nulls_last": [False], "slice": None}


def job(frames, plan):
    return {
        "version": 1, "workers": 4, "chunk_rows": 65_536, "row_limit": 4_294_967_294,
        "frames": [{"columns": it} for it in frames], "plan": plan, "root": len(plan) - 1,
    }  # fmt: skip


def sides(rows, seed):
    """Two frames with a key of numbers, about one match a row, and a payload each."""
    chance = random.Random(seed)
    return [
        [column("k", "Int64", numbers(chance, rows, rows)), column("a", "Int64", numbers(chance, rows, 1000))],
        [column("k", "Int64", numbers(chance, rows, rows)), column("b", "Int64", numbers(chance, rows, 1000))],
    ]


def inner(rows, seed):
    return job(sides(rows, seed), [scan(0), scan(1), join(0, 1, ["k"], "inner")])


def left_sorted(rows, seed):
    return job(sides(rows, seed), [scan(0), scan(1), join(0, 1, ["k"], "left"), sort(2, ["k", "a"])])


def full(rows, seed):
    return job(sides(rows, seed), [scan(0), scan(1), join(0, 1, ["k"], "full")])


def anti(rows, seed):
    return job(sides(rows, seed), [scan(0), scan(1), join(0, 1, ["k"], "anti")])


def filtered(rows, seed):
    """One frame of many rows, of which a tenth is kept and one column is added."""
    chance = random.Random(seed)
    frame = [column("k", "Int64", numbers(chance, 4 * rows, 1000)), column("a", "Int64", numbers(chance, 4 * rows, 1000))]
    return job([frame], [
        scan(0),
        {"node": "Filter", "input": 0, "predicate": {"lt": [{"col": "k"}, {"lit": {"type": "Int64", "value": 100}}]}},
        {"node": "HStack", "input": 1, "exprs": [{"name": "sum", "expr": {"add": [{"col": "k"}, {"col": "a"}]}}]},
    ])  # fmt: skip


def star(rows, seed):
    """Many rows joined to four small frames, one after another, of which it is known that they are small."""
    chance = random.Random(seed)
    facts = [column(f"k{n}", "Int64", numbers(chance, rows, 100)) for n in range(4)]
    small = [[column(f"k{n}", "Int64", list(range(100))), column(f"name{n}", "String", [f"{n}-{k}" for k in range(100)])]
             for n in range(4)]  # fmt: skip
    plan = [scan(0), *[scan(n + 1) for n in range(4)]]
    for n in range(4):
        left = 0 if n == 0 else len(plan) - 1
        plan.append(join(left, n + 1, [f"k{n}"], "inner", known(rows), known(100)))
    return job([facts, *small], plan)


def texts(rows, seed):
    """The inner join of two frames by a key of texts."""
    chance = random.Random(seed)
    words = [f"part {n:07} of a longer name" for n in range(rows)]
    sides = [[column("k", "String", chance.choices(words, k=rows)), column(name, "Int64", numbers(chance, rows, 1000))]
             for name in ("a", "b")]  # fmt: skip
    return job(sides, [scan(0), scan(1), join(0, 1, ["k"], "inner")])


def semi(rows, seed):
    return job(sides(rows, seed), [scan(0), scan(1), join(0, 1, ["k"], "semi")])


def below(name, number):
    return {"lt": [{"col": name}, {"lit": {"type": "Int64", "value": number}}]}


def filter_join_sort(rows, seed):
    """Half the rows of either side, joined and sorted."""
    plan = [scan(0), scan(1), {"node": "Filter", "input": 0, "predicate": below("a", 500)},
            {"node": "Filter", "input": 1, "predicate": below("b", 500)}, join(2, 3, ["k"], "inner"),
            sort(4, ["k", "a"])]  # fmt: skip
    return job(sides(rows, seed), plan)


def union(rows, seed):
    """Four filtered frames, one under another, of which one column is kept."""
    frames = [it for n in range(2) for it in sides(rows, seed + n)]
    named = [[first, {**second, "name": "a"}] for first, second in frames]
    plan = [scan(n) for n in range(4)]
    plan += [{"node": "Filter", "input": n, "predicate": below("a", 500)} for n in range(4)]
    plan += [{"node": "Union", "inputs": [4, 5, 6, 7]}, {"node": "SimpleProjection", "input": 8, "columns": ["k"]}]
    return job(named, plan)


WORKS = {
    "inner": inner, "texts": texts, "left_sorted": left_sorted, "full": full, "semi": semi, "anti": anti,
    "filter_join_sort": filter_join_sort, "filtered": filtered, "union": union, "star": star,
}  # fmt: skip
