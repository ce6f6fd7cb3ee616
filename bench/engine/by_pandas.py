#!/usr/bin/env python3
"""The same plans by pandas: by_pandas.py FOLDER, over the CSV files that plain.rs writes.

Each line that it writes is a name, nanoseconds, and a number that the cells of the answer make.
"""

import sys
import time
from pathlib import Path

import pandas


def cells(made, columns):
    """What the numbers of a frame make, whatever the order of its rows."""
    return len(made) + sum((1 + 2 * made.columns.get_loc(name)) * int(made[name].sum()) for name in columns)


def timed(name, columns, run):
    for _ in range(3):
        start = time.perf_counter_ns()
        made = run()
        print(name, time.perf_counter_ns() - start, cells(made, columns), flush=True)


def full(left, right):
    """The answer keeps both keys, so the right one goes through under a name of its own."""
    both = left.assign(here=True).merge(right.assign(k_right=right["k"]), on="k", how="outer")
    both["k"] = both["k"].where(both["here"].notna())
    return both[["k", "a", "k_right", "b"]]


def star(facts, small):
    for n, frame in enumerate(small):
        facts = facts.merge(frame, on=f"k{n}")
    return facts


def main():
    frame = lambda name: pandas.read_csv(Path(sys.argv[1]) / f"{name}.csv")
    left, right, facts, pair = frame("left"), frame("right"), frame("facts"), frame("pair")
    small = [frame(f"small{n}") for n in range(4)]
    parts = [frame(f"part{n}") for n in range(4)]
    keys = [f"k{n}" for n in range(4)]
    sums = lambda: pandas.DataFrame({a + b: facts[k] + facts[m] for a, b, k, m in
                                     (("k", "a", "k0", "k1"), ("a", "b", "k1", "k2"), ("b", "c", "k2", "k3"))})  # fmt: skip
    timed("inner join", ["k", "a", "b"], lambda: left.merge(right, on="k"))
    timed("left join", ["k", "a", "b"], lambda: left.merge(right, on="k", how="left"))
    timed("full join", ["k", "a", "k_right", "b"], lambda: full(left, right))
    timed("star of four joins", keys + [f"n{n}" for n in range(4)], lambda: star(facts, small))
    timed("sort by two columns", ["k", "a"], lambda: pair.sort_values(["k", "a"]))
    timed("union of four filters", ["s"], lambda: pandas.concat(it[it["k"] < 500] for it in parts).eval("s = k + a")[["s"]])
    timed("filter", keys, lambda: facts[facts["k0"] < 500])
    timed("projection", ["ka", "ab", "bc"], sums)
    timed("extension", keys + ["ka", "ab", "bc"], lambda: pandas.concat([facts, sums()], axis=1))
    timed("unpivot", ["value"], lambda: facts.melt())


if __name__ == "__main__":
    main()
