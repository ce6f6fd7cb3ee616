#!/usr/bin/env python3
"""A work by pandas, from CSV files: by_pandas.py WORK FOLDER prints CSV."""

import sys
from pathlib import Path

import pandas


def full(left, right):
    right = right.assign(k_right=right["k"])
    both = left.merge(right, on="k", how="outer", indicator=True)
    both.loc[both["_merge"] == "right_only", "k"] = pandas.NA
    return both[["k", "a", "k_right", "b"]]


def filter_join_sort(left, right):
    both = left[left["a"] < 500].merge(right[right["b"] < 500], on="k")
    return both.sort_values(["k", "a", "b"])


def left_sorted(left, right):
    return left.merge(right, on="k", how="left").sort_values(["k", "a", "b"], na_position="first")


def filtered(frame):
    few = frame[frame["k"] < 100]
    return few.assign(sum=few["k"] + few["a"])


def star(facts, *small):
    for n, frame in enumerate(small):
        facts = facts.merge(frame, on=f"k{n}")
    return facts


WORKS = {
    "inner": lambda left, right: left.merge(right, on="k"),
    "texts": lambda left, right: left.merge(right, on="k"),
    "left_sorted": left_sorted,
    "full": full,
    "semi": lambda left, right: left[left["k"].isin(right["k"])],
    "anti": lambda left, right: left[~left["k"].isin(right["k"])],
    "filter_join_sort": filter_join_sort,
    "filtered": filtered,
    "union": lambda *frames: pandas.concat(it[it["a"] < 500] for it in frames)[["k"]],
    "star": star,
}


def main():
    work, folder = sys.argv[1], Path(sys.argv[2])
    frames = [pandas.read_csv(folder / f"{work}.{n}.csv") for n in range(len(list(folder.glob(f"{work}.*.csv"))))]
    made = WORKS[work](*frames)
    # A column that got a null is of floats now: whole numbers again.
    made.convert_dtypes().to_csv(sys.stdout, index=False)


if __name__ == "__main__":
    main()
