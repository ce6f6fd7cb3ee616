#!/usr/bin/env python3
"""A reconciliation by pandas, from CSV files: by_pandas.py LEFT RIGHT NAME.. prints the lines of one."""

import sys

import pandas


def partners(both, own, other):
    """The least row of the other table for each row, none where there is none."""
    return both[both[own].notna()].groupby(own)[other].min()


def lines_of(side, partner):
    rows = partner.index.astype("int64")
    found = partner.notna()
    texts = partner.astype("Int64").astype("string").fillna("null")
    kinds = found.map({True: "matched", False: f"{side}_only"})
    return [f'["{side}",{row},"{kind}",{text}]' for row, kind, text in zip(rows, kinds, texts)]


def main():
    left, right, *on = sys.argv[1:]
    left, right = pandas.read_csv(left), pandas.read_csv(right)
    both = left.assign(i=left.index).merge(right.assign(j=right.index), on=on, how="outer", indicator=True)
    sides = [("left", partners(both, "i", "j")), ("right", partners(both, "j", "i"))]
    counts = [count for _, it in sides for count in (int(it.notna().sum()), int(it.isna().sum()))]
    sys.stdout.write("[" + ",".join(map(str, counts)) + "]\n")
    for side, partner in sides:
        sys.stdout.write("\n".join([*lines_of(side, partner), ""]))


if __name__ == "__main__":
    main()
