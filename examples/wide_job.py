#!/usr/bin/env python3
"""Writes a job over two tables of 40 columns, of which its plan needs three.

    examples/wide_job.py ROWS > wide.json

The tables are joined by `key`, of which each has about ten rows of one value; then come a filter, a projection and a
sort.
"""

import json
import sys

PLAN = [
    {"node": "DataFrameScan", "frame": 0, "columns": None},
    {"node": "DataFrameScan", "frame": 1, "columns": None},
    {"node": "Join", "left": 0, "right": 1, "left_on": [{"col": "key"}], "right_on": [{"col": "key"}], "how": "inner",
     "join_nulls": False, "coalesce": "JoinSpecific", "suffix": "_right", "rows_left": [None, 0], "rows_right": [None, 0]},
    {"node": "Filter", "input": 2, "predicate": {"lt": [{"col": "a7"}, {"lit": {"type": "Int64", "value": 100}}]}},
    {"node": "SimpleProjection", "input": 3, "columns": ["key", "a7", "b9"]},
    {"node": "Sort", "input": 4, "by": ["key"], "descending": [False], "nulls_last": [False], "slice": None},
]  # fmt: skip


def table(letter, step, rows):
    """A key, and 39 columns of a letter and a number each."""
    columns = [{"name": "key", "type": "Int64", "values": [row * step % (rows // 10 + 1) for row in range(rows)]}]
    for n in range(1, 40):
        columns.append({"name": f"{letter}{n}", "type": "Int64", "values": [row * n % 1_000 for row in range(rows)]})
    return {"columns": columns}


def job_of(rows):
    """The job with so many rows in each table."""
    frames = [table("a", 7, rows), table("b", 11, rows)]
    numbers = {"version": 1, "workers": 4, "chunk_rows": 65_536, "row_limit": 10_000_000}
    return {**numbers, "frames": frames, "plan": PLAN, "root": len(PLAN) - 1}


if __name__ == "__main__":
    json.dump(job_of(int(sys.argv[1])), sys.stdout, separators=(",", ":"))
