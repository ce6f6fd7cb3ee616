"""Plans as JSON: arrays of nodes as docs/FORMATS.md has them, and whole jobs, read as nodes."""

import json
from collections.abc import Callable, Sequence
from typing import Any

from . import nodes as made
from .dtypes import dtype_of
from .errors import LiskevarError, PlanError, Refused
from .expr import read
from .job import Plan
from .nodes import Joining, Node
from .places import told_as
from .tables import Column, Table

NO_JOB = (KeyError, TypeError, ValueError, IndexError, AttributeError)


def read_json(path: str, text: str) -> Any:
    """A value of JSON; Refused with its place where it is none."""
    try:
        return json.loads(text)
    except json.JSONDecodeError as error:
        raise Refused(f"{path}, line {error.lineno}, column {error.colno}: {error.msg}") from error
    except RecursionError as error:
        raise Refused(f"{path}: nested too deep") from error


def _sort(below: Node, by: Sequence[str], descending: list[bool], nulls_last: list[bool], slice: Any) -> Node:
    return made.ordered(below, made.keys_of(by, descending, nulls_last), slice and (slice[0], slice[1]))


def _join(
    left: Node, right: Node, left_on: Any, right_on: Any, rows_left: Any, rows_right: Any, **how: Any
) -> Node:
    keys = [[read(it) for it in on] for on in (left_on, right_on)]
    node = made.joined(left, right, keys[0], keys[1], Joining(**how))
    node.said.update(rows_left=rows_left, rows_right=rows_right)
    return node


# What makes a node of the nodes that it reads and of what it is told.
MAKERS: dict[str, Callable[..., Node]] = {
    "Filter": lambda below, predicate: made.filtered(below, read(predicate)),
    "SimpleProjection": lambda below, columns: made.projected(below, columns),
    "Select": lambda below, exprs: made.computed(below, [(it["name"], read(it["expr"])) for it in exprs], False),
    "HStack": lambda below, exprs: made.computed(below, [(it["name"], read(it["expr"])) for it in exprs], True),
    "Unpivot": made.unpivoted,
    "Rename": lambda below, pairs: made.renamed(below, {it["existing"]: it["new"] for it in pairs}),
    "Union": lambda *inputs: made.united(inputs),
    "Join": _join,
    "Sort": _sort,
}


def _input_numbers(value: dict[str, Any]) -> list[int]:
    """The numbers of the nodes that a node reads."""
    return list(value.get("inputs", ())) + [value[it] for it in ("input", "left", "right") if it in value]


def _node(value: dict[str, Any], inputs: Sequence[Node], tables: Sequence[Table]) -> Node:
    """A node over its inputs."""
    said = {name: it for name, it in value.items() if name not in ("node", "input", "inputs", "left", "right")}
    if value["node"] != "DataFrameScan":
        return MAKERS[value["node"]](*inputs, **said)
    if not 0 <= value["frame"] < len(tables):
        raise made.fail("BadNode", f"there is no frame {value['frame']}")
    return made.scan(tables[value["frame"]], value["columns"])


def _told(n: int, work: Callable[..., Any], *given: Any) -> Any:
    """What `work` makes of a node; Refused where the node isn't as docs/FORMATS.md has it."""
    try:
        return work(*given)
    except LiskevarError as error:
        error.node = n
        raise
    except NO_JOB as error:
        raise Refused(f"node {n} isn't as docs/FORMATS.md has it: {type(error).__name__} {error}") from error


def plan_under(values: Any, root: Any, tables: Sequence[Table]) -> Plan:
    """The plan of the nodes under a root, in their order; PlanError with the node's number where one has a fault."""
    if not isinstance(values, list) or not values:
        raise Refused("a plan is an array of one node or more")
    waiting, under = [(root, root)], set()
    found: dict[int, Node] = {}
    while waiting:
        n, reader = waiting.pop()
        if not isinstance(n, int) or not 0 <= n < len(values) or n in under or n > reader:
            raise PlanError("an input isn't there, isn't smaller or is read twice", fault="BadNode", node=reader)
        under.add(n)
        waiting += [(it, n) for it in _told(n, _input_numbers, values[n])]
    for n in sorted(under):
        inputs = [found[it] for it in _input_numbers(values[n])]
        with told_as(f"node {n}"):
            found[n] = _told(n, _node, values[n], inputs, tables)
    numbers = {it: n for n, it in enumerate(found)}
    return Plan(list(found.values()), [[numbers[it] for it in _input_numbers(values[n])] for n in found])


def plan_of_job(path: str, text: str) -> Plan:
    """The plan of a job that is read from JSON; its tables have no cells."""
    job, tables = read_json(path, text), []
    try:
        for n, columns in enumerate(frame["columns"] for frame in job["frames"]):
            empty = [Column(it["name"], dtype_of(it["type"]), lambda dtype: []) for it in columns]
            tables.append(Table(f"frame {n}", empty, len(columns[0]["values"])))
        values, root = job["plan"], job["root"]
    except NO_JOB as error:
        raise Refused(f"{path}: no job: {type(error).__name__} {error}") from error
    return plan_under(values, root, tables)
