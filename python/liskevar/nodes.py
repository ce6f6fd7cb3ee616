"""Nodes of a plan, each with the columns and types that it gives, checked where it is made.

A node is never changed, and knows its inputs. What a job may not have (an unknown column, a name twice, types that
don't meet) is told by `PlanError` with the program's word for it and the user's own call.
"""

from __future__ import annotations

import difflib
from collections.abc import Callable, Iterable, Mapping, Sequence
from dataclasses import dataclass, field, replace
from typing import Any, Union

from .dtypes import BOOLEAN, STRING, DType, Mismatch, Type, Typing
from .errors import PlanError
from .expr import DEEPEST, Expr, Schema, bind, names_in
from .places import Place, place_of_caller
from .tables import Table

HOWS = ("inner", "left", "full", "cross", "semi", "anti")
Flags = Union[bool, Sequence[bool]]
# What a node reads of its inputs so that it can give some columns.
Reads = Callable[[set[str]], list[set[str]]]


@dataclass(frozen=True, eq=False)
class Node:
    """A node: the job's word for it, what it reads and is told, and the columns that it gives."""

    kind: str
    inputs: tuple[Node, ...]
    said: dict[str, Any]
    schema: Schema
    typing: Typing
    rows: int
    reads: Reads
    known: bool = False
    table: Table | None = None
    place: Place | None = field(default_factory=place_of_caller)

    def types(self) -> dict[str, DType]:
        """The type of each column, as far as it is known."""
        return {name: self.typing.resolve(it) for name, it in self.schema.items()}

    def hint(self) -> list[int | None]:
        """How many rows it gives, where that is known, and about how many."""
        return [self.rows if self.known else None, min(self.rows, 2**64 - 1)]


def _over(below: Node, kind: str, said: dict[str, Any], reads: Reads, **more: Any) -> Node:
    """A node over another one; what isn't told is that one's."""
    made = {"place": place_of_caller(), "table": None, **more}
    return replace(below, kind=kind, inputs=(below,), said=said, reads=reads, **made)


def fail(fault: str, words: str, name: str | None = None) -> PlanError:
    """The error of a plan that can't be, at the user's call."""
    return PlanError(words, fault=fault, name=name, place=place_of_caller())


def known(names: Iterable[str], schema: Iterable[str], of: str = "") -> list[str]:
    """The names; PlanError, with those that there are, where one isn't of the columns."""
    found, every = list(names), list(schema)
    for name in found:
        if name not in every:
            near = difflib.get_close_matches(str(name), every, n=1)
            guess = f"; did you mean {near[0]!r}?" if near else ""
            raise fail("UnknownColumn", f"no column {name!r}{of}; there are {', '.join(every)}{guess}", name)
    return found


def _distinct(names: Sequence[str], what: str, fault: str = "DuplicateName") -> None:
    for place, name in enumerate(names):
        if name in names[:place]:
            raise fail(fault, what.format(name), name)


def _bound(expr: Expr, schema: Schema, typing: Typing, wanted: Type | None = None, of: str = "") -> tuple[Expr, Typing]:
    """An expression over columns, of the type that is wanted."""
    if expr.depth > DEEPEST:
        raise fail("NotJson", f"the expression nests {expr.depth} deep, and a job at most {DEEPEST}")
    known(names_in(expr), schema, of)
    try:
        found, typing = bind(expr, schema, typing)
        if wanted is not None and found.type is not None:
            typing = typing.unify(found.type, wanted)
    except Mismatch as error:
        raise fail("TypeMismatch", f"types don't fit in {expr!r}: {error}") from None
    except ValueError as error:
        raise fail("TypeMismatch", str(error)) from None
    return found, typing


def _same_type(types: Sequence[tuple[str, Type]], typing: Typing, what: str) -> Typing:
    for name, it in types[1:]:
        try:
            typing = typing.unify(types[0][1], it, broad=True)
        except Mismatch as error:
            words = f"{what} {types[0][0]!r} and {name!r} have types that don't meet: {error}"
            raise fail("TypeMismatch", words, name) from None
    return typing


def _merged(inputs: Sequence[Node]) -> Typing:
    """What all inputs know of types."""
    try:
        return inputs[0].typing.merge(it.typing for it in inputs[1:])
    except Mismatch as error:
        raise fail("TypeMismatch", f"a column is read as two types: {error}") from None


def scan(table: Table, columns: Sequence[str] | None = None) -> Node:
    """The rows of a table."""
    schema = table.schema()
    names = known(schema if columns is None else columns, schema, f" in {table.name}")
    _distinct(names, "the column {!r} stands twice")
    said = {"columns": None if columns is None else names}
    types = {it: schema[it] for it in names}
    return Node("DataFrameScan", (), said, types, Typing(), table.height, lambda wanted: [], True, table)


def filtered(below: Node, predicate: Expr) -> Node:
    """The rows where the predicate is true."""
    bound, typing = _bound(predicate, below.schema, below.typing, BOOLEAN)
    names = set(names_in(predicate))
    return _over(below, "Filter", {"predicate": bound}, lambda wanted: [wanted | names], typing=typing, known=False)


def projected(below: Node, names: Sequence[str]) -> Node:
    """Some of the columns, in this order."""
    if not names:
        raise fail("BadNode", "no column is selected")
    _distinct(known(names, below.schema), "the column {!r} stands twice")
    schema = {it: below.schema[it] for it in names}
    return _over(below, "SimpleProjection", {"columns": list(names)}, lambda wanted: [set(names)], schema=schema)


def computed(below: Node, exprs: Sequence[tuple[str, Expr]], added: bool) -> Node:
    """A column for each expression: in place of all columns, or added to them."""
    if not exprs and not added:
        raise fail("BadNode", "no column is selected")
    _distinct([name for name, _ in exprs], "the name {!r} stands twice")
    typing, said, schema = below.typing, [], dict(below.schema) if added else {}
    for name, expr in exprs:
        bound, typing = _bound(expr, below.schema, typing)
        said.append({"name": name, "expr": bound})
        schema[name] = bound.type or BOOLEAN
    names = set(names_in(*(it for _, it in exprs)))
    # what an HStack replaces is read too: so it keeps its place among the columns
    kept = set(below.schema) if added else set()
    reads: Reads = lambda wanted: [names | (wanted & kept)]
    return _over(below, "HStack" if added else "Select", {"exprs": said}, reads, schema=schema, typing=typing)


def unpivoted(below: Node, on: Sequence[str], index: Sequence[str], variable: str, value: str) -> Node:
    """A row for each row and each column of `on`: the columns of `index`, the column's name, its value."""
    if not on:
        raise fail("BadNode", "no column is unpivoted")
    names = set(known([*on, *index], below.schema))
    _distinct(on, "the column {!r} stands twice")
    _distinct([*index, variable, value], "the column {!r} stands twice")
    typing = _same_type([(it, below.schema[it]) for it in on], below.typing, "the columns")
    schema = {**{it: below.schema[it] for it in index}, variable: STRING, value: below.schema[on[0]]}
    said = {"on": list(on), "index": list(index), "variable": variable, "value": value}
    more = {"schema": schema, "typing": typing, "rows": below.rows * len(on), "known": False}
    return _over(below, "Unpivot", said, lambda wanted: [names], **more)


def renamed(below: Node, names: Mapping[str, str]) -> Node:
    """Other names for some columns, all at once."""
    known(names, below.schema)
    new = [names.get(it, it) for it in below.schema]
    _distinct(new, "the name {!r} stands twice")
    old = dict(zip(new, below.schema))
    said = {"pairs": [{"existing": it, "new": name} for it, name in names.items()]}
    schema = dict(zip(new, below.schema.values()))
    return _over(below, "Rename", said, lambda wanted: [{old[it] for it in wanted} | {*names}], schema=schema)


@dataclass(frozen=True)
class Key:
    """A key of a sort."""

    name: str
    descending: bool = False
    nulls_last: bool = False


def keys_of(by: Sequence[str], descending: Flags, nulls_last: Flags) -> list[Key]:
    """The keys of a sort; of flags there is one for each, or one for all."""
    flags = []
    for word, given in (("descending", descending), ("nulls_last", nulls_last)):
        told = [given] if isinstance(given, bool) else list(given)
        flags.append(told * len(by) if len(told) == 1 else told)
        if len(flags[-1]) != len(by):
            raise fail("BadSort", f"{len(told)} flags in {word}, for {len(by)} keys")
    return [Key(*it) for it in zip(by, *flags)]


def ordered(below: Node, keys: Sequence[Key], slice: tuple[int, int] | None = None, place: Place | None = None) -> Node:
    """The rows in the order of the keys and then of all columns; of them, `slice` rows from an offset on."""
    if not keys:
        raise fail("BadSort", "no key to sort by")
    names = known([it.name for it in keys], below.schema)
    _distinct(names, "a key to sort by stands twice", "BadSort")
    if slice is not None and not (0 <= slice[0] < 2**63 and 0 <= slice[1] < 2**64):
        raise fail("BadSort", f"a slice of {slice[1]} rows from row {slice[0]}")
    said = {
        "by": names, "descending": [it.descending for it in keys], "nulls_last": [it.nulls_last for it in keys],
        "slice": None if slice is None else list(slice),
    }  # fmt: skip
    more: dict[str, Any] = {"place": place or place_of_caller()}
    if slice is None:
        return _over(below, "Sort", said, lambda wanted: [wanted | {*names}], **more)
    # a slice hangs on all columns
    every, rows = set(below.schema), min(below.rows, slice[1])
    return _over(below, "Sort", said, lambda wanted: [every], rows=rows, known=False, **more)


def united(inputs: Sequence[Node]) -> Node:
    """The rows of all inputs, which have the same columns in the same order."""
    if not inputs:
        raise fail("BadNode", "nothing to put together")
    typing, first = _merged(inputs), inputs[0].schema
    for it in inputs[1:]:
        if list(it.schema) != list(first):
            raise fail("TypeMismatch", f"columns differ: {', '.join(first)}; and {', '.join(it.schema)}")
    for name in first:
        typing = _same_type([(name, it.schema[name]) for it in inputs], typing, "the columns")
    reads: Reads = lambda wanted: [set(first)] * len(inputs)
    return Node("Union", tuple(inputs), {}, first, typing, sum(it.rows for it in inputs), reads)


@dataclass(frozen=True)
class Joining:
    """How a join is made."""

    how: str = "inner"
    join_nulls: bool = False
    coalesce: str = "JoinSpecific"
    suffix: str = "_right"

    @property
    def coalesced(self) -> bool:
        """Whether the right keys are dropped."""
        hows = {"JoinSpecific": HOWS[:2], "CoalesceColumns": HOWS[:3]}
        return self.how in hows.get(self.coalesce, ())

    def names(self, left: Iterable[str], right: Iterable[str], right_on: Iterable[str]) -> dict[str, str]:
        """The names that the right columns get, those that are dropped left out."""
        if self.how in ("semi", "anti"):
            return {}
        dropped, taken = set(right_on) if self.coalesced else set(), set(left)
        return {it: it + self.suffix if it in taken else it for it in right if it not in dropped}

    def check(self, keys: Sequence[Sequence[Expr]]) -> None:
        """PlanError where the join can't have these keys."""
        if self.how not in HOWS:
            raise fail("BadJoin", f"how={self.how!r} is none of {', '.join(HOWS)}")
        if self.how == "cross" and any(keys):
            raise fail("BadJoin", "a cross join has no key")
        left, right = map(len, keys)
        if self.how != "cross" and (not left or left != right):
            raise fail("BadJoin", f"{left} left keys and {right} right ones: as many are wanted, and one or more")
        for side in keys if self.coalesced else []:
            if len({it.value for it in side if it.op == "col"}) < len(side):
                words = "keys that become one column are plain columns, each once; coalesce=False keeps both"
                raise fail("BadJoin", words)


def _keys(sides: Sequence[Node], keys: Sequence[Sequence[Expr]], typing: Typing) -> tuple[list[list[Expr]], Typing]:
    """The keys over their sides; each pair has one type."""
    bound: list[list[Expr]] = []
    for word, side, exprs in zip(("left", "right"), sides, keys):
        bound.append([])
        for expr in exprs:
            it, typing = _bound(expr, side.schema, typing, of=f" in the {word} frame")
            bound[-1].append(it)
    for pair in zip(*bound):
        typing = _same_type([(it.output or "the key", it.type or BOOLEAN) for it in pair], typing, "the keys")
    return bound, typing


def joined(left: Node, right: Node, left_on: Sequence[Expr], right_on: Sequence[Expr], joining: Joining) -> Node:
    """The pairs of rows whose keys are equal, and what `how` adds to them."""
    joining.check((left_on, right_on))
    bound, typing = _keys((left, right), (left_on, right_on), _merged((left, right)))
    names = joining.names(left.schema, right.schema, [str(it.value) for it in right_on if it.op == "col"])
    _distinct([*left.schema, *names.values()], "the join would have the column {!r} twice; give another suffix")

    def reads(wanted: set[str]) -> list[set[str]]:
        of_right = {old for old, new in names.items() if new in wanted}
        # a left column that gives a right one its suffix is read too
        of_left = (wanted & set(left.schema)) | {it for it in of_right if names[it] != it}
        return [of_left | {*names_in(*left_on)}, of_right | {*names_in(*right_on)}]

    said = {
        "left_on": bound[0], "right_on": bound[1], "how": joining.how, "join_nulls": joining.join_nulls,
        "coalesce": joining.coalesce, "suffix": joining.suffix, "rows_left": left.hint(), "rows_right": right.hint(),
    }  # fmt: skip
    rows = left.rows * right.rows if joining.how == "cross" else max(left.rows, right.rows)
    rows = left.rows + right.rows if joining.how == "full" else rows
    schema = {**left.schema, **{new: right.schema[old] for old, new in names.items()}}
    return Node("Join", (left, right), said, schema, typing, rows, reads)
