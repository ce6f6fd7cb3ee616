"""Which rows of two tables have a partner in the other one."""

import json
from collections.abc import Sequence
from dataclasses import dataclass, replace

from . import nodes as plan
from .expr import col
from .frame import LazyFrame, frame_of
from .job import Resolve, Settings, compact, frames_text, with_version
from .nodes import Joining
from .program import ask
from .rows import Rows
from .tables import Table

Partners = list[int | None]


@dataclass(frozen=True)
class Reconciliation:
    """For each row of both tables the first partner in the other one, or None; rows are numbered from 0."""

    left: Partners
    right: Partners
    left_rows: Rows
    right_rows: Rows

    @property
    def counts(self) -> tuple[int, int, int, int]:
        """Left rows with a partner, left rows without, and the same of the right ones."""
        left, right = self.left.count(None), self.right.count(None)
        return len(self.left) - left, left, len(self.right) - right, right

    def left_only(self) -> Rows:
        """The left rows without a partner."""
        return _alone(self.left_rows, self.left)

    def right_only(self) -> Rows:
        """The right rows without a partner."""
        return _alone(self.right_rows, self.right)

    def __str__(self) -> str:
        words = "left: {} with a partner, {} without; right: {} with a partner, {} without"
        return words.format(*self.counts)


def _alone(rows: Rows, partners: Partners) -> Rows:
    return Rows(rows.types, [row for row, partner in zip(rows, partners) if partner is None])


def table_of(frame: LazyFrame) -> Table:
    """The table that a frame scans whole, or the rows that it gives as one."""
    node = frame._node
    if node.table is None or frame._order.keys or node.said["columns"] is not None:
        return frame.collect().to_table()
    return replace(node.table)


def two_tables(tables: Sequence[Table], names: Sequence[str] | None, resolve: Resolve, settings: Settings) -> str:
    """What a reconciliation and an edited join say first: the limit and two frames, whole or by some columns."""
    frames = [(it, list(it.schema()) if names is None else names) for it in tables]
    return f'"row_limit":{settings.row_limit},"frames":{frames_text(frames, resolve)}'


def reconciliation_text(tables: Sequence[Table], on: Sequence[str], nulls_equal: bool, settings: Settings) -> bytes:
    """What the program's `reconcile` reads of two tables; only the key's columns go into it."""
    keys, joining = [col(it) for it in on], Joining("full", nulls_equal, "KeepColumns", " of the right")
    joint = plan.joined(plan.scan(tables[0]), plan.scan(tables[1]), keys, keys, joining)
    said = two_tables(tables, on, joint.typing.resolve, settings)
    numbers = f'"workers":{settings.workers},"chunk_rows":{settings.chunk_rows}'
    key = f'"on":{compact(list(on))},"join_nulls":{compact(nulls_equal)}'
    return with_version(f"{numbers},{said},{key}", "the two tables")


def reconcile(
    left: LazyFrame, right: LazyFrame, on: str | Sequence[str], *, nulls_equal: bool = False, **numbers: int
) -> Reconciliation:
    """Which rows have a partner in the other table: one of equal columns `on`, null to null with `nulls_equal`."""
    tables, settings = [table_of(left), table_of(right)], Settings(**numbers)
    text = reconciliation_text(tables, [on] if isinstance(on, str) else on, nulls_equal, settings)
    scans = [plan.scan(it) for it in tables]
    partners: dict[str, Partners] = {"left": [], "right": []}
    for line in ask("reconcile", text, scans, settings.row_limit).splitlines()[1:]:
        side, _, _, partner = json.loads(line)
        partners[side].append(partner)
    return Reconciliation(partners["left"], partners["right"], *map(_rows, tables))


def _rows(table: Table) -> Rows:
    """The rows of a table as they were put in."""
    types = frame_of(table).types
    columns = [[types[it.name].value(cell) for cell in it.spell(types[it.name])] for it in table.columns]
    return Rows(types, list(zip(*columns)))
