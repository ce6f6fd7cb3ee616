"""A join that is kept while its tables change, by the program's `replay-edits`."""

import json
from collections.abc import Sequence
from dataclasses import dataclass
from typing import Any

from . import nodes as plan
from .errors import Refused
from .frame import LazyFrame, frame_of
from .job import ROW_LIMIT, Settings, compact, said_by, with_version
from .program import ask, want
from .recon import table_of, two_tables
from .rows import Rows, rows_of_lines
from .tables import value_column

SIDES = ("left", "right")


@dataclass(frozen=True)
class Edit:
    """What an edit changed: how many rows came and went, or that the row to remove wasn't there."""

    came: int
    went: int
    is_absent: bool = False


class KeptJoin:
    """A join of two tables, and rows put into them and taken out. The program replays all edits when asked."""

    def __init__(
        self, left: LazyFrame, right: LazyFrame, on: Any = None, how: str = "inner", *, row_limit: int = ROW_LIMIT,
        **told: Any,
    ) -> None:  # fmt: skip
        """A join as `LazyFrame.join` makes it, with all that it may be told; inner, left or full."""
        if how not in ("inner", "left", "full"):
            raise plan.fail("BadJoin", f"a join that is kept is inner, left or full, and not {how}")
        self._settings = Settings(row_limit=row_limit)
        self._tables = [table_of(left), table_of(right)]
        sides = [frame_of(it) for it in self._tables]
        self._join = sides[0].join(sides[1], on, how, **told)._node
        self._edits: list[str] = []

    def _edit(self, side: str, word: str, row: Sequence[Any] | dict[str, Any]) -> None:
        if side not in SIDES:
            raise Refused(f"{side!r} is neither left nor right")
        schema = self._join.inputs[SIDES.index(side)].schema
        values = [row.get(it) for it in schema] if isinstance(row, dict) else list(row)
        if len(values) != len(schema) or (isinstance(row, dict) and not set(row) <= set(schema)):
            raise Refused(f"{row!r} is no row of the columns {', '.join(schema)}")
        cells, what = [], f"an edit of the {side} table"
        for (name, it), value in zip(schema.items(), values):
            dtype = self._join.typing.resolve(it)
            cells += value_column(what, name, [value], dtype).spell(dtype)
        self._edits.append(compact([side, word, cells]))

    def insert(self, side: str, row: Any) -> None:
        """Puts a row into the left or the right table."""
        self._edit(side, "insert", row)

    def remove(self, side: str, row: Any) -> None:
        """Takes a row out of the left or the right table, if it is there."""
        self._edit(side, "remove", row)

    def text(self) -> bytes:
        """What `replay-edits` reads."""
        said = two_tables(self._tables, None, self._join.typing.resolve, self._settings)
        join = compact({"node": "Join", "left": 0, "right": 1, **said_by(self._join.said, self._join)})
        return with_version(f'{said},"join":{join},"edits":[{",".join(self._edits)}]', "the tables and their edits")

    def replay(self) -> tuple[list[Edit], Rows]:
        """What each edit changed, and the rows after all of them."""
        want("replay-edits")
        nodes, count = [*self._join.inputs, self._join], len(self._edits)
        names, *lines = ask("replay-edits", self.text(), nodes, self._settings.row_limit).splitlines()
        told = map(json.loads, lines[:count])
        edits = [Edit(it[2], it[3]) if it[0] == "edit" else Edit(0, 0, True) for it in told]
        return edits, rows_of_lines([names, *lines[count:]], self._join.types())

    def rows(self) -> Rows:
        """The rows of the join as the tables are now."""
        return self.replay()[1]
