"""Lazy frames, in the habits of Polars: what is called makes a plan, and `collect` has the program run it."""

from __future__ import annotations

from collections.abc import Iterable, Mapping, Sequence
from dataclasses import dataclass, replace
from typing import Any, Union

from . import nodes as plan
from .csv_files import read_csv
from .drawing import Picture, picture
from .dtypes import DType
from .errors import Refused
from .expr import Expr, all_of, col, lit, names_in
from .job import Settings, job_text, plan_of
from .nodes import Flags, Joining, Key, Node, fail, keys_of, known
from .places import Place
from .program import ask, want
from .rows import Rows, rows_of_lines
from .tables import Table, Types, table_of_pandas, table_of_rows

Names = Union[str, Sequence[str]]
Exprs = Union[str, Expr, Sequence[Union[str, Expr]]]
HIDDEN = "sort key "


def _list(given: Any) -> list[Any]:
    """One thing or several as a list."""
    return [] if given is None else [given] if isinstance(given, (str, Expr)) else list(given)


def _expr(given: Any) -> Expr:
    return col(given) if isinstance(given, str) else lit(given)


@dataclass(frozen=True)
class Order:
    """The order that rows are to come in; it is made last, where the plan ends."""

    keys: tuple[Key, ...] = ()
    place: Place | None = None

    def renamed(self, names: Mapping[str, str]) -> Order:
        """The same order by columns of other names."""
        return Order(tuple(replace(it, name=names.get(it.name, it.name)) for it in self.keys), self.place)


class LazyFrame:
    """A plan over tables. Each call gives another frame.

    Errors: `PlanError` at the call that makes a mistake (an unknown column, types that don't fit, a name twice, keys
    that don't match), `Refused` for values and files that can't be taken. What runs the plan (`collect`, `to_pandas`,
    `write_csv`, `explain`) raises a class for each status of the program, `TooMany` where a node has more rows than
    `row_limit`; `JobTooLong` before anything runs; and `NotOffered` where there is no program.
    """

    def __init__(self, node: Node, order: Order = Order(), hidden: Sequence[str] = ()) -> None:
        # hidden columns, the last of the node's, are keys of the order that the caller doesn't see
        self._node, self._order, self._hidden = node, order, tuple(hidden)

    @property
    def types(self) -> dict[str, DType]:
        """The type of each column, as `Rows` has them."""
        return {name: it for name, it in self._node.types().items() if name not in self._hidden}

    @property
    def columns(self) -> list[str]:
        """The columns' names."""
        return [it for it in self._node.schema if it not in self._hidden]

    @property
    def schema(self) -> dict[str, str]:
        """The type of each column, known before anything runs."""
        return {name: str(it) for name, it in self.types.items()}

    def __repr__(self) -> str:
        return f"<LazyFrame {', '.join(f'{name}: {it}' for name, it in self.schema.items())}>"

    def _seen(self) -> Node:
        """The node without hidden columns; its order is lost."""
        return plan.projected(self._node, self.columns) if self._hidden else self._node

    def _ended(self) -> Node:
        """The node with its order; a slice of a sort has it already."""
        if not self._order.keys:
            return self._node
        made = plan.ordered(self._node, self._order.keys, None, self._order.place)
        is_done = self._node.kind == "Sort" and made.said == {**self._node.said, "slice": None}
        return self._node if is_done else made

    def _named(self, given: Iterable[Any], named: Mapping[str, Any]) -> list[tuple[str, Expr]]:
        """Expressions over the columns, with the names that they get."""
        exprs = [_expr(part) for it in given for part in (it if isinstance(it, (list, tuple)) else [it])]
        for it in exprs:
            if it.output is None:
                raise fail("BadNode", f"{it!r} has no name: give it one by alias, or as name=..")
        found = [(str(it.output), it) for it in exprs] + [(name, _expr(it)) for name, it in named.items()]
        known(names_in(*(it for _, it in found)), self.columns)
        return found

    def filter(self, *predicates: Expr) -> LazyFrame:
        """The rows where all predicates are true; a null isn't."""
        known(names_in(*predicates), self.columns)
        made = plan.filtered(self._node, all_of([lit(it) for it in predicates]))
        return LazyFrame(made, self._order, self._hidden)

    def select(self, *exprs: Exprs, **named: Any) -> LazyFrame:
        """Columns and expressions, in place of all columns; the order of a sort is kept."""
        return self._selected(self._named(exprs, named))

    def _selected(self, found: Sequence[tuple[str, Expr]]) -> LazyFrame:
        plain = {str(it.value): name for name, it in found if it.op == "col"}
        lost = [it.name for it in self._order.keys if it.name not in plain]
        hidden = {it: f"{HIDDEN}{place}" for place, it in enumerate(lost)}
        every = [*found, *((name, col(it)) for it, name in hidden.items())]
        if all(it.op == "col" and it.value == name for name, it in every):
            node = plan.projected(self._node, [name for name, _ in every])
        else:
            node = plan.computed(self._node, every, added=False)
        return LazyFrame(node, self._order.renamed({**plain, **hidden}), list(hidden.values()))

    def with_columns(self, *exprs: Exprs, **named: Any) -> LazyFrame:
        """Columns added, or put in the place of those that have their names."""
        found = self._named(exprs, named)
        if self._hidden or {name for name, _ in found} & {it.name for it in self._order.keys}:
            new = dict(found)
            kept = [(name, new.pop(name, col(name))) for name in self.columns]
            return self._selected([*kept, *new.items()])
        return LazyFrame(plan.computed(self._node, found, added=True), self._order)

    def drop(self, *names: Names) -> LazyFrame:
        """All columns but some."""
        dropped = known([it for given in names for it in _list(given)], self.columns)
        return self.select([it for it in self.columns if it not in dropped])

    def rename(self, names: Mapping[str, str]) -> LazyFrame:
        """Other names for some columns, all at once."""
        known(names, self.columns)
        changed = {old: new for old, new in names.items() if old != new}
        node = plan.renamed(self._node, changed) if names else self._node
        return LazyFrame(node, self._order.renamed(names), self._hidden)

    def unpivot(
        self, on: Names, *, index: Names | None = None, variable_name: str = "variable", value_name: str = "value"
    ) -> LazyFrame:
        """A row for each row and each column of `on`; these get one type. The order of a sort is lost."""
        return LazyFrame(plan.unpivoted(self._seen(), _list(on), _list(index), variable_name, value_name))

    def join(
        self, other: LazyFrame, on: Exprs | None = None, how: str = "inner", *, left_on: Exprs | None = None,
        right_on: Exprs | None = None, suffix: str = "_right", nulls_equal: bool = False, coalesce: bool | None = None,
    ) -> LazyFrame:  # fmt: skip
        """The pairs of rows whose keys are equal; `how` is inner, left, full, cross, semi or anti.

        Null keys meet only with `nulls_equal`. `coalesce` makes one column of each pair of keys: None does so in inner
        and left joins. A right column whose name the left frame has gets the suffix. The order of a sort is lost.
        """
        if on is not None and (left_on is not None or right_on is not None):
            raise fail("BadJoin", "on stands for both sides; with it neither left_on nor right_on is given")
        if not isinstance(other, LazyFrame):
            raise fail("BadJoin", f"joined with {type(other).__name__}, and a LazyFrame is wanted")
        words = {None: "JoinSpecific", True: "CoalesceColumns", False: "KeepColumns"}[coalesce]
        joining = Joining("full" if how == "outer" else how, nulls_equal, words, suffix)
        left, right = (list(map(_expr, _list(it if on is None else on))) for it in (left_on, right_on))
        return LazyFrame(plan.joined(self._seen(), other._seen(), left, right, joining))

    def sort(self, by: Names, *more: str, descending: Flags = False, nulls_last: Flags = False) -> LazyFrame:
        """The rows in the order of some columns; rows that tie come in the order of all columns, nulls first.

        The order stands until the end of the plan, through filters, selects, renames and slices. Joins, unions and
        unpivots lose it.
        """
        names = known([*_list(by), *more], self.columns)
        return self._sorted(keys_of(names, descending, nulls_last))

    def _sorted(self, keys: Sequence[Key]) -> LazyFrame:
        made = plan.ordered(self._seen(), keys)
        return LazyFrame(self._seen(), Order(tuple(keys), made.place))

    def slice(self, offset: int, length: int) -> LazyFrame:
        """`length` rows from the row `offset` on, counted from 0; without a sort, in the order of all columns."""
        keys = self._order.keys or tuple(map(Key, self.columns))
        return LazyFrame(plan.ordered(self._node, keys, (offset, length)), self._order, self._hidden)

    def head(self, n: int = 5) -> LazyFrame:
        """The first rows; without a sort, in the order of all columns."""
        return self.slice(0, n)

    limit = head

    def job(self, **numbers: int) -> bytes:
        """The text of the job. Keys of the order that were left out of a select are its last columns."""
        settings = Settings(**numbers)
        return job_text(plan_of(self._ended()), settings)

    def collect(self, *, optimize: bool = False, **numbers: int) -> Rows:
        """Has the program run the plan. `workers`, `chunk_rows` and `row_limit` may be told."""
        settings, plan = Settings(**numbers), plan_of(self._ended())
        text, nodes = job_text(plan, settings), plan.nodes
        if optimize:
            want("optimize")
            # other nodes run then than those that the caller made
            text, nodes = ask("optimize", text, nodes), []
        return rows_of_lines(ask("run", text, nodes, settings.row_limit).splitlines(), self.types)

    def to_pandas(self, **numbers: Any) -> Any:
        """The rows as a pandas frame."""
        return self.collect(**numbers).to_pandas()

    def write_csv(self, path: str, *, delimiter: str = ",", null: str = "", **numbers: Any) -> int:
        """Writes the rows to a file and gives their number. Nothing is written where the plan is refused."""
        rows = self.collect(**numbers)
        text = rows.to_csv(delimiter, null)
        try:
            with open(path, "w", encoding="utf-8", newline="") as file:
                file.write(text)
        except OSError as error:
            raise Refused(f"{path}: {error.strerror}") from error
        return len(rows)

    def explain(self, **numbers: int) -> str:
        """The pipelines into which the program cuts the plan, one a line."""
        return ask("explain", self.job(**numbers), plan_of(self._ended()).nodes).decode().rstrip("\n")

    def show(self, pipelines: bool = False) -> Picture:
        """A picture of the plan (SVG), with the pipelines that the program tells below it where they are asked for."""
        return Picture(picture(plan_of(self._ended()), self.explain().splitlines() if pipelines else ()))

    def distribute(self, **told: Any) -> Rows:
        """Has the plan run in parts by Dask, where the program has the command `parts`.

        `scheduler` is the address of Dask's scheduler, `local` the number of worker processes where there is none;
        `parts`, `workers`, `chunk_rows` and `row_limit` may be told.
        """
        from .distribute import distribute

        want("parts")
        return distribute(plan_of(self._ended()), self.types, **told)


def frame_of(table: Table) -> LazyFrame:
    """A frame that scans a table."""
    return LazyFrame(plan.scan(table))


def scan_csv(
    path: str, *, types: Types | None = None, columns: Sequence[str] | None = None, delimiter: str | None = None,
    names: Sequence[str] | None = None, empty_is_text: bool = False,
) -> LazyFrame:  # fmt: skip
    """The rows of a CSV file, or of a TSV file by its ending.

    A column's type is told by `types` (the program's types, Cents or DecimalN for decimals, a form as %d.%m.%Y for
    dates), or is what fits all its values and the plan that reads it: whole numbers, true and false, else texts. An
    empty field is null, two quotes are the empty text. `columns` are the only ones that are read.
    """
    table = read_csv(path, types=types, read=columns, delimiter=delimiter, names=names, empty_is_text=empty_is_text)
    return LazyFrame(plan.scan(table, columns))


def from_rows(
    rows: Iterable[Any], columns: Sequence[str] | None = None, *, types: Types | None = None, name: str = "rows"
) -> LazyFrame:
    """Rows of Python: mappings, or sequences with the names of their columns."""
    return frame_of(table_of_rows(rows, columns, types, name))


def from_pandas(frame: Any, *, types: Types | None = None, name: str = "frame") -> LazyFrame:
    """A pandas frame without its index. Floats are taken where they are whole, or where a decimal type is told."""
    return frame_of(table_of_pandas(frame, types, name))


def concat(frames: Sequence[LazyFrame]) -> LazyFrame:
    """The rows of all frames, which have the same columns in the same order; each column gets one type."""
    return LazyFrame(plan.united([it._seen() for it in frames]))
