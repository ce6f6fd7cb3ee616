"""Tables of values that a plan scans: of rows of Python, of pandas, of CSV files."""

import math
from collections.abc import Callable, Iterable, Mapping, Sequence
from dataclasses import dataclass
from typing import Any

from .dtypes import Cell, DType, Type, dtype_of, type_of
from .errors import Refused

# What a column of pandas is where nothing else is told.
EXACT = {"boolean": "Boolean", "bool": "Boolean", **{it.lower(): it for it in ("Int32", "Int64", "UInt32", "UInt64")}}
Types = Mapping[str, str]


@dataclass(frozen=True, eq=False)
class Column:
    """A column: its name, its type, which may be a guess, and what spells its values as cells of a type.

    `spell` raises Refused with the place of the first value that is none of the type.
    """

    name: str
    type: Type
    spell: Callable[[DType], list[Cell]]


@dataclass(frozen=True, eq=False)
class Table:
    """Columns of one height, and what the table is called."""

    name: str
    columns: Sequence[Column]
    height: int

    def __post_init__(self) -> None:
        names = [it.name for it in self.columns]
        for place, it in enumerate(names):
            if it in names[:place]:
                raise Refused(f"{self.name}: the column {it!r} stands twice")
        if not names:
            raise Refused(f"{self.name}: no column")

    def schema(self) -> dict[str, Type]:
        """The type of each column."""
        return {it.name: it.type for it in self.columns}


def value_column(table: str, name: str, values: Sequence[Any], told: DType | None) -> Column:
    """A column of Python's values; Refused where they have no one type."""

    def spell(wanted: DType) -> list[Cell]:
        found: list[Cell] = []
        for row, value in enumerate(values):
            try:
                found.append(wanted.cell(value))
            except (ValueError, ArithmeticError):
                raise Refused(f"{table}, row {row}, column {name!r}: {value!r} is no {wanted}") from None
        return found

    try:
        if told is None and float in set(map(type, values)):
            raise ValueError(f"floats have no exact type here; tell one, as types={{{name!r}: 'Cents'}}")
        dtype = told or type_of(values)
    except ValueError as error:
        raise Refused(f"{table}, column {name!r}: {error}") from None
    if isinstance(dtype, DType):
        spell(dtype)
    return Column(name, dtype, spell)


def told_types(types: Types | None, names: Sequence[str], table: str) -> dict[str, DType]:
    """The types that a caller tells; Refused where a name or a type is none."""
    found = {}
    for name, text in (types or {}).items():
        if name not in names:
            raise Refused(f"types: {table} has no column {name!r}; there are {', '.join(names)}")
        try:
            found[name] = dtype_of(text)
        except ValueError as error:
            raise Refused(f"types, column {name!r}: {error}") from None
    return found


def table_of_rows(rows: Iterable[Any], names: Sequence[str] | None, types: Types | None, name: str) -> Table:
    """A table of mappings, or of sequences with their columns' names."""
    given = list(rows)
    if names is None and all(isinstance(it, Mapping) for it in given):
        names = list(dict.fromkeys(key for it in given for key in it)) or list(types or ())
    if not names:
        raise Refused(f"{name}: rows that are no mappings, or none, want columns=")
    lists: list[list[Any]] = [[] for _ in names]
    for place, row in enumerate(given):
        cells = [row.get(it) for it in names] if isinstance(row, Mapping) else list(row)
        if len(cells) != len(names):
            raise Refused(f"{name}, row {place}: {len(cells)} values for {len(names)} columns")
        for column, cell in zip(lists, cells):
            column.append(cell)
    told = told_types(types, names, name)
    return Table(name, [value_column(name, it, cells, told.get(it)) for it, cells in zip(names, lists)], len(given))


def _plain(value: Any) -> Any:
    """A value of pandas as one of Python."""
    if type(value).__name__ in ("NAType", "NaTType") or (isinstance(value, float) and math.isnan(value)):
        return None
    if hasattr(value, "to_pydatetime"):
        return value.to_pydatetime()
    return value.item() if hasattr(value, "item") else value


def table_of_pandas(frame: Any, types: Types | None, name: str) -> Table:
    """A table of a pandas frame; its index is left out."""
    names = [str(it) for it in frame.columns]
    told, columns = told_types(types, names, name), []
    for place, it in enumerate(names):
        series = frame.iloc[:, place]
        kind, values = str(series.dtype).lower(), [_plain(value) for value in series]
        if kind.startswith("float") and all(value is None or float(value).is_integer() for value in values):
            values = [value if value is None else int(value) for value in values]
        known = dtype_of(EXACT[kind]) if kind in EXACT else None
        columns.append(value_column(name, it, values, told.get(it) or known))
    return Table(name, columns, len(frame))
