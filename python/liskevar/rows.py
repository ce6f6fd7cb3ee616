"""The rows that come of a run."""

import csv
import io
import json
from collections.abc import Iterator, Mapping, Sequence
from typing import Any

from .csv_files import csv_lines, text_of
from .dtypes import DType
from .errors import Refused
from .tables import EXACT, Table, value_column


class Rows(list[tuple[Any, ...]]):
    """Rows as tuples of Python's values: int, Decimal (scaled columns), bool, str, bytes, None."""

    def __init__(self, types: Mapping[str, DType], rows: Sequence[tuple[Any, ...]]) -> None:
        super().__init__(rows)
        self.types = dict(types)

    @property
    def columns(self) -> list[str]:
        """The columns' names."""
        return list(self.types)

    def to_dicts(self) -> list[dict[str, Any]]:
        """A mapping for each row."""
        return [dict(zip(self.types, row)) for row in self]

    def column(self, name: str) -> list[Any]:
        """The values of a column."""
        if name not in self.types:
            raise Refused(f"no column {name!r}; there are {', '.join(self.types)}")
        place = self.columns.index(name)
        return [row[place] for row in self]

    def to_csv(self, delimiter: str = ",", null: str = "") -> str:
        """The rows as CSV."""
        return "".join(csv_lines(self.columns, self, delimiter, null=null))

    def to_pandas(self) -> Any:
        """A pandas frame: nullable whole numbers and truths, and objects (None for null) for the rest."""
        try:
            import pandas
        except ImportError as error:
            raise Refused("pandas isn't there: to_pandas wants it (Debian's python3-pandas)") from error
        made = {}
        for name, dtype in self.types.items():
            is_exact = dtype.base in EXACT.values() and not dtype.scale
            kind = dtype.base.replace("Boolean", "boolean") if is_exact else "object"
            made[name] = pandas.array(self.column(name), dtype=kind)
        return pandas.DataFrame(made, columns=self.columns)

    def to_table(self, name: str = "rows") -> Table:
        """The rows as a table that a plan can scan."""
        columns = [value_column(name, it, self.column(it), dtype) for it, dtype in self.types.items()]
        return Table(name, columns, len(self))

    def text(self, most: int = 1_000) -> str:
        """Columns under their names, numbers at the right; of more than `most` rows the first ones."""
        cells = [[_shown(it) for it in row] for row in [self.columns, *self[:most]]]
        widths = [max(map(len, column)) for column in zip(*cells)]
        turned = [str.rjust if it.kind == "number" else str.ljust for it in self.types.values()]
        lines = ["  ".join(turn(it, width) for turn, it, width in zip(turned, row, widths)).rstrip() for row in cells]
        lines.insert(1, "  ".join("-" * width for width in widths))
        rest = f", the first {most} of them above" if len(self) > most else ""
        return "\n".join([*lines, f"({len(self)} row{'' if len(self) == 1 else 's'}{rest})"])

    def __str__(self) -> str:
        return self.text()

    __repr__ = __str__


def _shown(value: Any) -> str:
    return "null" if value is None else "".join(it if it.isprintable() else repr(it)[1:-1] for it in text_of(value))


def rows_of_lines(lines: Sequence[bytes], types: Mapping[str, DType]) -> Rows:
    """The rows of the program's lines: those of the columns that are named, which come first."""
    dtypes, width = list(types.values()), len(types)
    names = json.loads(lines[0])[:width]
    if names != list(types):
        raise Refused(f"the program gives the columns {', '.join(names)}, where {', '.join(types)} were wanted")
    rows = map(json.loads, filter(None, lines[1:]))
    if all(it.scale == 0 and it.base not in ("Int128", "Binary") for it in dtypes):
        return Rows(types, [tuple(row[:width]) for row in rows])
    return Rows(types, [tuple(dtype.value(it) for dtype, it in zip(dtypes, row)) for row in rows])


def names_of(text: str) -> list[str]:
    """Names that are separated by commas, quoted as in CSV where they hold one."""
    return next(csv.reader(io.StringIO(text)), [])


def json_rows(lines: Sequence[bytes]) -> Iterator[list[Any]]:
    """The array of each of the program's lines; Refused with the line's number where it is none."""
    if not lines:
        raise Refused("no line: was the job refused?")
    width = None
    for number, line in enumerate(lines, start=1):
        try:
            row = json.loads(line)
        except ValueError as error:
            raise Refused(f"line {number}: not JSON ({error})") from error
        if not isinstance(row, list) or any(isinstance(it, (list, dict, float)) for it in row):
            raise Refused(f"line {number}: no array of names or cells")
        width = len(row) if width is None else width
        if len(row) != width:
            raise Refused(f"line {number}: {len(row)} cells, where the first line has {width} names")
        yield row
