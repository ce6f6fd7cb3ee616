"""Files and answers in which no quote makes it hard to tell fields, read by whole columns (numpy).

Each function gives None where it can't tell, and then the reader of CSV or of JSON is asked.
"""

import functools
import json
from collections.abc import Sequence
from dataclasses import dataclass
from typing import Any, NamedTuple

from . import columns
from .columns import BEFORE, WIDEST, ArrayCells, Cells, array_of, bytes_from, column_of, kept_at_right, null_of, numpy
from .csv_files import Source
from .dtypes import RANGES, DType

# The digits of a number that is looked at here, with its sign.
DIGITS = 18


@dataclass
class PlainFields:
    """The records of a piece of a file without quotes: the bytes, and where each field begins and ends, by columns.

    `is_clean` says that JSON spells each of its texts as it stands there.
    """

    data: Any
    starts: Any
    ends: Any
    is_clean: bool

    def __len__(self) -> int:
        return len(self.starts)

    def column(self, place: int) -> ArrayCells:
        """The fields of a column."""
        # numbers that lie side by side are found faster
        return ArrayCells(self.data, self.starts[:, place].copy(), self.ends[:, place].copy())

    def values(self, place: int, rows: slice) -> list[str]:
        """The fields of some rows of a column as texts."""
        return [it.decode() for it in self.column(place).some(rows)]

    @functools.cached_property
    def quoted(self) -> Any:
        """The bytes with a quote in the place of each separator."""
        data = self.data.copy()
        data[self.ends], data[len(BEFORE) - 1] = 34, 34
        return data


def fields_at(source: Source, width: int) -> PlainFields | None:
    """The fields of a piece; None where a quote stands in it, or where it has a mistake of any kind."""
    if columns.numpy is None or source.end is None:
        return None
    with open(source.path, "rb") as file:
        file.seek(source.start)
        text = file.read(source.end - source.start)
    if b"\r" in text:
        text = text.replace(b"\r\n", b"\n")
    if text and not text.endswith(b"\n"):
        text += b"\n"
    if b'"' in text or b"\r" in text or not _is_text(text):
        return None
    data, mark = array_of(text), ord(source.delimiter)
    body = data[len(BEFORE) : len(BEFORE) + len(text)]
    ends = numpy.flatnonzero((body == mark) | (body == 10))
    if len(ends) % width:
        return None
    ends += len(BEFORE)
    starts = numpy.empty_like(ends)
    starts[:1], starts[1:] = len(BEFORE), ends[:-1] + 1
    ends, starts = ends.reshape(-1, width), starts.reshape(-1, width)
    if not (data[ends[:, -1]] == 10).all() or not (data[ends[:, :-1]] == mark).all():
        return None
    separators = ends.size if mark < 32 else len(ends)
    return PlainFields(data, starts, ends, b"\\" not in text and numpy.count_nonzero(body < 32) == separators)


def _is_text(text: bytes) -> bool:
    try:
        return text.isascii() or bool(text.decode())
    except UnicodeDecodeError:
        return False


class Whole(NamedTuple):
    """What is known of fields that all spell whole numbers in their one way: the ends, and how they are written."""

    least: int
    greatest: int
    is_even: bool


def whole_numbers(column: ArrayCells) -> Whole | None:
    """The ends of fields that all spell whole numbers or nothing; None where some don't, or have too many digits."""
    width, found = column.widest(), []
    if not 0 < width <= DIGITS:
        return None
    powers, kept = 10 ** numpy.arange(width - 1, -1, -1), kept_at_right(width)
    for starts, stops, lengths in column.chunks():
        first, is_negative = column.data[starts], False
        counts = lengths
        if (first == 45).any():
            is_negative = (first == 45) & (lengths > 0)
            counts, first = lengths - is_negative, column.data[starts + is_negative]
            if (is_negative & ((counts == 0) | (first == 48))).any():
                return None
        digits = bytes_from(column.data, stops - width, width)
        digits -= 48
        digits *= kept[counts].view(numpy.uint8).reshape(-1, width)
        # a zero stands alone
        if digits.max(initial=0) > 9 or ((first == 48) & (counts > 1)).any():
            return None
        numbers = _ends(digits, powers, is_negative, lengths)
        if numbers is not None:
            found.append(Whole(*numbers, is_negative is False and not (lengths & 1).any()))
    return Whole(min(it[0] for it in found), max(it[1] for it in found), all(it[2] for it in found))


def _ends(digits: Any, powers: Any, is_negative: Any, lengths: Any) -> tuple[int, int] | None:
    """The least and the greatest of numbers, each of which has its digits in a row; None where all are empty."""
    if is_negative is False and digits.shape[1] <= 8 and lengths.all():
        # as bytes they have the order of numbers
        wide = numpy.zeros((len(digits), 8), numpy.uint8)
        wide[:, -digits.shape[1] :] = digits
        order = wide.view(">u8").ravel().astype(numpy.uint64)
        rows = digits[[order.argmin(), order.argmax()]]
        least, greatest = (rows @ powers).tolist()
        return least, greatest
    numbers = digits @ powers
    if is_negative is not False:
        numbers = numpy.where(is_negative, -numbers, numbers)
    numbers = numbers[lengths > 0]
    return (int(numbers.min()), int(numbers.max())) if len(numbers) else None


def scaled_numbers(column: ArrayCells, scale: int) -> ArrayCells | None:
    """The cells of fields that all have so many digits behind the point, or nothing, as whole numbers."""
    width = column.widest()
    if not scale + 2 <= width <= DIGITS + 1:
        return None
    powers, kept, found = 10 ** numpy.arange(width - 2, -1, -1), kept_at_right(width - 1), []
    for starts, ends, lengths in column.chunks():
        is_filled, is_negative = lengths > 0, column.data[starts] == 45
        counts = numpy.where(is_filled, lengths - 1 - is_negative, 0).astype(numpy.uint8)
        cells = bytes_from(column.data, ends - width, width)
        has_point = (cells[:, width - scale - 1] == 46) & (counts > scale) & (lengths > scale)
        if not (has_point | ~is_filled).all():
            return None
        digits = numpy.delete(cells, width - scale - 1, 1) - 48
        digits *= kept[counts].view(numpy.uint8).reshape(-1, width - 1)
        leads = (column.data[starts + is_negative] == 48) & (counts > scale + 1)
        if digits.max(initial=0) > 9 or leads.any():
            return None
        numbers = digits @ powers
        # a number has one digit and more; of zero no sign is written
        sizes = numpy.maximum(numpy.searchsorted(powers[::-1], numbers, "right"), 1)
        texts = numpy.full((len(digits), width), 48, numpy.uint8)
        texts[:, 1:] += digits
        rows = numpy.flatnonzero(is_negative & is_filled & (numbers > 0))
        texts[rows, width - 1 - sizes[rows]] = 45
        sizes[rows] += 1
        found.append((texts.tobytes(), numpy.where(is_filled, sizes, 0)))
    data, sizes = array_of(b"".join(it[0] for it in found)), numpy.concatenate([it[1] for it in found])
    ends = len(BEFORE) + width * numpy.arange(1, len(sizes) + 1)
    return ArrayCells(data, ends - sizes, ends)


def spelled(fields: PlainFields, place: int, dtype: DType, empty_is_text: bool) -> Cells | None:
    """The cells of a column as a job spells them: of numbers and of texts."""
    column = fields.column(place)
    if dtype.scale:
        scaled = scaled_numbers(column, dtype.scale) if dtype.base == "Int64" else None
        return None if scaled is None else _with_nulls(scaled, column.starts == column.ends)
    is_empty, is_text = column.starts == column.ends, dtype.base in ("String", "Int128")
    if dtype.base == "String":
        if not fields.is_clean:
            return None
    elif dtype.base not in RANGES:
        return None
    elif column.widest():
        found, (least, greatest) = whole_numbers(column), RANGES[dtype.base]
        if found is None or not least <= found.least or not found.greatest <= greatest:
            return None
    data, starts, ends = column.data, column.starts, column.ends
    if is_text:
        data, starts, ends = fields.quoted, starts - 1, ends + 1
    made = ArrayCells(data, starts, ends)
    return made if empty_is_text and dtype.base == "String" else _with_nulls(made, is_empty)


def _with_nulls(cells: ArrayCells, is_null: Any) -> ArrayCells:
    """The cells, with nulls in the place of some."""
    if not is_null.any():
        return cells
    null = null_of(cells.data)
    return ArrayCells(cells.data, numpy.where(is_null, null, cells.starts), numpy.where(is_null, null + 4, cells.ends))


def columns_of_lines(lines: bytes, width: int) -> list[Cells]:
    """The columns of rows that the program printed, each of so many cells."""
    found = _arrays_of_lines(lines, width)
    if found is not None:
        return list(found)
    rows = json.loads(b"[" + b",".join(lines.splitlines()) + b"]")
    return [column_of(it) for it in zip(*rows)] if rows else [column_of([]) for _ in range(width)]


def _arrays_of_lines(lines: bytes, width: int) -> list[ArrayCells] | None:
    """The same as arrays; None where a backslash stands in a text."""
    if columns.numpy is None or b"\\" in lines:
        return None
    data = array_of(lines)
    body = data[len(BEFORE) : len(BEFORE) + len(lines)]
    marks = (body == 44) | (body == 10)
    if b'"' in lines:
        # behind an odd number of quotes a text goes on
        marks &= (numpy.cumsum(body == 34, dtype=numpy.uint8) & 1) == 0
    ends = numpy.flatnonzero(marks) + len(BEFORE)
    starts = numpy.empty_like(ends)
    starts[:1], starts[1:] = len(BEFORE), ends[:-1] + 1
    ends, starts = ends.reshape(-1, width), starts.reshape(-1, width)
    starts[:, 0] += 1
    ends[:, -1] -= 1
    assert (data[starts[:, 0] - 1] == 91).all() and (data[ends[:, -1]] == 93).all(), "a line is an array"
    return [ArrayCells(data, starts[:, it], ends[:, it]) for it in range(width)]


def csv_of_lines(lines: bytes, width: int, types: Sequence[DType], delimiter: str) -> bytes | None:
    """Rows that the program printed as CSV, of the first columns alone; None where it can't be told so."""
    if any(it.scale for it in types):
        return None
    if b'"' not in lines and (width, delimiter) == (len(types), ","):
        return lines.replace(b"]\n[", b"\n").replace(b"null", b"").removeprefix(b"[").replace(b"]", b"")
    found = _arrays_of_lines(lines, width)
    if found is None:
        return None
    fields = [_fields_of_cells(it, ord(delimiter)) for it in found[: len(types)]]
    return _records(fields, [*[ord(delimiter)] * (len(types) - 1), 10])


def _fields_of_cells(column: ArrayCells, mark: int) -> ArrayCells:
    """The cells as fields of CSV: no null, and no quotes round a text, where it doesn't want them."""
    data, starts, ends = column
    first = data[starts]
    is_bare, is_null = first == 34, first == ord("n")
    if is_bare.any():
        # an empty text keeps its quotes, and so does one in which a delimiter stands
        is_bare &= ends - starts > 2
        marks = numpy.concatenate(([0], numpy.cumsum(data == mark)))
        is_bare &= marks[starts] == marks[ends]
    null = null_of(data)
    starts = numpy.where(is_null, null, starts + is_bare)
    return ArrayCells(data, starts, numpy.where(is_null, null, ends - is_bare))


def _records(fields: Sequence[ArrayCells], marks: Sequence[int]) -> bytes:
    """The fields of columns, row by row, each with its mark behind it."""
    widths = [it.widest() + 1 for it in fields]
    if max(widths) > WIDEST:
        texts = [it.some(slice(None)) for it in fields]
        delimiter = bytes(marks[:1]) if len(marks) > 1 else b""
        return b"\n".join([*map(delimiter.join, zip(*texts)), b""])
    kept = [numpy.tri(it, dtype=bool) for it in widths]
    found = []
    for parts in zip(*(it.chunks() for it in fields)):
        cells = [bytes_from(it.data, starts, width) for it, (starts, _, _), width in zip(fields, parts, widths)]
        for some, (_, _, lengths), mark in zip(cells, parts, marks):
            some[numpy.arange(len(some)), lengths] = mark
        is_kept = [of[lengths] for of, (_, _, lengths) in zip(kept, parts)]
        found.append(numpy.hstack(cells)[numpy.hstack(is_kept)].tobytes())
    return b"".join(found)
