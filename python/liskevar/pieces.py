"""Tables larger than memory: files in pieces, and what all pieces together know of a column's type.

A piece is read where it is wanted, and holds whole records. CSV and TSV files are cut at the ends of records, Parquet
files (where pyarrow is there) are read one group of rows at a time.
"""

import contextlib
import io
import os
import re
from collections.abc import Iterable, Mapping, Sequence
from dataclasses import dataclass
from typing import Any, NamedTuple, Protocol

from .columns import Cells, column_of
from .csv_files import LOOKS, Fields, Source, blocks, delimiter_of, fields_of, fields_pattern, guess_of, header_of
from .csv_files import marked, told_forms
from .dtypes import BINARY, BOOLEAN, RANGES, STRING, Cell, DType, Guess, Type, dtype_of
from .errors import Refused
from .plain_fields import PlainFields, fields_at, spelled, whole_numbers
from .tables import Column, Table, Types, told_types

BYTES_OF_A_PIECE, MOST_PIECES = 8_388_608, 1_024
DECIMAL = r"-?(?:0|[1-9][0-9]{0,39})(?:\.([0-9]+))?"
# So many fields tell whether a column can be anything but texts.
SOME = 200
# What a type of Parquet is here; whole numbers of fewer than 32 bits are widened.
PARQUET = {
    **dict.fromkeys(("int8", "int16", "int32"), "Int32"), **dict.fromkeys(("uint8", "uint16", "uint32"), "UInt32"),
    **dict.fromkeys(("string", "large_string", "date32[day]"), "String"), "int64": "Int64", "uint64": "UInt64",
    "bool": "Boolean", **dict.fromkeys(("binary", "large_binary"), "Binary"),
}  # fmt: skip


PARQUET_ENDS = (".parquet", ".pq")


class Piece(Protocol):
    """Some rows of a table."""

    def columns(self, types: Mapping[str, DType]) -> list[Cells]:
        """Some columns, in this order."""


class Look(NamedTuple):
    """What the fields of a column spell in one piece.

    `number` has the digits after the point, the least and the greatest value, as whole numbers of so many digits;
    `looks` has what all of them look like, or is None where all are blank.
    """

    is_empty: bool
    looks: frozenset[str] | None
    number: tuple[int, int, int] | None
    is_truth: bool
    is_bytes: bool

    def fits(self, dtype: DType) -> bool:
        """Whether all fields spell values of the type."""
        if dtype.kind == "number":
            if self.number is None or self.number[0] > dtype.scale:
                return False
            more = int(10 ** (dtype.scale - self.number[0]))
            least, greatest = RANGES[dtype.base]
            return least <= self.number[1] * more and self.number[2] * more <= greatest
        return dtype == STRING or (self.is_truth if dtype == BOOLEAN else self.is_bytes)


def look_at(fields: Fields) -> Look:
    """What a column's fields spell."""
    number, whole = None, fields.number_ends(0)
    if whole is not None:
        number = (0, *whole)
    elif fields.spell(DECIMAL):
        found = [re.fullmatch(DECIMAL, it) for it in fields.distinct]
        digits = max([1, *(len((it[1] or "").rstrip("0")) for it in found if it)])
        ends = fields.number_ends(digits) if digits <= 18 else None
        number = None if ends is None else (digits, *ends)
    looks = frozenset(filter(fields.look_like, LOOKS)) if fields.distinct else None
    return Look(fields.is_empty, looks, number, fields.fits(BOOLEAN), fields.fits(BINARY))


# What is told where one field after the other is none of a number, a date, a truth or bytes.
TEXTS = Look(False, frozenset(), None, False, False)


@dataclass(frozen=True)
class CsvPiece:
    """Some records of a CSV file."""

    source: Source
    names: tuple[str, ...]
    forms: Mapping[str, str]
    empty_is_text: bool

    def _fields(self, read: Iterable[str] | None) -> tuple[list[Fields], int]:
        return fields_of(self.source, self.names, read, self.empty_is_text, 64)

    def _plain(self) -> PlainFields | None:
        try:
            return fields_at(self.source, len(self.names))
        except OSError as error:
            raise Refused(f"{self.source.path}: {error.strerror}") from error

    def _column(self, plain: PlainFields, name: str, rows: slice = slice(None)) -> Fields:
        """The fields of a column, or of some of its rows, as texts."""
        place = self.names.index(name)
        return Fields(self.source, name, place, plain.values(place, rows), self.empty_is_text)

    def looks(self, read: Iterable[str]) -> tuple[list[Look], int]:
        """What some columns spell, and the number of rows."""
        wanted, plain = set(read), self._plain()
        if plain is not None:
            return [self._look(plain, it) for it in self.names if it in wanted], len(plain)
        fields, height = self._fields(wanted)
        return [look_at(it) for it in fields if it.name in wanted], height

    def _look(self, plain: PlainFields, name: str) -> Look:
        whole = whole_numbers(plain.column(self.names.index(name)))
        if whole is not None:
            are = frozenset({"numbers", "decimals"})
            return Look(False, are, (0, whole.least, whole.greatest), False, whole.is_even)
        # what some fields can't be all can't be
        some = look_at(self._column(plain, name, slice(SOME)))
        return some if some == TEXTS else look_at(self._column(plain, name))

    def cells(self, types: Mapping[str, DType]) -> list[list[Cell]]:
        """The cells of some columns, in this order, one by one."""
        fields = {it.name: it for it in self._fields(types)[0]}
        return [self._spelled(fields[name], dtype) for name, dtype in types.items()]

    def _spelled(self, fields: Fields, dtype: DType) -> list[Cell]:
        form = self.forms.get(fields.name)
        return fields.cells(dtype) if form is None else fields.column(form).spell(dtype)

    def columns(self, types: Mapping[str, DType]) -> list[Cells]:
        """Some columns, in this order."""
        plain, found = self._plain(), []
        if plain is None:
            return list(map(column_of, self.cells(types)))
        for name, dtype in types.items():
            place = self.names.index(name)
            column = None if name in self.forms else spelled(plain, place, dtype, self.empty_is_text)
            if column is None:
                column = column_of(self._spelled(self._column(plain, name), dtype))
            found.append(column)
        return found


@dataclass(frozen=True)
class ParquetPiece:
    """A group of rows of a Parquet file."""

    path: str
    group: int

    def cells(self, types: Mapping[str, DType]) -> list[list[Cell]]:
        """The cells of some columns, in this order."""
        import pyarrow.parquet

        table = pyarrow.parquet.ParquetFile(self.path).read_row_group(self.group, columns=list(types))
        return [[dtype.cell(it) for it in table.column(name).to_pylist()] for name, dtype in types.items()]

    def columns(self, types: Mapping[str, DType]) -> list[Cells]:
        """Some columns, in this order."""
        return list(map(column_of, self.cells(types)))


@dataclass(frozen=True)
class HeldPiece:
    """The rows of a table that is in memory."""

    held: Mapping[str, list[Cell]]

    def columns(self, types: Mapping[str, DType]) -> list[Cells]:
        """Some columns, in this order; their cells were spelled before."""
        return [column_of(self.held[it]) for it in types]


@dataclass(frozen=True, eq=False)
class LargeTable(Table):
    """A table whose rows lie in pieces; its columns have no cells here."""

    pieces: Sequence[Piece] = ()


def _nothing(dtype: DType) -> list[Cell]:
    return []


def _cut(data: bytes, delimiter: str) -> tuple[int, int]:
    """How many bytes from a record's beginning on are whole records, and how many lines they have."""
    end = data.rfind(b"\n") + 1
    if b'"' in data[:end]:
        fields, inside, place, safe = fields_pattern(delimiter), False, 0, 0
        text = data[:end].decode()
        for line in io.StringIO(text, newline=""):
            place += len(line)
            if inside or '"' in line:
                _, inside = marked(fields.findall('"' + line if inside else line), inside)
            if not inside and line[-1:] == "\n":
                safe = place
        end = len(text[:safe].encode())
    return end, data.count(b"\n", 0, end)


def sources_of(path: str, delimiter: str, size: int = BYTES_OF_A_PIECE) -> list[Source]:
    """The pieces of a file, each of whole records and of about so many bytes; of a file without rows an empty one."""
    found: list[Source] = []
    try:
        with open(path, "rb") as file:
            head, length = b"", 0
            while not length and (line := file.readline()):
                head += line
                length = _cut(head, delimiter)[0]
            start, lines, data = len(head), 0, b""
            while more := file.read(size):
                data += more
                length, count = _cut(data, delimiter)
                if length:
                    found.append(Source(path, delimiter, head, start, start + length, lines))
                    start, lines, data = start + length, lines + count, data[length:]
    except OSError as error:
        raise Refused(f"{path}: {error.strerror}") from error
    except UnicodeDecodeError:
        # the reader tells where
        return [Source(path, delimiter)]
    rest = Source(path, delimiter, head, start, start + len(data), lines)
    return [*found, rest] if data or not found else found


def csv_pieces(path: str, told: Mapping[str, Any], size: int = BYTES_OF_A_PIECE) -> list[CsvPiece]:
    """The pieces of a CSV file, of `size` bytes and in long files up to eight times as many.

    `told` is what `read_csv` is told.
    """
    with contextlib.suppress(OSError):
        size = max(size, min(os.path.getsize(path) // MOST_PIECES, 8 * size))
    sources = sources_of(path, told.get("delimiter") or delimiter_of(path), size)
    names = header_of(path, next(blocks(sources[0]))[0], told.get("names"))
    forms, _ = told_forms(path, told.get("types"), names)
    return [CsvPiece(it, tuple(names), forms, bool(told.get("empty_is_text"))) for it in sources]


def csv_columns(
    path: str, types: Types | None, names: Sequence[str], looks: Mapping[str, Sequence[Look]]
) -> list[Column]:  # fmt: skip
    """The columns of a file in pieces: of the types that are told, or else of what all pieces spell."""
    forms, told = told_forms(path, types, names)
    columns = []
    for name in names:
        dtype: Type
        if name in forms or name in told:
            dtype = STRING if name in forms else told[name]
        else:
            dtype = _guess(path, name, looks.get(name, ()))
        columns.append(Column(name, dtype, _nothing))
    return columns


def _guess(path: str, name: str, looks: Sequence[Look]) -> Guess:
    """The guess of a column's type, from all pieces."""
    filled = [it.looks for it in looks if it.looks is not None]
    common = frozenset(LOOKS).intersection(*filled) if filled else frozenset()
    what = next((it for it in LOOKS if it in common), "")
    fits = lambda dtype: all(it.fits(dtype) for it in looks)
    return guess_of(path, name, what, fits, all(it.is_empty for it in looks))


def _parquet_file(path: str) -> Any:
    try:
        import pyarrow.parquet
    except ImportError as error:
        raise Refused(f"{path}: Parquet files want pyarrow, which isn't there") from error
    try:
        return pyarrow.parquet.ParquetFile(path)
    except (OSError, pyarrow.ArrowException) as error:
        raise Refused(f"{path}: {error}") from error


def parquet_names(path: str) -> list[str]:
    """The columns of a Parquet file."""
    return list(_parquet_file(path).schema_arrow.names)


def parquet_table(path: str, types: Types | None) -> LargeTable:
    """The table of a Parquet file; Refused where pyarrow isn't there, or a column has a type that is none here."""
    file = _parquet_file(path)
    told = told_types(types, file.schema_arrow.names, path)
    columns = [Column(it.name, told.get(it.name) or _of_parquet(path, it), _nothing) for it in file.schema_arrow]
    pieces = [ParquetPiece(path, it) for it in range(file.num_row_groups)]
    return LargeTable(os.path.basename(path), columns, file.metadata.num_rows, pieces)


def _of_parquet(path: str, field: Any) -> DType:
    """The type here of a column of Parquet."""
    found = re.fullmatch(r"decimal128\((\d+), (\d+)\)", str(field.type))
    if found and int(found[2]) <= 18:
        return DType("Int64" if int(found[1]) <= 18 else "Int128", int(found[2]))
    if str(field.type) not in PARQUET:
        raise Refused(f"{path}, column {field.name!r}: a column of {field.type} has no type here; tell one by --types")
    return dtype_of(PARQUET[str(field.type)])
