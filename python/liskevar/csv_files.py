"""CSV and TSV files as tables, and rows as CSV.

Files are UTF-8 and as RFC 4180 says: a header, quotes round a field that holds a separator, a quote or a line break. An
empty field is null, and `""` is the empty text.
"""

import csv
import functools
import io
import itertools
import os
import re
import warnings
from collections.abc import Callable, Iterable, Iterator, Sequence
from datetime import datetime
from decimal import Decimal
from typing import Any, NamedTuple, TextIO

from .dtypes import RANGES, STRING, Cell, DType, Guess
from .errors import Refused
from .job import check_size
from .tables import Column, Table, Types, told_types

WHOLE = "0|-?[1-9][0-9]{0,39}"
DATE = r"[0-9]{1,2}[./-][0-9]{1,2}[./-](?:[0-9]{4}|[0-9]{2})|[0-9]{4}[./][0-9]{1,2}[./][0-9]{1,2}"
# What the fields of a column may look like; and of those that are no type here, how they are read, and as what.
LOOKS = {"numbers": WHOLE, "decimals": rf"{WHOLE}|-?[0-9]*\.[0-9]+|-?[0-9]+\.", "dates": DATE}
WAYS = {"decimals": ("Cents", "as numbers"), "dates": ("%d.%m.%Y", "as 2026-11-29, which sorts as a date")}
# Stands for a field that is written as two quotes, until it is read; no file that is UTF-8 has it.
EMPTY = "\udc00"
BLOCK = 20_000


class TypeWarning(UserWarning):
    """A column is read as texts that look like something else."""


def delimiter_of(path: str, tabs: bool = False) -> str:
    """What separates fields: tabs where that is told or the file's name ends in .tsv."""
    return "\t" if tabs or path.endswith(".tsv") else ","


class Source(NamedTuple):
    """A file, what separates its fields, and the bytes of it that are read; all of them where no end is told.

    A piece has the header's bytes (`head`) before its own. Its lines are counted from `line` on.
    """

    path: str
    delimiter: str
    head: bytes = b""
    start: int = 0
    end: int | None = None
    line: int = 0

    def open(self) -> TextIO:
        """The text, without a mark of byte order."""
        if self.end is None:
            return open(self.path, encoding="utf-8-sig", newline="")
        with open(self.path, "rb") as file:
            file.seek(self.start)
            found = self.head + file.read(self.end - self.start)
        return io.TextIOWrapper(io.BytesIO(found), encoding="utf-8-sig", newline="")


def fields_pattern(delimiter: str) -> re.Pattern[str]:
    """The pattern of a field of a line in which a quote stands."""
    other = f"[^{re.escape(delimiter)}]*"
    return re.compile(rf'("(?:[^"]|"")*("?){other}|{other})({re.escape(delimiter)}|\Z)')


def _lines(source: Source) -> Iterator[str]:
    """The lines of a source, with each `""` that is a whole field marked."""
    fields, inside = fields_pattern(source.delimiter), False
    try:
        with source.open() as file:
            lines: Iterable[str] = file
            if source.end is not None:
                text = file.read()
                lines = io.StringIO(text, newline="")
                if '"' not in text:
                    yield from lines
                    return
            for line in lines:
                if inside or '"' in line:
                    line, inside = marked(fields.findall('"' + line if inside else line), inside)
                yield line
    except UnicodeDecodeError:
        raise _no_text(source.path) from None
    except OSError as error:
        raise Refused(f"{source.path}: {error.strerror}") from error


def _no_text(path: str) -> Refused:
    """The error of a file that isn't UTF-8, with the place of its first byte that can't be."""
    with open(path, "rb") as file:
        for number, line in enumerate(file, start=1):
            try:
                line.decode()
            except UnicodeDecodeError as error:
                return Refused(f"{path}, line {number}, byte {error.start + 1}: not UTF-8")
    return Refused(f"{path}: not UTF-8")


def marked(fields: list[tuple[str, str, str]], inside: bool) -> tuple[str, bool]:
    """A line with its empty quoted fields marked, and whether a quoted field goes on behind it.

    Of each field there is its text, the quote that ends it, if one began it, and what separates it from the next. As
    Python's `csv` reads it, a quote that doesn't begin a field is a part of it.
    """
    shown = [EMPTY + it[2:] if it.rstrip("\r\n") == '""' else it for it, _, _ in fields]
    shown[0] = fields[0][0][1:] if inside else shown[0]
    goes_on = any(it.startswith('"') and not quote for it, quote, _ in fields)
    return "".join([it + end for it, (_, _, end) in zip(shown, fields)]), goes_on


def header_of(path: str, header: list[str], names: Sequence[str] | None) -> list[str]:
    found = ["" if it == EMPTY else it for it in header] if names is None else list(names)
    if len(found) != len(header):
        raise Refused(f"{path}, line 1: {len(header)} columns, and {len(found)} names are given")
    for place, name in enumerate(found):
        first = found.index(name)
        if first < place:
            words = f"the name {name!r} stands twice; give other names (names=, or --names)"
            raise Refused(f"{path}, line 1, columns {first + 1} and {place + 1}: {words}")
    return found


def _reader(source: Source) -> Any:
    csv.field_size_limit(2**31 - 1)
    return csv.reader(_lines(source), delimiter=source.delimiter, strict=True)


def blocks(source: Source) -> Iterator[list[list[str]]]:
    """The records of a source, some at a time; the first block is the header alone."""
    reader, path = _reader(source), source.path
    try:
        header = next(reader, None)
        if not header:
            raise Refused(f"{path}, line 1: no header")
        yield [header]
        width, count = len(header), 1
        while block := list(itertools.islice(reader, BLOCK)):
            # a blank line is an empty field where there is one column
            block = [row or [""] for row in block] if width == 1 else block
            if set(map(len, block)) != {width}:
                place, row = next((k, row) for k, row in enumerate(block) if len(row) != width)
                found = f"{len(row)} fields, where the header has {width}" if row else "an empty line"
                raise Refused(f"{path}, line {line_of(source, count + place)}: {found}")
            count += len(block)
            yield block
    except csv.Error as error:
        raise Refused(f"{path}, line {source.line + reader.line_num}: {error}") from error


def line_of(source: Source, number: int) -> int:
    """The line on which a record ends; the header is record 0."""
    reader = _reader(source)
    next(itertools.islice(reader, number, None))
    return int(source.line + reader.line_num)


class Fields:
    """The fields of a column, empty for null and EMPTY for two quotes, and the types that all of them spell."""

    def __init__(self, source: Source, name: str, place: int, values: list[str], empty_is_text: bool) -> None:
        self.source, self.name, self.place, self.values = source, name, place, values
        self.empty = "" if empty_is_text else None
        self._ends: dict[int, tuple[int, int] | None] = {}

    @functools.cached_property
    def distinct(self) -> set[str]:
        """The fields that have a value, each once."""
        return set(self.values) - {"", EMPTY}

    @functools.cached_property
    def looks(self) -> str:
        """What all fields look like, or nothing."""
        return next((it for it in LOOKS if self.distinct and self.look_like(it)), "")

    def look_like(self, what: str) -> bool:
        """Whether all fields look like numbers, decimals or dates."""
        return self.number_ends(0) is not None if what == "numbers" else self.spell(LOOKS[what])

    def spell(self, pattern: str) -> bool:
        """Whether all fields are of a pattern."""
        return all(map(re.compile(pattern).fullmatch, self.distinct))

    def numbers(self, scale: int) -> dict[str, Any] | None:
        """The number of each field, where all fields spell numbers of so many digits, in their one way."""
        decimals = rf"-?(?:0|[1-9][0-9]{{0,39}})(?:\.[0-9]{{1,{scale}}}0*)?"
        found: dict[str, Any] | None = None
        if scale == 0:
            found = _whole_numbers(list(self.distinct))
        elif self.spell(decimals):
            found = {it: _number(it, scale) for it in self.distinct}
        values = [] if found is None else found.values()
        self._ends[scale] = None if found is None else (min(values, default=0), max(values, default=0))
        return found

    def number_ends(self, scale: int) -> tuple[int, int] | None:
        """The least and the greatest number, where all fields spell numbers of so many digits."""
        if scale not in self._ends:
            self.numbers(scale)
        return self._ends[scale]

    def fits(self, dtype: DType) -> bool:
        """Whether all fields spell values of the type."""
        if dtype.kind == "number":
            ends, (least, greatest) = self.number_ends(dtype.scale), RANGES[dtype.base]
            return ends is not None and least <= ends[0] and ends[1] <= greatest
        if dtype.base == "Boolean":
            return self.distinct <= {"true", "false"}
        return dtype == STRING or self.spell("(?:[0-9a-f]{2})*")

    def column(self, told: DType | str | None) -> Column:
        """The column, of the type that is told or of the form of its dates, which become texts in the order of ISO.

        Where nothing is told its type is a guess, and a warning says that texts sort and join as texts where they look
        like something else.
        """
        if isinstance(told, str):
            dates = [it if not it or it == EMPTY else self._iso(row, it, told) for row, it in enumerate(self.values)]
            texts = Fields(self.source, self.name, self.place, dates, self.empty is not None)
            return Column(self.name, STRING, texts.cells)
        if told:
            self._check(told)
            return Column(self.name, told, self.cells)
        guess = guess_of(self.source.path, self.name, self.looks, self.fits, self.is_empty)
        return Column(self.name, guess, self.cells)

    @property
    def is_empty(self) -> bool:
        """Whether no field has a value."""
        return not self.distinct and EMPTY not in self.values

    def _iso(self, row: int, field: str, form: str) -> str:
        try:
            found = datetime.strptime(field, form)
        except ValueError:
            raise self._refused(row, f"{field!r} isn't of the form {form}") from None
        has_time = any(it in form for it in ("%H", "%I", "%M", "%S", "%X", "%c"))
        return found.isoformat() if has_time else found.date().isoformat()

    def _refused(self, row: int, words: str) -> Refused:
        line = line_of(self.source, row + 1)
        return Refused(f"{self.source.path}, line {line}, column {self.place + 1} ({self.name}): {words}")

    def _check(self, dtype: DType) -> None:
        """Refused with the place of the first field that is none of the type."""
        for row, it in enumerate(() if self.fits(dtype) else self.values):
            if not Fields(self.source, self.name, self.place, [it], False).fits(dtype):
                raise self._refused(row, f"{it!r} is no {dtype}")

    def cells(self, dtype: DType) -> list[Cell]:
        """The cells of a type; two quotes are the empty text in columns of texts, and else null."""
        # the ends are known then, so that the check takes no second look
        numbers = self.numbers(dtype.scale) or {} if dtype.kind == "number" else {}
        self._check(dtype)
        if dtype.kind in ("text", "bytes"):
            if "" not in self.values and EMPTY not in self.values:
                return list(self.values)
            cells: dict[str, Cell] = {**dict(zip(self.distinct, self.distinct)), "": self.empty, EMPTY: ""}
        elif dtype.kind == "truth":
            cells = {"true": True, "false": False, "": None, EMPTY: None}
        else:
            cells = {it: str(number) for it, number in numbers.items()} if dtype.base == "Int128" else numbers
            cells |= {"": None, EMPTY: None}
        return list(map(cells.__getitem__, self.values))


def guess_of(path: str, name: str, looks: str, fits: Callable[[DType], bool], is_empty: bool) -> Guess:
    """The guess of a column's type; a warning says where texts look like something else."""
    hint = f"; --types {name}:String (types=) reads {name!r} of {path} as texts" if looks else ""
    if looks in WAYS:
        form, what = WAYS[looks]
        hint = f"; {path} gives texts that look like {looks}: tell {form} by types= or --types"
        how = f"types={{{name!r}: {form!r}}} (--types {name}:{form}) reads them {what}"
        words = f"{path}: {name!r} looks like {looks}, and is read as texts, which sort and join as texts"
        warnings.warn(f"{words}; {how}", TypeWarning, stacklevel=3)
    return Guess(fits, is_empty=is_empty, hint=hint)


def _whole_numbers(texts: list[str]) -> dict[str, Any] | None:
    """The number of each text, where all are whole numbers of 40 digits at most in their one way."""
    try:
        numbers = list(map(int, texts))
    except ValueError:
        return None
    are_short = -(10**40) < min(numbers, default=0) and max(numbers, default=0) < 10**40
    are_plain = are_short and list(map(str, numbers)) == texts
    return dict(zip(texts, numbers)) if are_plain else None


def _number(field: str, scale: int) -> int:
    whole, _, digits = field.partition(".")
    return int(whole + digits[:scale].ljust(scale, "0"))


def read_csv(
    path: str, *, delimiter: str | None = None, names: Sequence[str] | None = None, types: Types | None = None,
    read: Iterable[str] | None = None, empty_is_text: bool = False, jobs: int = 4,
) -> Table:  # fmt: skip
    """The table of a file; JobTooLong as soon as its columns have more bytes than so many jobs.

    Those of `read` alone have values, where it is told: no other column is asked for them.
    """
    source = Source(path, delimiter or delimiter_of(path))
    made, height = fields_of(source, names, read, empty_is_text, jobs)
    forms, told = told_forms(path, types, [it.name for it in made])
    return Table(os.path.basename(path), [it.column(forms.get(it.name) or told.get(it.name)) for it in made], height)


def told_forms(path: str, types: Types | None, names: Sequence[str]) -> tuple[dict[str, str], dict[str, DType]]:
    """The forms of dates and the types that a caller tells."""
    forms = {name: text for name, text in (types or {}).items() if "%" in text}
    return forms, told_types({**(types or {}), **dict.fromkeys(forms, "String")}, names, path)


def fields_of(
    source: Source, names: Sequence[str] | None, read: Iterable[str] | None, empty_is_text: bool, jobs: int
) -> tuple[list[Fields], int]:
    """The fields of each column of a source, and the number of its rows."""
    rows = blocks(source)
    header = header_of(source.path, next(rows)[0], names)
    fields: list[list[str]] = [[] for _ in header]
    valued = [place for place, name in enumerate(header) if read is None or name in set(read)]
    height = size = 0
    for block in rows:
        turned = list(zip(*block))
        height += len(block)
        for place in valued:
            fields[place].extend(turned[place])
            size += sum(map(len, turned[place])) + len(block)
        check_size(f"{source.path}, by row {height}, in {len(valued)} columns", size, jobs)
    return [Fields(source, it, place, fields[place], empty_is_text) for place, it in enumerate(header)], height


def text_of(value: Any) -> str:
    """A value as people write it."""
    if isinstance(value, bool):
        return str(value).lower()
    if isinstance(value, Decimal):
        return format(value, "f")
    return value.hex() if isinstance(value, bytes) else str(value)


def _field(value: Any, delimiter: str, null: str) -> str:
    """One field, as RFC 4180 has it: null is an empty field, the empty text two quotes."""
    if value is None:
        return null
    text = text_of(value)
    if text in ("", null) or any(it in text for it in (delimiter, '"', "\r", "\n")):
        return '"' + text.replace('"', '""') + '"'
    return text


def csv_lines(
    names: Sequence[str], rows: Sequence[Sequence[Any]], delimiter: str = ",", end: str = "\n", null: str = ""
) -> Iterator[str]:
    """The lines of a CSV file. In a file of one column a null is two quotes, so that no line is blank."""
    if len(names) == 1 and not null:
        null = '""'
        if {(None,), ("",)} <= {tuple(row) for row in rows}:
            words = "has nulls and empty texts, which a CSV of one column can't tell apart; give --null WORD (null=)"
            raise Refused(f"{names[0]!r} {words}")
    yield delimiter.join(_field(it, delimiter, '""') for it in names) + end
    for row in rows:
        yield delimiter.join([_field(it, delimiter, null) for it in row]) + end
