"""Columns of cells as a job spells them, in bytes, and their rows by groups.

Rows are cut by whole columns, not one by one. With numpy a column is one array of bytes, and where each cell begins and
ends there; without it, a list of the cells' texts. Both give the same groups of rows and the same bytes.
"""

import contextlib
import functools
import json
import zlib
from bisect import bisect_right
from collections.abc import Iterator, Sequence
from itertools import accumulate
from typing import Any, NamedTuple, Protocol, Union

from .dtypes import Cell

numpy: Any = None
with contextlib.suppress(ImportError):
    import numpy as _numpy

    numpy = _numpy

# A list of numbers, or an array.
Numbers = Any
# Cells of more bytes are cut one by one; so many rows are worked on at a time, so that they lie in the cache.
WIDEST, CHUNK = 48, 8_192
# What tells the cells of a key from the same ones in another order.
ODD = 2_654_435_761
# What stands before and behind an array's cells, so that bytes can be taken round each; and a null.
BEFORE, BEHIND = bytes(WIDEST), b"null," + bytes(WIDEST + 1)


class Sections(NamedTuple):
    """Rows by their groups: the numbers of those that have rows, and how many these are; of each column the bytes of all
    cells, with a comma behind each, and where those of each group end."""

    groups: list[int]
    rows: list[int]
    ends: list[list[int]]
    texts: list[bytes]

    def sizes(self) -> list[int]:
        """The bytes of each group."""
        ends = [sum(it) for it in zip(*self.ends)]
        return [end - start for start, end in zip([0, *ends], ends)]


class Cells(Protocol):
    """The texts of a column's cells."""

    def __len__(self) -> int: ...

    def sizes(self) -> Numbers:
        """The bytes of each cell, with a comma."""

    def some(self, rows: Numbers) -> list[bytes]:
        """The texts of some rows."""

    def sums(self) -> Numbers:
        """A sum of each cell's text, as `sum_of`."""

    def joined(self, rows: Numbers = None) -> bytes:
        """The cells of some rows, or of all, with a comma behind each."""


class TextCells(list[bytes]):
    """A column as a list."""

    def sizes(self) -> Numbers:
        """The bytes of each cell, with a comma."""
        return [len(it) + 1 for it in self]

    def some(self, rows: Numbers) -> list[bytes]:
        """The texts of some rows."""
        return list(map(self.__getitem__, rows))

    def sums(self) -> Numbers:
        """A sum of each cell's text, as `sum_of`."""
        return list(map(sum_of, self))

    def joined(self, rows: Numbers = None) -> bytes:
        """The cells of some rows, or of all, with a comma behind each."""
        return b",".join([*(self if rows is None else map(self.__getitem__, rows)), b""])


class ArrayCells(NamedTuple):
    """A column as an array of bytes, with BEFORE and BEHIND round it, and where each cell begins and ends."""

    data: Any
    starts: Any
    ends: Any

    def __len__(self) -> int:
        return len(self.starts)

    def sizes(self) -> Numbers:
        """The bytes of each cell, with a comma."""
        return self.ends - self.starts + 1

    def some(self, rows: Numbers) -> list[bytes]:
        """The texts of some rows."""
        data = self.data.tobytes()
        return [data[start:end] for start, end in zip(self.starts[rows].tolist(), self.ends[rows].tolist())]

    def widest(self) -> int:
        """The bytes of the longest cell."""
        return int((self.ends - self.starts).max(initial=0))

    def chunks(self, rows: Any = None) -> Iterator[tuple[Any, Any, Any]]:
        """Some rows at a time: where each cell begins and ends, and its length in a byte where none is longer."""
        for place in range(0, len(self) if rows is None else len(rows), CHUNK):
            some = slice(place, place + CHUNK) if rows is None else rows[place : place + CHUNK]
            starts, ends = self.starts[some], self.ends[some]
            yield starts, ends, (ends - starts).astype(numpy.uint8)

    def sums(self) -> Numbers:
        """A sum of each cell's text, as `sum_of`."""
        width = self.widest()
        if width > WIDEST:
            return numpy.array(list(map(sum_of, self.some(slice(None)))), numpy.uint32)
        kept, found = kept_at_right(width), numpy.zeros(len(self), numpy.uint32)
        for place, (_, ends, lengths) in enumerate(self.chunks()):
            some = found[place * CHUNK : (place + 1) * CHUNK]
            cells = bytes_from(self.data, ends - width, width) * kept[lengths].view(numpy.uint8).reshape(-1, width)
            for table, byte in zip(_sum_tables()[width - 1 :: -1], cells.T.copy()):
                some ^= table[byte]
        return found

    def joined(self, rows: Numbers = None) -> bytes:
        """The cells of some rows, or of all, with a comma behind each."""
        width = self.widest()
        if width > WIDEST:
            return b",".join([*self.some(slice(None) if rows is None else rows), b""])
        # for each length, which bytes are the cell's or the comma's
        kept = numpy.tri(width + 1, dtype=bool).view(f"V{width + 1}").ravel()
        found = []
        for starts, _, lengths in self.chunks(rows):
            cells = bytes_from(self.data, starts, width + 1)
            cells[numpy.arange(len(starts)), lengths] = 44
            found.append(cells.ravel()[kept[lengths].view(bool)])
        return b"".join([it.tobytes() for it in found])


def bytes_from(data: Any, places: Any, width: int) -> Any:
    """So many bytes from each place on, a row for each."""
    if not width:
        return numpy.empty((len(places), 0), numpy.uint8)
    # each byte begins such an item of an array that overlaps itself
    items = numpy.ndarray((len(data) - width + 1,), f"V{width}", data, 0, (1,))
    return items[places].view(numpy.uint8).reshape(-1, width)


def kept_at_right(width: int) -> Any:
    """For each number of bytes a mask of so many at the right of a row of this width."""
    return numpy.tri(width + 1, width, -1, dtype=numpy.uint8)[:, ::-1].copy().view(f"V{max(width, 1)}").ravel()


def sum_of(text: bytes) -> int:
    """A sum of a text: its CRC-32 that begins with nothing, so that no byte changes what another adds."""
    return zlib.crc32(text, 0xFFFFFFFF) ^ 0xFFFFFFFF


@functools.cache
def _sum_tables() -> list[Any]:
    """What each byte adds to the sum of a text, by how many bytes stand behind it."""
    found = [numpy.array([sum_of(bytes([it])) for it in range(256)], numpy.uint32)]
    while len(found) < WIDEST:
        found.append(found[0][found[-1] & 255] ^ (found[-1] >> 8))
    return found


def array_of(text: bytes) -> Any:
    """The bytes of a text with what stands round an array's cells."""
    return numpy.frombuffer(b"".join([BEFORE, text, BEHIND]), numpy.uint8)


def null_of(data: Any) -> int:
    """Where a null begins in an array."""
    return len(data) - len(BEHIND)


def column_of(cells: Sequence[Cell]) -> Cells:
    """A column of cells."""
    # no text of JSON has a line break
    text = json.dumps(cells, ensure_ascii=False, separators=("\n", ":"))[1:-1].encode() if cells else b""
    if numpy is None:
        return TextCells(text.split(b"\n") if cells else [])
    data = array_of(text + b"\n" * bool(cells))
    ends = numpy.flatnonzero(data == 10)
    starts = numpy.empty_like(ends)
    starts[:1], starts[1:] = len(BEFORE), ends[:-1] + 1
    return ArrayCells(data, starts, ends)


def key_hashes(columns: Sequence[Cells], places: Sequence[int], hashes: int) -> Numbers:
    """The hash of each row's key, one of so many: of the sums of its cells' texts, each times a power of an odd number."""
    sums = [columns[it].sums() for it in places]
    if numpy is None:
        rows = zip(*sums)
        return [sum(it * ODD**power for power, it in enumerate(row)) % 2**32 % hashes for row in rows]
    found = sum(it * numpy.uint32(ODD**power % 2**32) for power, it in enumerate(sums))
    # numbers of 16 bits are sorted in linear time
    return (found % numpy.uint32(hashes)).astype(numpy.uint16 if hashes <= 2**16 else numpy.uint32)


def by_hash(columns: Sequence[Cells], places: Sequence[int], hashes: int) -> Sections:
    """The rows by the hashes of their keys."""
    numbers = key_hashes(columns, places, hashes)
    if numpy is None:
        held: dict[int, list[int]] = {}
        for row, it in enumerate(numbers):
            held.setdefault(it, []).append(row)
        groups = sorted(held)
        rows = [row for it in groups for row in held[it]]
        return _sections(columns, rows, groups, [len(held[it]) for it in groups])
    counts = numpy.bincount(numbers, minlength=1)
    found = numpy.flatnonzero(counts)
    return _sections(columns, numpy.argsort(numbers, kind="stable"), found.tolist(), counts[found].tolist())


def by_size(columns: Sequence[Cells], size: int) -> Sections:
    """The rows as they come, in groups of at most so many bytes; a row that has more is a group of its own."""
    sizes = [it.sizes() for it in columns]
    sums = list(accumulate(map(sum, zip(*sizes)))) if numpy is None else numpy.cumsum(sum(sizes[1:], sizes[0]))
    counts, start, before = [], 0, 0
    while start < len(sums):
        end = max(bisect_right(sums, before + size, start), start + 1)
        counts.append(end - start)
        start, before = end, int(sums[end - 1])
    return _sections(columns, None, list(range(len(counts))), counts)


def _sections(columns: Sequence[Cells], rows: Numbers, groups: list[int], counts: list[int]) -> Sections:
    """The sections of rows in this order, or as they come, so many in each group."""
    stops = list(accumulate(counts))
    ends = []
    for column in columns:
        sizes = column.sizes()
        if numpy is None:
            sums = list(accumulate(sizes if rows is None else map(sizes.__getitem__, rows)))
            ends.append([sums[it - 1] for it in stops])
        else:
            sums = numpy.cumsum(sizes if rows is None else sizes[rows])
            ends.append(sums[numpy.array(stops, int) - 1].tolist())
    return Sections(groups, counts, ends, [it.joined(rows) for it in columns])


def all_texts(columns: Sequence[Cells]) -> tuple[bytes, ...]:
    """The cells of each column, with a comma behind each."""
    return tuple(it.joined() for it in columns)
