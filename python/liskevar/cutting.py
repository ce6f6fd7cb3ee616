"""Cutting pieces of tables, placing what they are cut into in parts, and the jobs of parts.

An item is what goes into one part together: some rows of a scan that are cut as they come, all rows of a scan that each
part has whole, or the rows whose keys have one hash. What is here knows nothing of Dask.
"""

import collections
import heapq
import json
from collections.abc import Iterable, Mapping, Sequence
from typing import Any, NamedTuple

from .columns import Sections, all_texts, by_hash, by_size, key_hashes
from .dtypes import Cell, DType
from .errors import Refused
from .job import compact
from .pieces import Piece

# "rows", the scan, the piece and the number there; "key", the key's number and the hash; or "whole" and the scan.
Item = tuple[Any, ...]


class Scan(NamedTuple):
    """A scan as `parts` tells it to be cut (split, key, whole; first where there is one part), and its frame's columns."""

    number: int
    node: int
    frame: int
    cut: str
    key: int
    columns: tuple[str, ...]
    types: Mapping[str, DType]

    @property
    def is_whole(self) -> bool:
        """Whether each part has all of it."""
        return self.cut in ("whole", "first")

    def places(self) -> list[int]:
        """The places of the key's columns."""
        return [list(self.types).index(it) for it in self.columns]


class Block(NamedTuple):
    """Rows of a scan, of one piece of its table: how many they are, their bytes in a job, and of each column the cells,
    with a comma behind each."""

    scan: int
    piece: int
    rows: int
    size: int
    texts: tuple[bytes, ...]


class Cut(NamedTuple):
    """The rows of a scan, of one piece of its table, by the items that they are of."""

    scan: int
    piece: int
    items: tuple[Item, ...]
    sections: Sections

    def block(self, places: Sequence[int]) -> Block:
        """Those of some items."""
        sizes, ends = self.sections.sizes(), self.sections.ends
        texts = []
        for text, stops in zip(self.sections.texts, ends):
            texts.append(b"".join([text[stops[it - 1] if it else 0 : stops[it]] for it in places]))
        rows, size = (sum(map(of.__getitem__, places)) for of in (self.sections.rows, sizes))
        return Block(self.scan, self.piece, rows, size, tuple(texts))


class Fineness(NamedTuple):
    """How fine items are: so many hashes of a key, and at most so many bytes of rows as they come."""

    hashes: int
    bytes: int


def cut_piece(piece: Piece, number: int, scans: Sequence[Scan], fineness: Fineness) -> list[Cut]:
    """The rows of a piece, for all scans that read its table."""
    columns = piece.columns(scans[0].types)
    height, found = len(columns[0]), []
    for scan in scans:
        if scan.is_whole:
            texts = list(all_texts(columns))
            sections = Sections([0], [height], [[len(it)] for it in texts], texts)
            items: list[Item] = [("whole", scan.number)]
        elif scan.cut == "split":
            sections = by_size(columns, fineness.bytes)
            items = [("rows", scan.number, number, it) for it in sections.groups]
        else:
            sections = by_hash(columns, scan.places(), fineness.hashes)
            items = [("key", scan.key, it) for it in sections.groups]
        found.append(Cut(scan.number, number, tuple(items), sections))
    return found


def sizes_of(cuts: Sequence[Cut]) -> dict[Item, int]:
    """How many bytes each item has."""
    found: dict[Item, int] = collections.defaultdict(int)
    for cut in cuts:
        for item, size in zip(cut.items, cut.sections.sizes()):
            found[item] += size
    return dict(found)


def rows_of_keys(
    piece: Piece, scans: Sequence[Scan], hashes: int, wanted: Iterable[Item]
) -> dict[tuple[Any, ...], list[int]]:
    """The bytes and the rows of each key whose hash is wanted, by the key's number and its cells."""
    items, columns = set(wanted), piece.columns(scans[0].types)
    found: dict[tuple[Any, ...], list[int]] = collections.defaultdict(lambda: [0, 0])
    for scan in scans:
        if scan.cut != "key":
            continue
        hash_of = list(key_hashes(columns, scan.places(), hashes))
        rows = [row for row, it in enumerate(hash_of) if ("key", scan.key, int(it)) in items]
        texts = [it.some(rows) for it in columns]
        for row in zip(*texts):
            told = found[scan.key, tuple(json.loads(row[it]) for it in scan.places())]
            told[0] += sum(map(len, row)) + len(row)
            told[1] += 1
    return dict(found)


def placed(sizes: Mapping[Item, int], room: int, least: int) -> tuple[dict[Item, int], int]:
    """Which part each item lies in, and the number of parts: `least`, or more, until none has more than `room`.

    Each item, the largest first, goes to the part that has least. No item has more than `room`.
    """
    order = sorted(sizes, key=lambda it: (-sizes[it], it))
    parts = max(1, min(least, len(order)), -(-sum(sizes.values()) // room))
    while True:
        heap, found = [(0, part) for part in range(parts)], {}
        for it in order:
            held, part = heapq.heappop(heap)
            found[it] = part
            heapq.heappush(heap, (held + sizes[it], part))
        if max(heap)[0] <= room:
            return found, parts
        parts += 1 + parts // 8


def moved(cuts: Sequence[Cut], places: Mapping[Item, int]) -> list[tuple[int, Block]]:
    """The rows that go to each part, one block of each scan, without those that each part has."""
    found = []
    for cut in cuts:
        parts: dict[int, list[int]] = {}
        for number, item in enumerate(cut.items):
            if item in places:
                parts.setdefault(places[item], []).append(number)
        found += [(part, cut.block(some)) for part, some in parts.items()]
    return found


def whole_blocks(cuts: Sequence[Cut]) -> list[Block]:
    """The rows that each part has."""
    return [it.block([0]) for it in cuts if it.items[:1] == (("whole", it.scan),)]


def sizes_in_parts(cuts: Sequence[Cut], places: Mapping[Item, int]) -> dict[tuple[int, int], int]:
    """How many bytes of each scan lie in each part."""
    found: dict[tuple[int, int], int] = collections.defaultdict(int)
    for part, block in moved(cuts, places):
        found[part, block.scan] += block.size
    return dict(found)


class Form(NamedTuple):
    """What the jobs of all parts share: the numbers, the columns of each scan's frame, the plan and its root."""

    numbers: str
    frames: tuple[tuple[tuple[str, str], ...], ...]
    plan: str
    root: int

    def text(self, blocks: Iterable[Block]) -> bytes:
        """The job of a part: a frame for each scan."""
        held: dict[int, list[Block]] = collections.defaultdict(list)
        for it in sorted(blocks, key=lambda it: (it.scan, it.piece)):
            if it.rows:
                held[it.scan].append(it)
        found = [f'{{{self.numbers},"frames":['.encode()]
        for scan, columns in enumerate(self.frames):
            found.append(b',{"columns":[' if scan else b'{"columns":[')
            for place, (name, base) in enumerate(columns):
                head = f'{{"name":{compact(name)},"type":{compact(base)},"values":['
                found.append((f",{head}" if place else head).encode())
                found += [it.texts[place] for it in held[scan]]
                # the last comma isn't wanted
                found[-1] = found[-1].removesuffix(b",") if held[scan] else found[-1]
                found.append(b"]}")
            found.append(b"]}")
        return b"".join([*found, f'],"plan":{self.plan},"root":{self.root}}}\n'.encode()])


def form_of(
    job: Mapping[str, Any], root: int, plan: Sequence[Mapping[str, Any]], frames: Iterable[Mapping[str, str]]
) -> Form:  # fmt: skip
    """The form of parts of a job, with another root, another plan, and frames of these columns."""
    numbers = ",".join(f"{compact(it)}:{job[it]}" for it in ("version", "workers", "chunk_rows", "row_limit"))
    return Form(numbers, tuple(tuple(it.items()) for it in frames), compact(plan), root)


def scans_told(told: Mapping[str, Any], job: Mapping[str, Any], types: Sequence[Mapping[str, DType]]) -> list[Scan]:
    """The scans as `parts` tells them; `types` are those of each frame's columns."""
    found = []
    for number, it in enumerate(told["scans"]):
        if it["cut"] not in ("split", "key", "whole", "first") or job["plan"][it["node"]].get("frame") != it["frame"]:
            raise Refused(f"parts tells {it}, which isn't known here")
        key, columns = it.get("key", -1), tuple(it.get("columns", ()))
        found.append(Scan(number, it["node"], it["frame"], it["cut"], key, columns, types[it["frame"]]))
    return found


def plan_of_parts(job: Mapping[str, Any], scans: Sequence[Scan]) -> list[dict[str, Any]]:
    """The job's plan, in which each scan reads a frame of its own."""
    plan = [dict(it) for it in job["plan"]]
    for it in scans:
        plan[it.node]["frame"] = it.number
    return plan


class Turned:
    """A value that compares the other way round."""

    def __init__(self, value: Any) -> None:
        self.value = value

    def __lt__(self, other: Any) -> bool:
        return bool(other.value < self.value)

    def __eq__(self, other: object) -> bool:
        return isinstance(other, Turned) and bool(other.value == self.value)


class Order(NamedTuple):
    """The order of a sort: each column's place, whether it descends and whether nulls are last; Int128 as numbers."""

    keys: tuple[tuple[int, bool, bool, bool], ...]

    def key(self, row: Sequence[Cell]) -> tuple[Any, ...]:
        """What compares as the program orders rows."""
        found: list[Any] = []
        for place, descends, nulls_last, is_wide in self.keys:
            cell = row[place]
            if cell is None:
                found.append((2 if nulls_last else 0,))
            else:
                value: Any = int(cell) if is_wide else cell
                found.append((1, Turned(value) if descends else value))
        return tuple(found)


def order_of(sort: Mapping[str, Any], types: Mapping[str, DType]) -> Order:
    """The order of a Sort's rows: by its keys, then by all columns."""
    names, count = list(types), len(sort["by"])
    flags = [sort[it] * count if len(sort[it]) == 1 else sort[it] for it in ("descending", "nulls_last")]
    told = [*zip(sort["by"], *flags), *((it, False, False) for it in names if it not in sort["by"])]
    return Order(tuple((names.index(name), down, last, types[name].base == "Int128") for name, down, last in told))

