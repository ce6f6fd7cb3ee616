"""A plan over tables larger than memory, run in parts by Dask: `python3 -m liskevar distribute`.

The program's command `parts` tells how each scan may be cut. Tables are read in pieces on Dask's workers and cut as it
told, a shuffle of Dask's brings what goes together to one part, the program runs each part's job, and the rows are
written as CSV. Where the plan ends in a sort, the program sorts the parts' rows; more of them than a job holds are
first brought into ranges of the order.
"""

import collections
import json
import os
import time
from collections.abc import Iterator, Mapping, Sequence
from typing import Any, NamedTuple

from . import running
from .cluster import Limits, Run, cluster
from .csv_files import csv_lines
from .cutting import (
    Fineness, Form, Item, Order, Scan, cut_piece, form_of, moved, order_of, placed, plan_of_parts, rows_of_keys,
    scans_told, sizes_in_parts, sizes_of, whole_blocks,
)  # fmt: skip
from .drawing import picture
from .dtypes import DType
from .errors import LiskevarError, Refused
from .job import Plan, Settings, compact, frames_of, job_text
from .pieces import PARQUET_ENDS, HeldPiece, LargeTable, csv_columns, csv_pieces, parquet_table
from .program import ask, digest, want
from .rows import Rows, rows_of_lines
from .running import Answer, Task
from .tables import Table

# So many blocks make a part, about.
FINE = 16
LEAST_HASHES, MOST_HASHES = 64, 2**28
# So many rows of each part tell where the ranges of an order end.
SAMPLES = 500


# How a scan is cut, as a picture tells it.
CUTS = {
    "split": "cut as rows come", "key": "cut by {}", "whole": "all of it in each part",
    "first": "all of it in the only part",
}  # fmt: skip


class Done(NamedTuple):
    """What a run came to: the parts, the rows, the seconds, and how often a part was run again."""

    parts: int
    rows: int
    seconds: float
    retried: int

    def __str__(self) -> str:
        return f"parts {self.parts}, rows {self.rows}, seconds {self.seconds:.1f}, retried {self.retried}"


class Told(NamedTuple):
    """The job with empty tables, what `parts` tells of it, and each frame's table with its types."""

    job: Mapping[str, Any]
    said: Mapping[str, Any]
    tables: Sequence[Table]
    types: Sequence[Mapping[str, DType]]

    def scans(self) -> list[Scan]:
        """The scans as they are cut."""
        return scans_told(self.said, self.job, self.types)

    def form(self, scans: Sequence[Scan], is_alone: bool = False) -> Form:
        """What the parts' jobs share: where the plan ends in a sort each part's rows are sorted, and one part alone has
        the slice too."""
        frames = [{name: it.base for name, it in scan.types.items()} for scan in scans]
        plan = plan_of_parts(self.job, scans)
        if self.said["gather"] is not None and not is_alone:
            plan[self.job["root"]]["slice"] = None
        return form_of(self.job, self.job["root"], plan, frames)


class Answers(NamedTuple):
    """The answers in the order in which they are written, each with the rows that are left out and taken."""

    futures: Sequence[Any]
    slices: Sequence[tuple[int, int]]
    parts: int

    @property
    def rows(self) -> int:
        """How many rows are written."""
        return sum(take for _, take in self.slices)


def read_csv(run: Run, path: str, columns: Sequence[str] | None = None, **told: Any) -> LargeTable:
    """The table of a CSV file in pieces, told as `scan_csv` is. Where `columns` are told no other one is asked for."""
    (pieces,) = run.finish("finding", run.map(csv_pieces, [path], told=told, size=run.limits.piece))
    names = pieces[0].names
    # what a column is whose type is told isn't asked
    read = [it for it in names if (columns is None or it in columns) and it not in (told.get("types") or {})]
    looks = run.finish("reading", run.map(_looks, pieces, read=read))
    of = {name: [found[place] for found, _ in looks] for place, name in enumerate(read)}
    made = csv_columns(path, told.get("types"), names, of)
    return LargeTable(os.path.basename(path), made, sum(height for _, height in looks), pieces)


def _looks(piece: Any, read: Sequence[str]) -> Any:
    return piece.looks(read)


def read_table(run: Run, path: str, columns: Sequence[str] | None = None, **told: Any) -> LargeTable:
    """The table of a Parquet file by its ending, and else of a CSV file."""
    if path.endswith(PARQUET_ENDS):
        return parquet_table(path, told.get("types"))
    return read_csv(run, path, columns, **told)


def ask_parts(plan: Plan, settings: Settings) -> Told:
    """What the program's `parts` tells of a plan."""
    want("parts --rows")
    read, resolve = frames_of(plan), plan.nodes[-1].typing.resolve
    heights = [it.height for it in read]
    text = job_text(plan, settings, [0] * len(heights))
    types = [{it.name: resolve(it.type) for it in table.columns if it.name in names} for table, names in read.items()]
    rows = ["--rows", ",".join(map(str, heights))]
    said = json.loads(ask("parts", text, plan.nodes, settings.row_limit, rows))
    return Told(json.loads(text), said, list(read), types)


class Cut(NamedTuple):
    """The blocks of all pieces, by the frame that they are of, and the bytes of each item."""

    blocks: Mapping[int, Sequence[Any]]
    sizes: Mapping[Item, int]
    fineness: Fineness

    def every(self) -> list[Any]:
        """The blocks of all frames."""
        return [it for some in self.blocks.values() for it in some]

    def of(self, kind: str) -> dict[Item, int]:
        """The items of a kind, with their bytes."""
        return {it: size for it, size in self.sizes.items() if it[0] == kind}

    def movable(self) -> dict[Item, int]:
        """The items that lie in one part each."""
        return {it: size for it, size in self.sizes.items() if it[0] != "whole"}


class Distribution:
    """A plan that is run in parts."""

    def __init__(self, run: Run, plan: Plan, settings: Settings) -> None:
        self.run, self.plan, self.told = run, plan, ask_parts(plan, settings)
        self.scans = self.told.scans()
        self.form = self.told.form(self.scans)
        self.types = plan.nodes[self.told.said["root"]].types()
        self.pieces = [self._pieces(*it) for it in enumerate(self.told.tables)]

    def _pieces(self, frame: int, table: Table) -> list[Any]:
        """The pieces of a table, those of one in memory put on the workers."""
        if isinstance(table, LargeTable):
            return list(table.pieces)
        types = self.told.types[frame]
        cells = {it.name: it.spell(types[it.name]) for it in table.columns if it.name in types}
        return [self.run.share(HeldPiece(cells))]

    def _of(self, frame: int) -> list[Scan]:
        return [it for it in self.scans if it.frame == frame]

    def _cut(self, fineness: Fineness) -> Cut:
        """Cuts all pieces."""
        run, blocks = self.run, {}
        for frame, pieces in enumerate(self.pieces):
            told = {"scans": self._of(frame), "fineness": fineness}
            blocks[frame] = run.map(cut_piece, pieces, range(len(pieces)), **told)
        sizes: dict[Item, int] = collections.Counter()
        for found in run.finish("cutting", run.map(sizes_of, [it for some in blocks.values() for it in some])):
            sizes.update(found)
        return Cut(blocks, sizes, fineness)

    def _room(self, cut: Cut) -> int:
        """The bytes that a job has for what isn't in each part; Refused where there are none."""
        whole, limit = cut.of("whole"), self.run.limits.job
        alone = len(self.form.text([]))
        room = limit - alone - sum(whole.values())
        if room > 0 or (room == 0 and not cut.movable()):
            return max(room, 1)
        why, refused = "", self.told.said["refused"]
        if refused:
            why = f" (the plan can't be cut: node {refused['node']}, {refused['why']})"
        names = {it.number: self.told.tables[it.frame].name for it in self.scans}
        sizes = [f"all of {names[it[1]]}, {size:,} bytes" for it, size in whole.items()]
        needs = ", and ".join([f"a plan of {alone:,} bytes", *sizes])
        raise Refused(f"each part needs {needs}{why}; a job has at most {limit:,} bytes")

    def cut(self) -> tuple[Cut, int]:
        """All pieces cut as finely as it takes, and the room for what isn't in each part."""
        limits, pieces = self.run.limits, sum(map(len, self.pieces))
        hashes = FINE * max(self.run.threads, limits.parts, pieces) if LEAST_HASHES > 1 else 1
        fineness = Fineness(max(hashes, LEAST_HASHES), max(limits.aim // FINE, 1))
        while True:
            cut = self._cut(fineness)
            room = self._room(cut)
            large = [it for it, size in cut.movable().items() if size > room]
            if not large:
                return cut, room
            if any(it[0] == "rows" for it in large):
                if fineness.bytes <= room:
                    raise Refused(f"a row has more than {room:,} bytes, and no more are left of a job")
                fineness = fineness._replace(bytes=max(room // FINE, 1))
                continue
            self._check_keys(fineness.hashes, [it for it in large if it[0] == "key"], room)
            if fineness.hashes > MOST_HASHES:
                raise Refused(f"keys whose hash is one have more than {room:,} bytes")
            fineness = fineness._replace(hashes=fineness.hashes * FINE)

    def _check_keys(self, hashes: int, wanted: Sequence[Item], room: int) -> None:
        """Refused where rows of one key have more bytes than there is room; it tells which key."""
        sizes: dict[Any, list[int]] = collections.defaultdict(lambda: [0, 0])
        for frame, pieces in enumerate(self.pieces):
            told = {"scans": self._of(frame), "hashes": hashes, "wanted": wanted}
            for found in self.run.finish("counting", self.run.map(rows_of_keys, pieces, **told)):
                for key, (size, rows) in found.items():
                    sizes[key] = [sizes[key][0] + size, sizes[key][1] + rows]
        (number, cells), (size, rows) = max(sizes.items(), key=lambda it: it[1][0])
        if size > room:
            names = next(it.columns for it in self.scans if it.key == number)
            key = ", ".join(f"{name} {compact(cell)}" for name, cell in zip(names, cells))
            words = f"the key {key} is too frequent: its {rows:,} rows have {size:,} bytes"
            raise Refused(f"{words}, go into one part, and a job has room for {room:,} of them")

    def placed(self) -> tuple[Cut, dict[Item, int], int]:
        """All pieces cut, the part of each item, and the number of parts."""
        run, (cut, room) = self.run, self.cut()
        movable = cut.movable()
        size = sum(movable.values())
        # many times as many parts as there are workers are only more work for Dask
        aim = max(run.limits.aim, min(size // (8 * run.threads), room * 3 // 4))
        return cut, *placed(movable, room, run.limits.parts or max(run.threads, -(-size // aim)))

    def _parts(self) -> list[Any]:
        """The answers of all parts. What was cut is nobody's behind this, and is given up when the parts have it."""
        run, (cut, places, parts) = self.run, self.placed()
        pairs = run.map(moved, cut.every(), [run.share(places)] * len(cut.every()))
        whole = [it for frame, some in cut.blocks.items() if any(it.is_whole for it in self._of(frame)) for it in some]
        blocks = run.map(whole_blocks, whole)
        form = self.told.form(self.scans, is_alone=True) if parts == 1 else self.form
        task = Task("part", form, digest(), run.topic)
        groups = run.grouped(pairs, parts)
        return run.compute(running.run_part, [(part, it, blocks, task) for part, it in enumerate(groups)])

    def answers(self) -> Answers:
        """Runs all parts, and what gathers their rows."""
        futures = self._parts()
        counts, parts = self._finished("running", futures), len(futures)
        if self.told.said["gather"] is not None and parts > 1:
            return self._gathered(futures, counts)._replace(parts=parts)
        return Answers(futures, [(0, rows) for rows, _ in counts], parts)

    def picture(self) -> str:
        """The plan with how each scan is cut, and the bytes of each part below it; no part is run."""
        cut, places, parts = self.placed()
        sizes: dict[tuple[int, int], int] = collections.Counter()
        for found in self.run.finish("placing", self.run.map(sizes_in_parts, cut.every(), places=places)):
            sizes.update(found)
        whole, names = cut.of("whole"), [self.told.tables[it.frame].name for it in self.scans]
        lines = []
        for part in range(parts):
            held = [(it, whole.get(("whole", it.number), sizes.get((part, it.number), 0))) for it in self.scans]
            told = [f"{names[it.number]} {size:,}{' (all)' if it.is_whole else ''}" for it, size in held]
            lines.append(", ".join(told))
        notes = {it.node: CUTS[it.cut].format(", ".join(it.columns)) for it in self.scans}
        if self.told.said["gather"] is not None:
            notes[len(self.plan.nodes) - 1] = "over the rows of all parts"
        return picture(self.plan, lines, notes, "bytes of part")

    def _finished(self, stage: str, futures: Sequence[Any]) -> list[tuple[int, int]]:
        """The rows and bytes of each answer; where a part is refused, at the user's call that made the node."""
        try:
            return self.run.finish(stage, self.run.map(running.count_of, futures))
        except LiskevarError as error:
            if error.node is None or stage != "running" or error.node >= len(self.plan.nodes):
                raise
            place, words = self.plan.nodes[error.node].place, f"a part: {error.words}"
            raise type(error)(words, fault=error.fault, node=error.node, place=place, why=error.why) from None

    def _gathered(self, futures: Sequence[Any], counts: Sequence[tuple[int, int]]) -> Answers:
        """The parts' rows, sorted: in one job where they fit it, and else in ranges of the order."""
        run, (scan, sort) = self.run, self.told.said["gather"]
        columns = [{name: it.base for name, it in self.types.items()}]
        form = form_of(self.told.job, 1, [scan, sort], columns)
        size, limit = sum(size for _, size in counts), run.limits.job - len(form.text([]))
        if size <= limit:
            sorted_ = run.compute(running.run_answers, [(0, futures, Task("gather", form, digest(), run.topic))])
        else:
            form = form_of(self.told.job, 1, [scan, {**sort, "slice": None}], columns)
            groups, ranges = self._ranged(futures, order_of(sort, self.types), counts, limit)
            task = Task("gather", form, digest(), run.topic)
            sorted_ = run.compute(running.run_group, [(it, groups[it], task) for it in range(ranges)])
        rows = [found for found, _ in self._finished("sorting", sorted_)]
        slices = _slices(rows, sort["slice"] if size > limit else None)
        return Answers(sorted_, slices, 0)

    def _ranged(
        self, futures: Sequence[Any], order: Order, counts: Sequence[tuple[int, int]], limit: int
    ) -> tuple[list[Any], int]:
        """The parts' rows in ranges of an order, each of which a job holds."""
        run = self.run
        told = {"order": order, "count": SAMPLES}
        keys = sorted(it for some in run.finish("sampling", run.map(running.sample, futures, **told)) for it in some)
        ranges = max(run.threads, 1 + sum(size for _, size in counts) // min(run.limits.aim, limit // 2 + 1))
        ends = [keys[len(keys) * it // ranges] for it in range(1, ranges)]
        pairs = run.map(running.ranged, futures, range(len(futures)), order=order, ends=ends)
        sizes: dict[int, int] = collections.Counter()
        for found in run.finish("ranging", run.map(running.sizes_of_ranges, pairs)):
            sizes.update(found)
        if max(sizes.values()) > limit:
            words = f"a range of the order has {max(sizes.values()):,} bytes, and a job has at most {limit:,}"
            raise Refused(f"{words}: rows that are alike in the order don't fit one job")
        return run.grouped(pairs, ranges), ranges


def _slices(rows: Sequence[int], cut: Sequence[int] | None) -> list[tuple[int, int]]:
    """How many rows of each answer are left out and taken, where of all rows together a slice is wanted."""
    if cut is None:
        return [(0, it) for it in rows]
    found, start, end = [], cut[0], cut[0] + cut[1]
    before = 0
    for it in rows:
        skip = min(max(start - before, 0), it)
        found.append((skip, max(min(end - before, it) - skip, 0)))
        before += it
    return found


def _in_order(run: Run, answers: Answers, work: Any, **told: Any) -> Iterator[Any]:
    """What the work makes of each answer, as it comes and in order."""
    skips, takes = zip(*answers.slices)
    return run.in_order("writing", run.map(work, answers.futures, skips, takes, **told))


def collect(run: Run, plan: Plan, settings: Settings, types: Mapping[str, DType]) -> tuple[Rows, Done]:
    """The rows of a plan, in memory."""
    made = Distribution(run, plan, settings).answers()
    rows: list[tuple[Any, ...]] = []
    for lines in _in_order(run, made, running.some_lines):
        rows += rows_of_lines(lines, types)
    return Rows(types, rows), _done(run, made)


def write_csv(
    run: Run, plan: Plan, settings: Settings, types: Mapping[str, DType], file: Any, delimiter: str = ",",
    null: str = "",
) -> Done:  # fmt: skip
    """Writes the rows of a plan to a file of bytes."""
    made = Distribution(run, plan, settings).answers()
    alike: set[Any] = set()
    for text in csv_lines(list(types), [], delimiter, null=null):
        file.write(text.encode(errors="replace"))
    for it in _in_order(run, made, running.csv_text, types=types, delimiter=delimiter, null=null):
        alike |= it.alike
        # refuses nulls and empty texts of one column
        list(csv_lines(list(types), [(value,) for value in alike], delimiter, null=null))
        file.write(it.text)
    return _done(run, made)


def _done(run: Run, made: Answers) -> Done:
    return Done(made.parts, made.rows, time.monotonic() - run.start, run.retried())


def distribute(
    plan: Plan, types: Mapping[str, DType], scheduler: str | None = None, local: int | None = None,
    parts: int = 0, **numbers: int,
) -> Rows:  # fmt: skip
    """The rows of a plan over tables in memory or in pieces, run in parts."""
    with cluster(scheduler, local) as client:
        return collect(Run(client, Limits(parts=parts)), plan, Settings(**numbers), types)[0]
