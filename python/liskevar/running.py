"""What Dask's workers do of a run in parts: each function is a task."""

import json
from collections.abc import Callable, Mapping, Sequence
from typing import Any, NamedTuple

from .columns import all_texts
from .csv_files import csv_lines
from .cutting import Block, Form, Order
from .dtypes import DType
from .errors import LiskevarError, NotOffered
from .plain_fields import columns_of_lines, csv_of_lines
from .program import ask, digest
from .rows import rows_of_lines

Pairs = Sequence[tuple[int, Any]]
Groups = Sequence[tuple[int, Pairs]]


class Answer(NamedTuple):
    """What the program printed of a part."""

    lines: bytes

    @property
    def rows(self) -> int:
        """How many rows these are, without the line of names."""
        return self.lines.count(b"\n") - 1

    @property
    def start(self) -> int:
        """Where the first row begins."""
        return self.lines.index(b"\n") + 1

    def some(self, skip: int, take: int) -> bytes:
        """Some rows."""
        rows = self.lines[self.start :]
        if (skip, take) == (0, self.rows):
            return rows
        return b"".join(rows.splitlines(keepends=True)[skip : skip + take])


class Task(NamedTuple):
    """What the jobs of all parts share, the program that runs them, and where their starts are told."""

    stage: str
    form: Form
    program: str
    topic: str


def attempt(work: Callable[..., Any], *given: Any, **told: Any) -> Any:
    """What the work gives, or what it is refused with: that isn't tried again, and all else that is raised is."""
    try:
        return work(*given, **told)
    except LiskevarError as error:
        if type(error) is LiskevarError:
            # a program that was ended from outside has no status of its own
            raise
        return error


def run_part(part: int, groups: Groups, whole: Sequence[Sequence[Block]], task: Task) -> Answer:
    """Has the program run a part: the blocks that came to it, and those that each part has."""
    blocks = [block for _, found in groups for _, block in found]
    return _run(part, [*blocks, *(it for some in whole for it in some)], task)


def run_range(number: int, lines: Sequence[bytes], task: Task) -> Answer:
    """Has the program sort rows that it printed of parts."""
    texts = all_texts(columns_of_lines(b"".join(lines), len(task.form.frames[0])))
    rows = sum(it.count(b"\n") for it in lines)
    return _run(number, [Block(0, 0, rows, sum(map(len, texts)), texts)], task)


def run_group(number: int, groups: Groups, task: Task) -> Answer:
    """The same of the rows that came to a range of an order, in the order of the parts that they are of."""
    found = sorted(it for _, some in groups for _, it in some)
    return run_range(number, [lines for _, lines in found], task)


def run_answers(number: int, answers: Sequence[Answer], task: Task) -> Answer:
    """The same of all rows of all parts."""
    for it in answers:
        count_of(it)
    return run_range(number, [it.lines[it.start :] for it in answers], task)


def _run(number: int, blocks: Sequence[Block], task: Task) -> Answer:
    from distributed import get_worker

    get_worker().log_event(task.topic, [task.stage, number])
    if digest() != task.program:
        raise NotOffered("a worker has another program than the one that cut the tables")
    return Answer(ask("run", task.form.text(blocks)))


def count_of(answer: Any) -> tuple[int, int]:
    """The rows of an answer, and the bytes that they have in a job."""
    if isinstance(answer, LiskevarError):
        raise answer
    return answer.rows, len(answer.lines)


def sample(answer: Answer, order: Order, count: int) -> list[tuple[Any, ...]]:
    """Some rows of an answer, as they compare."""
    lines, found = answer.lines, []
    step = max(1, (len(lines) - answer.start) // count)
    for place in range(answer.start, len(lines), step):
        # the row in which the place lies
        start = lines.rindex(b"\n", 0, place) + 1 if place > answer.start else place
        found.append(order.key(json.loads(lines[start : lines.index(b"\n", place)])))
    return found


def ranged(
    answer: Answer, part: int, order: Order, ends: Sequence[tuple[Any, ...]]
) -> list[tuple[int, tuple[int, bytes]]]:
    """The rows of an answer in the ranges of an order; each but the last ends before a row of `ends`.

    The answer is in that order, so that each range is some of its rows in a line.
    """
    stops, lines = [answer.start], answer.lines
    for it in ends:
        low, high = stops[-1], len(lines)
        while low < high:
            # the row in which the middle lies
            start = max(lines.rfind(b"\n", 0, (low + high) // 2) + 1, low)
            stop = lines.index(b"\n", start) + 1
            if order.key(json.loads(lines[start : stop - 1])) < it:
                low = stop
            else:
                high = start
        stops.append(low)
    held = [(place, lines[start:stop]) for place, (start, stop) in enumerate(zip(stops, [*stops[1:], len(lines)]))]
    return [(place, (part, some)) for place, some in held if some]


def sizes_of_ranges(pairs: Sequence[tuple[int, tuple[int, bytes]]]) -> dict[int, int]:
    """How many bytes each range has, or a few more."""
    return {place: len(lines) for place, (_, lines) in pairs}


class Written(NamedTuple):
    """The rows of a part as CSV; of one column also whether there are nulls and empty texts, which look alike."""

    text: bytes
    alike: frozenset[Any]


def csv_text(answer: Answer, skip: int, take: int, types: Mapping[str, DType], delimiter: str, null: str) -> Written:
    """Some rows of an answer as CSV."""
    names, _, _ = answer.lines.partition(b"\n")
    lines, given = answer.some(skip, take), json.loads(names)
    if len(types) > 1 and not null and given[: len(types)] == list(types):
        text = csv_of_lines(lines, len(given), list(types.values()), delimiter)
        if text is not None:
            return Written(text, frozenset())
    rows = rows_of_lines([names, *lines.splitlines()], types)
    alike = frozenset(row[0] for row in rows if row[0] in (None, "")) if len(types) == 1 and not null else frozenset()
    text = "".join(list(csv_lines(list(types), rows, delimiter, null=null))[1:]).encode(errors="replace")
    return Written(text, alike)


def some_lines(answer: Answer, skip: int, take: int) -> list[bytes]:
    """The line of names and some rows of an answer."""
    return [answer.lines.partition(b"\n")[0], *answer.some(skip, take).splitlines()]
