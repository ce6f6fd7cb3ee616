"""From a plan's nodes to the job that the program reads.

Nodes are numbered from their inputs up, left before right. Only the columns that the plan reads go into the job, and
each frame once, however many scans read it.
"""

import json
from collections.abc import Callable, Iterable, Sequence
from dataclasses import dataclass
from typing import Any, NamedTuple

from .dtypes import DType, Type
from .errors import JobTooLong, Refused, TooMany
from .expr import Expr, spelled
from .nodes import Node, fail
from .tables import Table

BYTES_OF_A_JOB = 33_554_432
MOST_NODES = 4_096
MOST_ROWS = 4_294_967_294
# How many rows a node may have where nothing else is told.
ROW_LIMIT = 10_000_000
Resolve = Callable[[Type], DType]


@dataclass(frozen=True)
class Settings:
    """The numbers of a job; none of the first two changes a row. PlanError where one is out of its range."""

    workers: int = 4
    chunk_rows: int = 65_536
    row_limit: int = ROW_LIMIT

    def __post_init__(self) -> None:
        for name, greatest in {"workers": 256, "chunk_rows": 2**32 - 1, "row_limit": MOST_ROWS}.items():
            if not 1 <= getattr(self, name) <= greatest:
                raise fail("BadConfig", f"{name} is {getattr(self, name)}, and goes from 1 to {greatest:,}")


class Plan(NamedTuple):
    """The nodes under a root, inputs before what reads them, and the numbers of each one's inputs."""

    nodes: list[Node]
    inputs: list[list[int]]


def plan_of(root: Node) -> Plan:
    """The plan of a root; TooMany past 4,096 nodes. A node that is read twice stands there twice."""
    plan = Plan([], [])
    done: list[int] = []
    waiting: list[tuple[Node, bool]] = [(root, False)]
    while waiting:
        node, is_ready = waiting.pop()
        if not is_ready:
            waiting += [(node, True), *((it, False) for it in reversed(node.inputs))]
            continue
        if len(plan.nodes) == MOST_NODES:
            words = f"the plan has more than {MOST_NODES:,} nodes"
            raise TooMany(words, fault="TooMany", node=MOST_NODES, place=root.place)
        first = len(done) - len(node.inputs)
        plan.inputs.append(done[first:])
        done[first:] = [len(plan.nodes)]
        plan.nodes.append(node)
    return plan


def _columns_of_scans(plan: Plan) -> dict[int, list[str]]:
    """The columns that each scan gives, in their order; one at least."""
    wanted, found = {len(plan.nodes) - 1: set(plan.nodes[-1].schema)}, {}
    for n, node in reversed(list(enumerate(plan.nodes))):
        wanted.update(zip(plan.inputs[n], node.reads(wanted[n])))
        if node.table is not None:
            found[n] = [it for it in node.schema if it in wanted[n]] or list(node.schema)[:1]
    return found


def check_size(what: str, size: int, times: int = 1) -> None:
    """JobTooLong, with what to do, where something has more bytes than so many jobs may have."""
    if size > times * BYTES_OF_A_JOB:
        words = f"{what}: {size:,} bytes, and a job has at most {BYTES_OF_A_JOB:,}. Take fewer columns (columns=,"
        raise JobTooLong(f"{words} --columns, select), or fewer rows of the files, or cut the files into parts")


def said_by(value: Any, root: Node) -> Any:
    """What a node is told, with its expressions as the job spells them."""
    if isinstance(value, Expr):
        return spelled(value, root.typing)
    if isinstance(value, list):
        return [said_by(it, root) for it in value]
    return {name: said_by(it, root) for name, it in value.items()} if isinstance(value, dict) else value


def compact(value: Any) -> str:
    """Compact JSON."""
    return json.dumps(value, ensure_ascii=False, separators=(",", ":"))


def encoded(text: str, what: str) -> bytes:
    """A text as UTF-8; Refused where half a character stands in it, JobTooLong where it is too much."""
    try:
        found = text.encode()
    except UnicodeEncodeError as error:
        raise Refused(f"a text isn't Unicode: {text[max(0, error.start - 20) : error.end]!r}") from None
    check_size(what, len(found))
    return found


def frames_text(
    frames: Iterable[tuple[Table, Iterable[str]]], resolve: Resolve, heights: Sequence[int] | None = None
) -> str:
    """Some columns of tables as the job spells frames, or so many nulls in each; JobTooLong as soon as they are."""
    texts, size = [], 0
    for number, (table, names) in enumerate(frames):
        types = [(it, resolve(it.type)) for it in table.columns if it.name in names]
        nulls = None if heights is None else [None] * heights[number]
        told = [(it.name, dtype.base, it.spell(dtype) if nulls is None else nulls) for it, dtype in types]
        columns = [compact({"name": name, "type": base, "values": cells}) for name, base, cells in told]
        texts.append(f'{{"columns":[{",".join(columns)}]}}')
        what = f"{table.name}, columns {', '.join(it.name for it, _ in types)}"
        size += len(encoded(texts[-1], what))
        check_size(what, size)
    return f"[{','.join(texts)}]"


def with_version(text: str, what: str) -> bytes:
    """The text of an object with its version before it: 2 where a type has 128 bits."""
    # no cell has these bytes: quotes have a backslash before them there
    version = 2 if '"type":"Int128"' in text else 1
    return encoded(f'{{"version":{version},{text}}}\n', what)


def _node_text(node: Node, inputs: list[int], root: Node) -> dict[str, Any]:
    named: dict[str, Any] = dict(zip(("left", "right") if node.kind == "Join" else ("input",), inputs))
    return {"node": node.kind, **({"inputs": inputs} if node.kind == "Union" else named), **said_by(node.said, root)}


def frames_of(plan: Plan) -> dict[Table, set[str]]:
    """The tables that the plan reads, in the order of the job's frames, and the columns of each."""
    read: dict[Table, set[str]] = {}
    for n, names in sorted(_columns_of_scans(plan).items()):
        table = plan.nodes[n].table
        assert table is not None, "scans have tables"
        read.setdefault(table, set()).update(names)
    return read


def job_text(plan: Plan, settings: Settings, heights: Sequence[int] | None = None) -> bytes:
    """The job of a plan, or the same with so many rows of nulls in its frames; JobTooLong past the limit."""
    root, scans, read = plan.nodes[-1], _columns_of_scans(plan), frames_of(plan)
    said = []
    for n, node in enumerate(plan.nodes):
        if node.table is None:
            said.append(_node_text(node, plan.inputs[n], root))
        else:
            is_whole = read[node.table] == set(scans[n]) and node.said["columns"] is None
            columns = None if is_whole else scans[n]
            said.append({"node": node.kind, "frame": list(read).index(node.table), "columns": columns})
    numbers = f'"workers":{settings.workers},"chunk_rows":{settings.chunk_rows},"row_limit":{settings.row_limit}'
    frames = frames_text(read.items(), root.typing.resolve, heights)
    text = f'{numbers},"frames":{frames},"plan":{compact(said)},"root":{len(said) - 1}'
    return with_version(text, "the job")
