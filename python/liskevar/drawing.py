"""Plans as pictures (SVG): nodes with their words, columns and types, and the pipelines that the program tells."""

import html
import itertools
import textwrap
from collections.abc import Callable, Mapping, Sequence
from typing import Any

from .expr import written
from .job import Plan
from .nodes import Node

WIDEST = 46
LINE, GLYPH, FONT = 17, 7.3, 'font-family="monospace" font-size="12"'
FILLS = {"DataFrameScan": "#eef5fb", "Join": "#fdf3e4", "Sort": "#eef7ee", "Union": "#fdf3e4"}
ARROW = (
    '<defs><marker id="to" markerWidth="9" markerHeight="9" refX="8" refY="4" orient="auto">'
    '<path d="M0,0 L8,4 L0,8 z" fill="#555"/></marker></defs>'
)
LINK = 'stroke="#555" fill="none" marker-end="url(#to)"'


class Picture(str):
    """The text of a picture; notebooks show it."""

    def _repr_svg_(self) -> str:
        return str(self)


def _printable(glyph: str) -> str:
    """A character that XML can hold: of what it can't, and of what nobody would see, the picture or the number."""
    code = ord(glyph)
    if code < 32:
        return chr(0x2400 + code)
    is_plain = glyph.isprintable() and not 0xD800 <= code < 0xE000 and code & 0xFFFE != 0xFFFE
    return glyph if is_plain else f"<U+{code:04X}>"


def _builds_right(said: dict[str, Any]) -> bool:
    """Whether a join builds its right side: in a left join, and else where the left is said to be larger."""
    (left, left_guess), (right, right_guess) = said["rows_left"], said["rows_right"]
    is_known = left is not None and right is not None
    return bool(said["how"] == "left" or (left > right if is_known else left_guess > right_guess))


def _join_words(said: dict[str, Any]) -> str:
    pairs = ", ".join(f"{written(a)} = {written(b)}" for a, b in zip(said["left_on"], said["right_on"]))
    nulls = ", nulls meet" if said["join_nulls"] else ""
    return f"{said['how']}{' on ' + pairs if pairs else ''}{nulls}; builds {'right' if _builds_right(said) else 'left'}"


def _sort_words(said: dict[str, Any]) -> str:
    keys = []
    for name, descending, nulls_last in zip(said["by"], said["descending"], said["nulls_last"]):
        keys.append(f"{name} {'↓' if descending else '↑'}{' nulls last' if nulls_last else ''}")
    cut = "" if said["slice"] is None else f"; {said['slice'][1]} rows from row {said['slice'][0]}"
    return f"by {', '.join(keys)}{cut}"


# What a node is told, in a line; of a projection and of a union the columns say all.
WORDS: dict[str, Callable[[dict[str, Any]], str]] = {
    "Filter": lambda said: written(said["predicate"]),
    "Select": lambda said: ", ".join(f"{it['name']} = {written(it['expr'])}" for it in said["exprs"]),
    "HStack": lambda said: WORDS["Select"](said),
    "Unpivot": lambda said: f"on {', '.join(said['on'])}",
    "Rename": lambda said: ", ".join(f"{it['existing']} as {it['new']}" for it in said["pairs"]),
    "Join": _join_words,
    "Sort": _sort_words,
}


def _lines(n: int, node: Node, note: str) -> list[str]:
    """The lines of a node's box, the note last; what would be the seventh of a part isn't told."""
    words = WORDS[node.kind](node.said) if node.kind in WORDS else ""
    words = f"{node.table.name}, {node.rows:,} rows" if node.table else words
    columns = ", ".join(f"{name} {dtype}" for name, dtype in node.types().items())
    shown = ("".join(map(_printable, it)) for it in (f"{n}  {node.kind}", words, columns, note))
    told = {"subsequent_indent": "  ", "max_lines": 6, "placeholder": " …"}
    return [line for it in shown for line in textwrap.wrap(it, WIDEST, **told)]  # type: ignore[arg-type]


def _places(plan: Plan) -> list[tuple[int, int]]:
    """The column and the row of each box: a step nearer to the root is a column further right, and the ways to a node
    stand below each other, so that no two lines cross."""
    root = len(plan.nodes) - 1
    steps, row, rows, waiting = {root: 0}, {}, 0, [root]
    while waiting:
        n = waiting.pop()
        row[n] = rows
        rows += 0 if plan.inputs[n] else 1
        steps.update((it, steps[n] + 1) for it in plan.inputs[n])
        waiting += reversed(plan.inputs[n])
    last = max(steps.values())
    return [(last - steps[n], row[n]) for n in range(root + 1)]


def _text_at(x: float, y: float, text: str) -> str:
    return f'<text x="{x}" y="{y}" {FONT} xml:space="preserve">{html.escape(text)}</text>'


def _lengths(at: Sequence[int], sizes: Sequence[int], gap: int) -> tuple[list[int], list[int]]:
    """The lengths of rows or columns of boxes, each that of its longest box, and where they begin."""
    lengths = [max(size for place, size in zip(at, sizes) if place == it) for it in range(max(at) + 1)]
    return lengths, list(itertools.accumulate(lengths, lambda start, length: start + length + gap, initial=20))


def picture(plan: Plan, told: Sequence[str] = (), notes: Mapping[int, str] = {}, word: str = "pipeline") -> str:
    """The picture of a plan, with notes in the boxes of some nodes; below it the lines that are `told`, each behind the
    word and its number: the program's `explain` tells pipelines."""
    texts, at = [_lines(n, it, notes.get(n, "")) for n, it in enumerate(plan.nodes)], _places(plan)
    columns, rows = zip(*at)
    boxes = [14 + LINE * len(it) for it in texts]
    widths, lefts = _lengths(columns, [20 + round(GLYPH * max(map(len, it))) for it in texts], 45)
    _, tops = _lengths(rows, boxes, 24)
    parts = []
    for n, (column, row) in enumerate(at):
        x, y = lefts[column], tops[row]
        for i in plan.inputs[n]:
            a, b = lefts[at[i][0]] + widths[at[i][0]], tops[at[i][1]] + 30
            parts.append(f'<path d="M{a},{b} L{x - 30},{b} L{x},{y + 30}" {LINK}/>')
        size, fill = f'width="{widths[column]}" height="{boxes[n]}"', FILLS.get(plan.nodes[n].kind, "white")
        parts.append(f'<rect x="{x}" y="{y}" {size} rx="4" fill="{fill}" stroke="#555"/>')
        parts += [_text_at(x + 9, y + 19 + LINE * k, line) for k, line in enumerate(texts[n])]
    below = tops[-1] + 10
    lines = ["".join(map(_printable, f"{word} {k}: {line}")) for k, line in enumerate(told, start=1)]
    parts += [_text_at(20, below + 20 * k, line) for k, line in enumerate(lines)]
    right = max(lefts[-1] - 25, 40 + 8 * max(map(len, lines), default=0))
    size = f'width="{right}" height="{below + 20 * len(lines) - 14}"'
    head = f'<svg xmlns="http://www.w3.org/2000/svg" {size}><rect width="100%" height="100%" fill="white"/>{ARROW}'
    return "\n".join([head, *parts, "</svg>\n"])
