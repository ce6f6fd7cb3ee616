"""The tables that a query sees, and how two of them are joined."""

from collections.abc import Mapping
from dataclasses import dataclass, field, replace
from typing import Any

from . import nodes as plan
from .expr import Expr, Schema, all_of, col, lit
from .nodes import Joining, Node
from .sql_text import Text, bare, match

EQUALITIES = ("eq", "nullsafeeq", "is")
Moved = Mapping[str, str | None]
BLURRED = "after USING in an outer join {!r} isn't one table's column; write it without its table"


@dataclass(frozen=True)
class Scope:
    """A node of the plan, the tables whose columns it has, and the columns that USING made one of several.

    Of each table the names of its columns in the plan. None stands for a column that USING made one with another
    table's: in an outer join it isn't the table's own any more.
    """

    text: Text
    node: Node
    tables: dict[str, dict[str, str | None]]
    shared: dict[str, str] = field(default_factory=dict)

    def places(self, name: str, table: str = "") -> list[tuple[str, str | None]]:
        """The columns that a name may mean: as written, and in the plan."""
        shared = None if table else match(name, self.shared)
        if shared is not None:
            return [(shared, self.shared[shared])]
        tables = [columns for it, columns in self.tables.items() if not table or match(table, [it]) is not None]
        found = ((match(name, columns), columns) for columns in tables)
        return [(written, columns[written]) for written, columns in found if written is not None]

    def column(self, name: str, table: str, at: Any) -> tuple[str, str]:
        """The column of a name, as written and in the plan; SqlError where it is none, or several."""
        found = self.places(name, table)
        if len(found) > 1:
            raise self.text.refuse(at, f"{name!r} is a column of several tables; write one of them before it")
        if not found:
            names = [f"{alias}.{it}" for alias, columns in self.tables.items() for it in columns]
            raise self.text.refuse(at, f"no column {f'{table}.' if table else ''}{name}; there are {', '.join(names)}")
        written, real = found[0]
        if real is None:
            raise self.text.refuse(at, BLURRED.format(name))
        return written, real

    def find(self, node: Any) -> Expr:
        """The column that a part of the query names."""
        return col(self.column(node.name, node.table, node)[1])

    def expression(self, node: Any) -> Expr:
        """An expression over the columns."""
        return self.text.expression(node, self.find)


@dataclass
class Sides:
    """Two scopes, and the conditions under which their rows meet.

    A condition is a pair of keys, or one of the left or of the right side alone, or mixed. In a nested query the right
    side's names come first.
    """

    text: Text
    left: Scope
    right: Scope
    is_nested: bool = False
    pairs: list[tuple[Expr, Expr]] = field(default_factory=list)
    null_safe: list[Any] = field(default_factory=list)
    of_left: list[Expr] = field(default_factory=list)
    of_right: list[Expr] = field(default_factory=list)
    mixed: list[Any] = field(default_factory=list)
    using: dict[str, tuple[str, str]] = field(default_factory=dict)

    def tie(self, left: Expr, right: Expr, null_safe: Any = None) -> None:
        """A pair of keys; nulls meet where a condition that is null-safe is told."""
        self.pairs.append((left, right))
        self.null_safe.append(null_safe)

    def _having(self, column: Any) -> list[int]:
        """The sides that have a column: 0 for the left one, 1 for the right one."""
        return [n for n, it in enumerate((self.left, self.right)) if it.places(column.name, column.table)]

    def _side(self, column: Any) -> int:
        found = self._having(column)
        if not found or (len(found) > 1 and not self.is_nested):
            # tells that the name is none or several
            replace(self.left, tables=self.left.tables | self.right.tables, shared={}).find(column)
        return found[-1]

    def _sides(self, node: Any) -> list[int]:
        return sorted({self._side(it) for it in self.text.columns(node)})

    def _expr(self, node: Any) -> Expr:
        scopes = self.left, self.right
        return self.text.expression(node, lambda column: scopes[self._side(column)].find(column))

    def _ends(self, node: Any) -> list[Any]:
        """The ends of an equality between the two sides, left before right; none of all else."""
        ends = [node.this, node.expression] if node.key in EQUALITIES else []
        sides = [self._sides(it) for it in ends]
        return ends if sides == [[0], [1]] else ends[::-1] if sides == [[1], [0]] else []

    def is_link(self, node: Any) -> bool:
        """Whether it is an equality between the two sides, all of whose columns they have."""
        return all(len(self._having(it)) == 1 for it in self.text.columns(node)) and bool(self._ends(bare(node)))

    def add(self, node: Any) -> None:
        """One more condition."""
        node = bare(node)
        sides, ends = self._sides(node), self._ends(node)
        if len(sides) < 2:
            (self.of_right if sides == [1] else self.of_left).append(self._expr(node))
        elif ends:
            self.tie(self._expr(ends[0]), self._expr(ends[1]), node if node.key != "eq" else None)
        else:
            self.mixed.append(node)

    def _check(self, how: str) -> None:
        if self.mixed and how != "inner":
            words = "a condition of both tables that is no equality can't be taken in outer joins and subqueries"
            raise self.text.refuse(self.mixed[0], words)
        safe = [it for it in self.null_safe if it is not None]
        if safe and len(safe) < len(self.null_safe):
            raise self.text.refuse(safe[0], "an equality that takes nulls stands beside others that don't")

    def joined(self, how: str) -> Scope:
        """The rows that meet, and what a left, full, semi or anti join adds or keeps."""
        self._check(how)
        left, right, pairs = self.left.node, self.right.node, list(self.pairs)
        if self.of_left and how in ("inner", "semi"):
            left = plan.filtered(left, all_of(self.of_left))
        elif self.of_left:
            # a row of a left join whose own condition isn't true has no partner: a key that must be true
            pairs.append((all_of(self.of_left), lit(True)))
        if self.of_right and how != "full":
            right = plan.filtered(right, all_of(self.of_right))
        elif self.of_right:
            pairs.append((lit(True), all_of(self.of_right)))
        if not pairs:
            how, pairs = ("cross", []) if how == "inner" else (how, [(lit(True), lit(True))])
        joining, names = self._names(how, left.schema, right.schema)
        node = plan.joined(left, right, [a for a, _ in pairs], [b for _, b in pairs], joining)
        scope = replace(self.left, node=node) if how in ("semi", "anti") else self._scope(node, how, names)
        mixed = [scope.expression(it) for it in self.mixed]
        return replace(scope, node=plan.filtered(node, all_of(mixed))) if mixed else scope

    def _names(self, how: str, left: Schema, right: Schema) -> tuple[Joining, dict[str, str]]:
        """How the join is made, with a suffix so that no name stands twice; and the names of the right columns."""
        nulls, suffix = any(it is not None for it in self.null_safe), f"_{next(iter(self.right.tables))}"
        while True:
            joining = Joining(how, nulls, "CoalesceColumns" if self.using else "KeepColumns", suffix)
            names = joining.names(left, right, [it for _, it in self.using.values()])
            if len({*left, *names.values()}) == len(left) + len(names):
                return joining, names
            suffix += "_"

    def _scope(self, node: Node, how: str, names: dict[str, str]) -> Scope:
        """The tables of both sides over their join."""
        # a key that became one column is everybody's own in an inner join, and the left side's in a left one
        of_left: Moved = {left: left if how in ("inner", "left") else None for left, _ in self.using.values()}
        of_right: Moved = {**names, **{right: left if how == "inner" else None for left, right in self.using.values()}}
        tables = {}
        for moved, side in ((of_left, self.left), (of_right, self.right)):
            for alias, columns in side.tables.items():
                tables[alias] = {name: real and moved.get(real, real) for name, real in columns.items()}
        shared = {name: names.get(real, real) for name, real in self.right.shared.items()}
        shared |= self.left.shared | {name: left for name, (left, _) in self.using.items()}
        return Scope(self.text, node, tables, shared)
