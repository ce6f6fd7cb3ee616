"""A query's text: its tree, the places of its parts, and its expressions."""

import contextlib
from collections.abc import Callable, Iterable, Iterator
from decimal import Decimal
from typing import Any

from .errors import PlanError, Refused, SqlError
from .expr import Expr, all_of, any_of, lit
from .places import Place, told_as

# Operations of two parts, by sqlglot's names; those that compare nulls too have no one word in a plan.
PAIRS = {
    "eq": "eq", "neq": "not_eq", "lt": "lt", "lte": "lt_eq", "gt": "gt", "gte": "gt_eq", "add": "add", "sub": "sub",
    "mul": "mul", "and": "and", "or": "or", "is": "", "nullsafeeq": "", "nullsafeneq": "",
}  # fmt: skip
Find = Callable[[Any], Expr]


def bare(node: Any) -> Any:
    """A node without the brackets round it."""
    while node.key == "paren":
        node = node.this
    return node


def match(text: str, names: Iterable[str]) -> str | None:
    """The name that is meant: the same one, or the only one that differs in capitals alone."""
    alike = [it for it in names if it.lower() == text.lower()]
    return text if text in alike else alike[0] if len(alike) == 1 else None


def conjuncts(node: Any) -> list[Any]:
    """The parts of a chain of AND; none of no condition."""
    if node is None:
        return []
    node = bare(node)
    return conjuncts(node.this) + conjuncts(node.expression) if node.key == "and" else [node]


class Text:
    """A query that was read. Each part of its tree knows the token at which it ended being read."""

    def __init__(self, query: str) -> None:
        try:
            from sqlglot import __version__, errors, exp, parser, tokens
        except ImportError as error:
            raise Refused("sqlglot isn't there: SQL wants it (Debian's python3-sqlglot)") from error
        if not __version__.startswith("10."):
            raise Refused(f"sqlglot {__version__} is there, and SQL wants version 10 (Debian's python3-sqlglot)")
        self.query, self.exp = query, exp
        self.marks: dict[int, tuple[Any, int]] = {}
        marks = self.marks

        class Marking(parser.Parser):  # type: ignore[misc]
            """sqlglot's parser, which also notes where each part stands."""

            def expression(self, exp_class: Any, comments: Any = None, **kwargs: Any) -> Any:
                made = super().expression(exp_class, comments, **kwargs)
                marks[id(made)] = (made, self._index - 1)
                return made

        try:
            self.tokens = tokens.Tokenizer().tokenize(query)
            trees = Marking(null_ordering="nulls_are_small").parse(self.tokens, query)
        except errors.ParseError as error:
            told = (error.errors or [{}])[0]
            words = str(told.get("description") or error).strip().rstrip(".")
            raise SqlError(words, query, told.get("line") or 1, told.get("col") or 1) from None
        except (errors.SqlglotError, ValueError, RuntimeError, IndexError) as error:
            raise SqlError(f"no SQL: {error}", query, 1, 1) from None
        if len(trees) != 1 or trees[0] is None:
            raise SqlError("one query is wanted", query, 1, 1)
        self.tree = trees[0]

    def _index(self, node: Any) -> int:
        """The first token of a part, as far as it is known."""
        marked = [(it, self.marks[id(it)][1]) for it, *_ in node.walk() if id(it) in self.marks]
        first = min((index - (2 if it.key == "column" and it.table else 0) for it, index in marked), default=0)
        is_call = type(node).__mro__[1].__name__ in ("Func", "AggFunc") and id(node) not in self.marks
        return max(first - 2, 0) if is_call else first

    def where(self, node: Any, *words: str) -> tuple[int, int]:
        """The line and column of a part, or of the last of some words before its end."""
        index = self._index(node)
        before = (it for it in range(index, -1, -1) if self.tokens[it].text.upper().split(" ")[0] in words)
        token = self.tokens[next(before, index)]
        kind = token.token_type.name
        quotes = 2 + token.text.count("'") if kind == "STRING" else 2 if kind == "IDENTIFIER" else 0
        return token.line, max(1, token.col - quotes)

    def refuse(self, node: Any, words: str, *near: str) -> SqlError:
        """The error of a part that can't be taken."""
        return SqlError(words, self.query, *self.where(node, *near))

    def place(self, node: Any) -> Place:
        """The place of a part."""
        return Place("line {}, column {} of the query".format(*self.where(node)))

    @contextlib.contextmanager
    def at(self, node: Any) -> Iterator[None]:
        """What is made inside stands at a part of the query, and so do its errors."""
        with told_as(str(self.place(node))):
            try:
                yield
            except PlanError as error:
                raise self.refuse(node, error.words) from None

    def columns(self, node: Any) -> list[Any]:
        """The columns in a part, from left to right."""
        return sorted(node.find_all(self.exp.Column), key=self._index)

    def has_query(self, node: Any) -> bool:
        """Whether a part has a query in it."""
        return node.find(self.exp.Subqueryable) is not None

    def expression(self, node: Any, find: Find) -> Expr:
        """An expression over the columns that `find` finds; SqlError where it has none."""
        node = bare(node)
        if node.key == "column" and node.this.key == "identifier":
            return find(node)
        if node.key in ("literal", "boolean", "null"):
            return self._literal(node)
        if node.key == "not":
            return ~self.expression(node.this, find)
        if node.key == "neg":
            inner = self.expression(node.this, find)
            return lit(-inner.value) if inner.op == "lit" and inner.value is not None else -inner
        if node.key == "in" and node.expressions and not self.has_query(node):
            return any_of([self.expression(node.this, find) == self.expression(it, find) for it in node.expressions])
        if node.key == "between" or node.key in PAIRS:
            parts = ("this", "low", "high") if node.key == "between" else ("this", "expression")
            return _operation(node.key, *(self.expression(node.args[it], find) for it in parts))
        if self.has_query(node):
            raise self.refuse(node, "a subquery stands in FROM, or in WHERE as EXISTS or IN, and nowhere else")
        words = "can't be taken: expressions have columns, values, + - *, comparisons, AND, OR, NOT"
        raise self.refuse(node, f"{node.sql()} {words}")

    def _literal(self, node: Any) -> Expr:
        if node.key != "literal" or node.is_string:
            return lit({"null": None, "boolean": bool(node.this)}.get(node.key, node.name))
        if not node.name.replace(".", "", 1).isdigit() or len(node.name) > 60:
            raise self.refuse(node, f"{node.name} is no number of exact digits")
        return lit(Decimal(node.name) if "." in node.name else int(node.name))


def _operation(key: str, left: Expr, right: Expr, high: Any = None) -> Expr:
    """An operation of two parts, and BETWEEN of three."""
    if key == "between":
        return all_of([left >= right, left <= high])
    if PAIRS[key]:
        return left._with(PAIRS[key], right)
    if right.op == "lit" and right.value is None:
        return left.is_not_null() if key == "nullsafeneq" else left.is_null()
    same = ((left == right) & left.is_not_null() & right.is_not_null()) | (left.is_null() & right.is_null())
    return ~same if key == "nullsafeneq" else same
