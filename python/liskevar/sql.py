"""SQL over frames, read by sqlglot: selects, all joins, subqueries, EXISTS and IN, UNION ALL, ORDER BY, LIMIT.

What the program can't do (grouping, DISTINCT, functions, CASE, ..) is refused with its line and column in the query.
"""

from collections.abc import Mapping, Sequence
from dataclasses import replace
from typing import Any

from . import nodes as plan
from .expr import Expr, all_of, col, lit
from .frame import HIDDEN, LazyFrame, Order, concat
from .nodes import Key
from .sql_scope import BLURRED, Scope, Sides
from .sql_text import Text, bare, conjuncts, match

MOST = 2**63 - 1
# What a select may have; all else is refused by the word that begins it.
TAKEN = ("expressions", "from", "joins", "where", "order", "limit", "offset", "with", "this", "expression", "distinct")
WORDS = {"windows": "WINDOW", "laterals": "LATERAL"}


def sql(query: str, tables: Mapping[str, LazyFrame] | None = None, **more: LazyFrame) -> LazyFrame:
    """The frame that a query gives over tables; SqlError with a place where it can't be taken."""
    text = Text(query)
    return Query(text, {**(tables or {}), **more}).query(text.tree)


def _orders(node: Any) -> list[Any]:
    return list(node.args["order"].expressions) if node.args.get("order") else []


class Query:
    """A query, and the tables that it may name."""

    def __init__(self, text: Text, tables: Mapping[str, LazyFrame]) -> None:
        self.text, self.tables = text, dict(tables)

    def query(self, node: Any) -> LazyFrame:
        """A select, or selects that UNION ALL puts together."""
        node = bare(node)
        self._name_ctes(node)
        if node.key == "union":
            return self._union(node)
        if node.key == "subquery":
            return self.query(node.this)
        if node.key != "select":
            raise self.text.refuse(node, f"{node.key.upper()} can't be taken; a query is a SELECT", node.key.upper())
        return self._select(node)

    def _name_ctes(self, node: Any) -> None:
        """The queries of WITH become tables."""
        found = node.args.get("with")
        if found is not None and found.args.get("recursive"):
            raise self.text.refuse(found, "WITH RECURSIVE can't be taken", "RECURSIVE", "WITH")
        for cte in found.expressions if found is not None else ():
            self.tables[cte.alias] = Query(self.text, self.tables).query(cte.this)

    def _refuse_rest(self, node: Any) -> None:
        for name, value in node.args.items():
            if value and name not in TAKEN:
                word = WORDS.get(name, name.upper())
                at = value[0] if isinstance(value, list) else value
                words = f"{word} can't be taken: the program doesn't group, and has no such clause"
                raise self.text.refuse(at, words, word)
        if node.args.get("distinct") and node.key == "select":
            raise self.text.refuse(node, "DISTINCT can't be taken: the program keeps equal rows", "DISTINCT")

    def _hoist(self, node: Any) -> None:
        """What stands behind the last select of a union is the union's: sqlglot hangs it on that select."""
        if node.key == "union":
            self._hoist(node.expression)
            for name in ("order", "limit", "offset"):
                if node.expression.key in ("select", "union") and node.expression.args.get(name):
                    node.set(name, node.expression.args.pop(name))

    def _union(self, node: Any) -> LazyFrame:
        self._hoist(node)
        self._refuse_rest(node)
        if type(node).__name__ != "Union" or node.args.get("distinct"):
            words = "UNION, EXCEPT and INTERSECT drop equal rows, which the program can't; UNION ALL keeps them"
            raise self.text.refuse(node.expression, words, "UNION", "EXCEPT", "INTERSECT")
        left, right = self.query(node.this), self.query(node.expression)
        if len(left.columns) != len(right.columns):
            raise self.text.refuse(node.expression, f"{len(right.columns)} columns under {len(left.columns)}")
        with self.text.at(node.expression):
            named = [(new, col(old)) for new, old in zip(left.columns, right.columns)]
            made = concat([left, LazyFrame(right._seen())._selected(named)])
        names = []
        for it in _orders(node):
            name = self._output_key(it, made.columns)
            if name is None:
                words = f"no column {it.this.sql()} to order by; there are {', '.join(made.columns)}"
                raise self.text.refuse(it.this, words)
            names.append(name)
        return self._ended(node, made, names)

    def _output_key(self, ordered: Any, names: Sequence[str]) -> str | None:
        """The output column that a key of ORDER BY names, by its name or its number."""
        key = bare(ordered.this)
        if key.key != "literal" or key.is_string:
            return match(key.name, names) if key.key == "column" and not key.table else None
        if not key.name.isdigit() or not 1 <= int(key.name) <= len(names):
            raise self.text.refuse(key, f"there is no column {key.name}: the query gives {len(names)}")
        return names[int(key.name) - 1]

    def _ended(self, node: Any, frame: LazyFrame, names: Sequence[str], hidden: Sequence[str] = ()) -> LazyFrame:
        """ORDER BY these columns, LIMIT and OFFSET; of a column that stands twice the first counts."""
        keys: dict[str, Key] = {}
        for it, name in zip(_orders(node), names):
            keys.setdefault(name, Key(name, bool(it.args.get("desc")), not it.args.get("nulls_first")))
        order = Order(tuple(keys.values()), self.text.place(node.args["order"])) if keys else Order()
        frame = LazyFrame(frame._node, order, hidden)
        offset, limit = (self._number(node.args.get(it)) for it in ("offset", "limit"))
        if offset is None and limit is None:
            return frame
        with self.text.at(node.args.get("limit") or node.args["offset"]):
            return frame.slice(offset or 0, MOST if limit is None else limit)

    def _number(self, clause: Any) -> int | None:
        if clause is None:
            return None
        if clause.key not in ("limit", "offset") or not clause.expression or not clause.expression.name.isdigit():
            raise self.text.refuse(clause, "LIMIT and OFFSET take whole numbers")
        return min(int(clause.expression.name[-40:]), MOST)

    def _select(self, node: Any) -> LazyFrame:
        self._refuse_rest(node)
        scope, where = self._from(node)
        scope = self._where(scope, where)
        outputs: dict[str, Expr] = {}
        for name, expr in (output for it in node.expressions for output in self._outputs(it, scope)):
            free = name
            while free in outputs:
                free = f"{name}_{sum(key.startswith(name) for key in outputs) + 1}"
            outputs[free] = expr
        keys: list[str] = []
        hidden: dict[str, Expr] = {}
        for it in _orders(node):
            found = self._output_key(it, list(outputs))
            if found is None:
                expr = scope.expression(it.this)
                same = (name for name, out in outputs.items() if out.op == "col" == expr.op and out.value == expr.value)
                found = next(same, f"{HIDDEN}{len(hidden)}")
                hidden |= {} if found in outputs else {found: expr}
            keys.append(found)
        with self.text.at(node.expressions[0] if node.expressions else node):
            made = LazyFrame(scope.node)._selected([*outputs.items(), *hidden.items()])
        return self._ended(node, made, keys, list(hidden))

    def _outputs(self, it: Any, scope: Scope) -> list[tuple[str, Expr]]:
        """The columns that an item of the select list gives, with their names."""
        if it.key == "star" or (it.key == "column" and it.this.key == "star"):
            return self._all(it, scope)
        if it.key == "column":
            return [(scope.column(it.name, it.table, it)[0], scope.find(it))]
        return [(it.alias or it.sql(), scope.expression(it.this if it.key == "alias" else it))]

    def _all(self, star: Any, scope: Scope) -> list[tuple[str, Expr]]:
        """The columns of all tables, or of one."""
        tables = [columns for it, columns in scope.tables.items() if star.key == "star" or match(star.table, [it])]
        if not tables:
            raise self.text.refuse(star, f"no table {star.table}; there are {', '.join(scope.tables)}")
        shared = scope.shared if star.key == "star" else {}
        pairs = [(name, shared.get(name, real)) for columns in tables for name, real in columns.items()]
        # a column that USING shares stands once, where the first table has it, as sqlite3 has it
        kept = [it for place, it in enumerate(pairs) if it[0] not in shared or it not in pairs[:place]]
        for name in (name for name, real in kept if real is None):
            raise self.text.refuse(star, BLURRED.format(name))
        return [(name, col(str(real))) for name, real in kept]

    def _source(self, node: Any) -> Scope:
        """A table, or a subquery."""
        if node.key == "subquery":
            frame = Query(self.text, self.tables).query(node.this)
        elif node.key == "table" and node.this.key == "identifier" and not node.args.get("db"):
            name = match(node.name, self.tables)
            if name is None:
                raise self.text.refuse(node, f"no table {node.name!r}; there are {', '.join(self.tables) or 'none'}")
            frame = self.tables[name]
        else:
            raise self.text.refuse(node, "FROM takes tables and subqueries")
        if any(node.args.get(it) for it in ("joins", "pivots", "laterals")):
            raise self.text.refuse(node, "joins in brackets can't be taken; write a subquery")
        return self._scope(frame, node.alias_or_name or "subquery")

    def _scope(self, frame: LazyFrame, alias: str) -> Scope:
        """A frame as a table."""
        seen = frame._seen()
        return Scope(self.text, seen, {alias: {it: it for it in seen.schema}})

    def _from(self, node: Any) -> tuple[Scope, list[Any]]:
        """What FROM gives, and the conjuncts of WHERE that are left to do."""
        if not node.args.get("from"):
            raise self.text.refuse(node, "a SELECT without FROM can't be taken")
        where = conjuncts(node.args["where"].this if node.args.get("where") else None)
        joins = node.args.get("joins") or []
        # an equality of WHERE may be a key, but where a later join adds rows to the left side
        links = [] if any(it.side in ("RIGHT", "FULL") for it in joins) else where
        first, *others = node.args["from"].expressions
        scope = self._source(first)
        for it in others:
            scope = self._crossed(scope, it, links)
        for it in joins:
            is_plain = not (it.args.get("on") or it.args.get("using") or it.args.get("natural") or it.side)
            if is_plain and it.kind in ("CROSS", "INNER", ""):
                scope = self._crossed(scope, it.this, links)
            else:
                scope = self._joined(scope, it)
        return scope, where

    def _beside(self, scope: Scope, node: Any) -> Scope:
        """A further table, whose name is a new one."""
        source = self._source(node)
        alias = next(iter(source.tables))
        if match(alias, scope.tables) is not None:
            raise self.text.refuse(node, f"the table name {alias!r} stands twice; give one an alias")
        return source

    def _crossed(self, left: Scope, node: Any, links: list[Any]) -> Scope:
        """Two tables side by side; the equalities of WHERE that join them become keys."""
        sides = Sides(self.text, left, self._beside(left, node))
        found = [it for it in links if not self.text.has_query(it) and sides.is_link(it)]
        links[:] = [it for it in links if it not in found]
        for it in found:
            sides.add(it)
        with self.text.at(node):
            return sides.joined("inner")

    def _joined(self, left: Scope, node: Any) -> Scope:
        right = self._beside(left, node.this)
        how = node.kind if node.kind in ("SEMI", "ANTI") else node.side or "inner"
        if node.kind not in ("", "INNER", "OUTER", "CROSS", "SEMI", "ANTI"):
            raise self.text.refuse(node.this, f"{node.kind} JOIN can't be taken")
        using = [it.name for it in node.args.get("using") or []]
        if node.args.get("natural"):
            using = [it for columns in right.tables.values() for it in columns if left.places(it)]
        # a right join is a left one with its sides turned
        is_right = how == "RIGHT"
        sides = Sides(self.text, *((right, left) if is_right else (left, right)))
        for name in using:
            (written, a), (_, b) = (it.column(name, "", node.this) for it in (sides.left, sides.right))
            sides.using[written] = a, b
            sides.tie(col(a), col(b))
        for it in conjuncts(node.args.get("on")):
            if self.text.has_query(it):
                raise self.text.refuse(it, "a subquery in ON can't be taken")
            sides.add(it)
        with self.text.at(node.this):
            made = sides.joined("left" if is_right else how.lower())
        # the left side's tables stand first again
        return replace(made, tables={it: made.tables[it] for it in left.tables | right.tables if it in made.tables})

    def _where(self, scope: Scope, where: Sequence[Any]) -> Scope:
        tests = [it for it in where if self.text.has_query(it)]
        plain = [it for it in where if it not in tests]
        if plain:
            exprs = [scope.expression(it) for it in plain]
            with self.text.at(plain[0]):
                scope = replace(scope, node=plan.filtered(scope.node, all_of(exprs)))
        for it in tests:
            scope = self._tested(scope, it)
        return scope

    def _tested(self, scope: Scope, node: Any) -> Scope:
        """Rows for which a subquery has rows, or has none."""
        is_anti, test = False, bare(node)
        while test.key == "not":
            test, is_anti = bare(test.this), not is_anti
        if test.key not in ("exists", "in"):
            raise self.text.refuse(node, "a subquery stands in WHERE alone, as EXISTS or IN, and between ANDs")
        inner = bare(test.this if test.key == "exists" else test.args["query"])
        inner = bare(inner.this) if inner.key == "subquery" else inner
        sides, values = self._inner(scope, inner, is_in=test.key == "in")
        if test.key == "exists":
            with self.text.at(test):
                return sides.joined("anti" if is_anti else "semi")
        if len(values) != 1:
            raise self.text.refuse(inner, f"IN wants a subquery of one column, and this one has {len(values)}")
        key, value = scope.expression(test.this), values[0]
        # of NOT IN no value is equal, and none is a null that could be: neither among the values nor the key beside any
        none = [(key, value), (lit(True), value.is_null()), (key.is_null(), lit(True))]
        with self.text.at(test):
            for pair in none if is_anti else none[:1]:
                made = replace(sides, pairs=[*sides.pairs], null_safe=[*sides.null_safe])
                made.tie(*pair)
                sides.left = made.joined("anti" if is_anti else "semi")
        return sides.left

    def _inner(self, scope: Scope, inner: Any, is_in: bool) -> tuple[Sides, list[Expr]]:
        """A subquery's rows beside those outside, with what ties them, and the values that it selects."""
        inside = Query(self.text, self.tables)
        inside._name_ctes(inner)
        if inner.key != "select" or any(inner.args.get(it) for it in ("limit", "offset")):
            sides = Sides(self.text, scope, self._scope(inside.query(inner), "subquery"), is_nested=True)
            return sides, [col(it) for it in sides.right.node.schema]
        self._refuse_rest(inner)
        for it in inner.expressions:
            # a function over all rows would give one even of none
            found = it.find(self.text.exp.AggFunc)
            if found is not None:
                raise self.text.refuse(found, f"{found.sql()} can't be taken: the program doesn't group")
        source, where = inside._from(inner)
        values = [it for e in inner.expressions for _, it in self._outputs(e, source)] if is_in else []
        sides = Sides(self.text, scope, source, is_nested=True)
        for it in where:
            if self.text.has_query(it):
                sides.right = inside._tested(sides.right, it)
            else:
                sides.add(it)
        return sides, values
