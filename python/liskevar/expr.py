"""Expressions over the columns of a frame: `col`, `lit`, arithmetic, comparisons, `&`, `|`, `~`."""

from __future__ import annotations

from collections.abc import Callable, Iterable, Sequence
from decimal import Decimal
from typing import Any

from .dtypes import BOOLEAN, TEXTS, DType, Guess, Mismatch, Type, Typing, dtype_of, type_of

Schema = dict[str, Type]
INFIX = {
    "add": "+", "sub": "-", "mul": "*", "eq": "=", "not_eq": "<>", "lt": "<", "lt_eq": "<=", "gt": ">", "gt_eq": ">=",
    "and": "and", "or": "or",
}  # fmt: skip
SINGLE = ("not", "is_null", "is_not_null")
# Chains of these are kept flat, and spelled as balanced pairs: a job may nest about 60 of them.
CHAINED = ("and", "or", "add", "mul")
DEEPEST = 58


def _operator(op: str, turned: bool = False) -> Callable[[Expr, Any], Expr]:
    """The method of an operator; `turned` where the expression stands at its right."""
    return lambda expr, other: expr._with(op, other, turned)


class Expr:
    """An expression. Its operators make further ones; nothing is computed in Python."""

    __slots__ = ("op", "args", "value", "name", "type", "depth")
    __hash__ = object.__hash__

    def __init__(
        self, op: str, args: Iterable[Expr] = (), value: Any = None, name: str | None = None, type: Type | None = None
    ) -> None:
        self.op, self.args, self.value, self.name, self.type = op, tuple(args), value, name, type
        wide = (len(self.args) - 1).bit_length() if op in CHAINED else 1
        self.depth: int = wide + max((it.depth for it in self.args), default=0)

    def alias(self, name: str) -> Expr:
        """The same value under another name."""
        return Expr(self.op, self.args, self.value, name, self.type)

    @property
    def output(self) -> str | None:
        """The name of its column: its alias, or that of the first column in it."""
        if self.name is not None or self.op == "col":
            return self.name or str(self.value)
        return next((it.output for it in self.args if it.output is not None), None)

    def _with(self, op: str, other: Any, turned: bool = False) -> Expr:
        sides = (lit(other), self) if turned else (self, lit(other))
        if op not in CHAINED:
            return Expr(op, sides)
        return Expr(op, [part for it in sides for part in (it.args if it.op == op and it.name is None else (it,))])

    __add__, __radd__ = _operator("add"), _operator("add", turned=True)
    __sub__, __rsub__ = _operator("sub"), _operator("sub", turned=True)
    __mul__, __rmul__ = _operator("mul"), _operator("mul", turned=True)
    __and__, __rand__ = _operator("and"), _operator("and", turned=True)
    __or__, __ror__ = _operator("or"), _operator("or", turned=True)
    __lt__, __le__ = _operator("lt"), _operator("lt_eq")
    __gt__, __ge__ = _operator("gt"), _operator("gt_eq")

    def __eq__(self, other: object) -> Expr:  # type: ignore[override]
        return self._with("eq", other)

    def __ne__(self, other: object) -> Expr:  # type: ignore[override]
        return self._with("not_eq", other)

    def __neg__(self) -> Expr:
        return self._with("sub", 0, turned=True)

    def __invert__(self) -> Expr:
        return Expr("not", (self,))

    def __bool__(self) -> bool:
        raise TypeError("an expression has no truth: write & for and, | for or, ~ for not, each side in brackets")

    def is_null(self) -> Expr:
        """Whether the value is null; never null itself."""
        return Expr("is_null", (self,))

    def is_not_null(self) -> Expr:
        """Whether the value isn't null; never null itself."""
        return Expr("is_not_null", (self,))

    def is_in(self, values: Iterable[Any]) -> Expr:
        """Whether it equals one of some values."""
        return any_of([self == it for it in values])

    def is_between(self, least: Any, greatest: Any) -> Expr:
        """Whether it lies between two values, each included."""
        return all_of([self >= least, self <= greatest])

    def __repr__(self) -> str:
        return f"<{written(self)}>"


def col(name: str) -> Expr:
    """The column of that name."""
    return Expr("col", value=name)


def lit(value: Any, dtype: str | None = None) -> Expr:
    """A value, or the same expression. A number takes the type of what it is compared with, or is of `dtype`."""
    if isinstance(value, Expr):
        return value
    # what numpy and pandas hand out
    value = value.item() if hasattr(value, "item") else value
    if dtype is not None:
        told = dtype_of(dtype)
        told.cell(value)
        return Expr("lit", value=value, type=told)
    if not isinstance(value, (int, bytes, Decimal, float, *TEXTS, type(None))):
        raise TypeError(f"{value!r} is no value that a column can hold")
    return Expr("lit", value=value)


def any_of(parts: Sequence[Expr]) -> Expr:
    """True where one of them is."""
    return parts[0] if len(parts) == 1 else Expr("or", parts) if parts else lit(False)


def all_of(parts: Sequence[Expr]) -> Expr:
    """True where all of them are."""
    return parts[0] if len(parts) == 1 else Expr("and", parts) if parts else lit(True)


def names_in(*exprs: Expr) -> list[str]:
    """The columns that they read, from left to right."""
    return [name for it in exprs for name in ([str(it.value)] if it.op == "col" else names_in(*it.args))]


def _type(expr: Expr) -> Type:
    """The type of a bound expression."""
    assert expr.type is not None
    return expr.type


def _one_type(args: Sequence[Expr], typing: Typing) -> tuple[Type, Typing]:
    """One type for all of them. Whole numbers that are written out take that of the others."""
    free = [it for it in args if isinstance(it.type, Guess) and it.op == "lit" and type(it.value) is int]
    fixed = [it for it in args if not any(it is other for other in free)] or free[:1]
    first = _type(fixed[0])
    for it in fixed[1:]:
        typing = typing.unify(first, _type(it))
    for it in free:
        typing = typing.unify(first, it.value)
        it.type = first
    return first, typing


def _arithmetic(op: str, args: list[Expr], typing: Typing) -> tuple[Type, Typing]:
    """The type of whole numbers or decimals that all have; a product of decimals has the digits of both."""
    types = [typing.resolve(_type(it)) for it in args]
    if op != "mul" or not any(it.scale for it in types):
        made, typing = _one_type(args, typing)
        return made, typing.unify(made, 0)
    scale = sum(it.scale for it in types)
    if len({it.base for it in types}) > 1 or scale > 18:
        raise Mismatch(types[0], types[1])
    for it, dtype in zip(args, types):
        typing = typing.unify(_type(it), dtype)
    return DType(types[0].base, scale), typing


def bind(expr: Expr, schema: Schema, typing: Typing) -> tuple[Expr, Typing]:
    """The expression with the type of each part, over columns that there are; Mismatch where it has none."""
    if expr.op == "col":
        return Expr("col", value=expr.value, type=schema[expr.value]), typing
    if expr.op == "lit":
        return Expr("lit", value=expr.value, type=expr.type or type_of([expr.value])), typing
    args = []
    for it in expr.args:
        bound, typing = bind(it, schema, typing)
        args.append(bound)
    made: Type = BOOLEAN
    if expr.op in ("add", "sub", "mul"):
        made, typing = _arithmetic(expr.op, args, typing)
    elif expr.op in ("and", "or", "not"):
        for it in args:
            typing = typing.unify(_type(it), BOOLEAN)
    elif expr.op not in SINGLE:
        _, typing = _one_type(args, typing)
    return Expr(expr.op, args, type=made), typing


def _paired(op: str, parts: list[Any]) -> Any:
    half = len(parts) // 2
    return {op: [_paired(op, parts[:half]), _paired(op, parts[half:])]} if half else parts[0]


def spelled(expr: Expr, typing: Typing) -> Any:
    """A bound expression as the job spells it."""
    if expr.op == "col":
        return {"col": expr.value}
    if expr.op == "lit":
        dtype = typing.resolve(_type(expr))
        return {"lit": {"type": dtype.base, "value": dtype.cell(expr.value)}}
    parts = [spelled(it, typing) for it in expr.args]
    return {expr.op: parts[0]} if expr.op in SINGLE else _paired(expr.op, parts)


def read(value: Any) -> Expr:
    """An expression as a job spells it; ValueError where it spells none."""
    if not isinstance(value, dict) or len(value) != 1:
        raise ValueError(f"{value!r} is no expression")
    ((op, part),) = value.items()
    if op == "col" and isinstance(part, str):
        return col(part)
    if op == "lit" and isinstance(part, dict) and set(part) == {"type", "value"}:
        dtype = dtype_of(part["type"])
        return Expr("lit", value=dtype.value(part["value"]), type=dtype)
    if op in SINGLE:
        return Expr(op, (read(part),))
    if op in INFIX and isinstance(part, list) and len(part) == 2:
        return read(part[0])._with(op, read(part[1]))
    raise ValueError(f"{op!r} is no expression")


def written(expr: Expr) -> str:
    """An expression as people write it."""
    if expr.op == "col":
        return str(expr.value)
    if expr.op == "lit":
        return {"None": "null", "True": "true", "False": "false"}.get(repr(expr.value), repr(expr.value))
    parts = [written(it) for it in expr.args]
    if expr.op in INFIX:
        return f"({f' {INFIX[expr.op]} '.join(parts)})"
    return f"not {parts[0]}" if expr.op == "not" else f"{parts[0]} {expr.op.replace('_', ' ')}"
