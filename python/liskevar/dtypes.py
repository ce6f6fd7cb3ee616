"""Types of columns, and the types that aren't told yet.

A column of a CSV file or a number in an expression has no type of its own: it is a `Guess`, which fits several. What a
plan does with it (keys that meet, inputs of a union, comparisons) puts guesses into groups, each of one type. So a
column of whole numbers beside one of texts is read as texts, and an empty column takes the type of what it meets.
"""

from __future__ import annotations

import datetime
import functools
import re
from collections.abc import Callable, Iterable
from dataclasses import dataclass
from decimal import Context, Decimal
from typing import Any, NamedTuple, Union

# The least and the greatest value of each type of whole numbers.
RANGES = {
    "Int32": (-(2**31), 2**31 - 1), "Int64": (-(2**63), 2**63 - 1), "UInt32": (0, 2**32 - 1), "UInt64": (0, 2**64 - 1),
    "Int128": (-(2**127), 2**127 - 1),
}  # fmt: skip
KINDS = {**dict.fromkeys(RANGES, "number"), "Boolean": "truth", "String": "text", "Binary": "bytes"}
TYPES = f"{', '.join(KINDS)}, Cents, Decimal1 to Decimal18"
TEXTS = (str, datetime.date, datetime.time)
Cell = Union[None, bool, int, str]
# Wide enough for each number here, so that none is rounded.
EXACT = Context(prec=90)


@dataclass(frozen=True)
class DType:
    """A type of the program; `scale` digits after the point make whole numbers decimals: Cents is Int64 of scale 2."""

    base: str
    scale: int = 0

    def __str__(self) -> str:
        if self.scale == 0:
            return self.base
        wide = "" if self.base == "Int64" else f" of {self.base}"
        return ("Cents" if self.scale == 2 else f"Decimal{self.scale}") + wide

    @property
    def kind(self) -> str:
        """Numbers, texts, truths or bytes."""
        return KINDS[self.base]

    def cell(self, value: Any) -> Cell:
        """A value of Python as the job spells it; ValueError where it is none of this type."""
        if value is None or (self.base == "Boolean" and isinstance(value, bool)):
            return value
        if self.kind == "number":
            return self._number(value)
        if self.base == "Binary" and isinstance(value, (bytes, bytearray)):
            return value.hex()
        if self.base == "String" and isinstance(value, TEXTS):
            return value if isinstance(value, str) else value.isoformat()
        raise ValueError(f"{value!r} is no {self}")

    def _number(self, value: Any) -> Cell:
        if isinstance(value, bool) or not isinstance(value, (int, Decimal, float)):
            raise ValueError(f"{value!r} is no {self}")
        exact = Decimal(repr(value)) if isinstance(value, float) else value
        scaled = exact * 10**self.scale if isinstance(exact, int) else EXACT.scaleb(exact, self.scale)
        least, greatest = RANGES[self.base]
        if (isinstance(value, float) and not self.scale) or scaled != int(scaled) or not least <= scaled <= greatest:
            raise ValueError(f"{value!r} is no {self}")
        return str(int(scaled)) if self.base == "Int128" else int(scaled)

    def holds(self, value: Any) -> bool:
        """Whether a value of Python is one of the type."""
        try:
            self.cell(value)
        except (ValueError, ArithmeticError):
            return False
        return True

    def value(self, cell: Cell) -> Any:
        """A cell of the program's lines as a value of Python."""
        if cell is None or self.base in ("Boolean", "String"):
            return cell
        if self.base == "Binary":
            return bytes.fromhex(str(cell))
        return EXACT.scaleb(Decimal(int(cell)), -self.scale) if self.scale else int(cell)


BOOLEAN, STRING, BINARY, INT64 = DType("Boolean"), DType("String"), DType("Binary"), DType("Int64")
# The types that are tried where none is told, in this order.
NUMBERS = (INT64, DType("UInt64"), DType("Int128"))
GUESSED = (*NUMBERS, BOOLEAN, STRING)


def dtype_of(text: str) -> DType:
    """The type of a name: one of the program's, Cents, or Decimal1 to Decimal18; ValueError where it is none."""
    found = re.fullmatch(r"Decimal([1-9]|1[0-8])", "Decimal2" if text == "Cents" else text)
    if not found and text not in KINDS:
        raise ValueError(f"{text!r} is no type; there are {TYPES}")
    return DType("Int64", int(found[1])) if found else DType(text)


class Guess:
    """A type that nothing tells: any for which `fits` is true. The first of `tried` that fits is what it is alone."""

    def __init__(
        self, fits: Callable[[DType], bool], tried: tuple[DType, ...] = GUESSED, is_empty: bool = False, hint: str = ""
    ) -> None:
        self.fits, self.tried, self.is_empty, self.hint = functools.cache(fits), tried, is_empty, hint


Type = Union[DType, Guess]


def _digits(value: Decimal | float) -> int:
    exponent = Decimal(repr(value) if isinstance(value, float) else value).as_tuple().exponent
    return -exponent if isinstance(exponent, int) else 99


def type_of(values: Iterable[Any]) -> Type:
    """The type of values of Python: a guess for numbers and for nulls alone; ValueError where they have none."""
    given = [it for it in values if it is not None]
    kinds = set(map(type, given))
    for some, dtype in (((bool,), BOOLEAN), ((bytes,), BINARY), ((*TEXTS, datetime.datetime), STRING)):
        if kinds and kinds <= set(some):
            return dtype
    if not kinds <= {int, Decimal, float}:
        raise ValueError(f"values of {', '.join(sorted(it.__name__ for it in kinds))}; tell a type by types=")
    digits = [0 if isinstance(it, int) else _digits(it) for it in given]
    scale = max(digits, default=0)
    if scale > 18:
        raise ValueError("more than 18 digits after the point")
    tried = tuple(DType(it.base, max(scale, 0)) for it in NUMBERS)
    # the least, the greatest and the one of most digits stand for all
    ends = {min(given), max(given), given[digits.index(scale)]} if given else set()
    made = Guess(lambda dtype: all(map(dtype.holds, ends)), tried, not given)
    if not any(map(made.fits, tried)):
        raise ValueError(f"{max(given, key=abs)!r} doesn't fit 128 bits")
    return made


class Mismatch(Exception):
    """Two types that can't be one."""

    def __init__(self, left: DType, right: DType, hint: str = "") -> None:
        super().__init__(f"{left} and {right}{hint}")
        self.left, self.right = left, right


class Group(NamedTuple):
    """Guesses of one type; the type where something told it, and the ends of whole numbers that it must hold."""

    members: tuple[Guess, ...] = ()
    told: DType | None = None
    ends: tuple[int, ...] = ()

    @property
    def is_empty(self) -> bool:
        """Whether nothing is known of the type."""
        return not self.told and not self.ends and all(it.is_empty for it in self.members)

    def found(self) -> DType | None:
        """The type: what was told, or the first that is tried and fits all."""
        if self.is_empty:
            return STRING
        guessed = [dtype for it in self.members if not it.is_empty for dtype in it.tried]
        for dtype in [self.told] if self.told else [*guessed, *NUMBERS]:
            if all(it.fits(dtype) for it in self.members) and all(dtype.holds(it) for it in self.ends):
                return dtype
        return None


class Typing:
    """Which guesses have one type. It is never changed: each call gives another, or itself."""

    def __init__(self, groups: dict[Guess, Group] | None = None) -> None:
        self.groups = groups or {}

    def _group(self, it: Type | int) -> Group:
        if isinstance(it, Guess):
            return self.groups.get(it) or Group((it,))
        return Group(told=it) if isinstance(it, DType) else Group(ends=(it, it))

    def resolve(self, it: Type | int) -> DType:
        """The type as it is known so far; of a whole number the first that holds it."""
        found = self._group(it).found()
        assert found is not None, "groups without a type are never made"
        return found

    def unify(self, left: Type, right: Type | int, broad: bool = False) -> Typing:
        """Makes two types one, or a type hold a whole number; Mismatch where that can't be.

        Numbers become texts only where `broad`: for keys, unions and unpivots.
        """
        a, b = self._group(left), self._group(right)
        ends = a.ends + b.ends
        members = tuple(dict.fromkeys(a.members + b.members))
        merged = Group(members, b.told or a.told, (min(ends), max(ends)) if ends else ())
        if merged == a:
            return self
        hint = "".join(it.hint for it in (left, right) if isinstance(it, Guess))
        error = Mismatch(self.resolve(left), self.resolve(right), hint)
        mixed = error.left.kind != error.right.kind and not a.is_empty and not b.is_empty
        if (mixed and not broad) or (a.told and b.told and a.told != b.told) or merged.found() is None:
            raise error
        return Typing({**self.groups, **dict.fromkeys(members, merged)})

    def merge(self, others: Iterable[Typing]) -> Typing:
        """All that several of them know; Mismatch where they can't all stand."""
        found = self
        for group in {id(it): it for other in others for it in other.groups.values()}.values():
            for member in group.members:
                if found.groups.get(member) is not group:
                    found = found.unify(group.told or group.members[0], member, broad=True)
            for end in group.ends:
                found = found.unify(group.members[0], end)
        return found
