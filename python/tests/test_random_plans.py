"""Random plans through the package: rows of the program, of the judge and, where it can, of pandas.

LISKEVAR_PLANS says how many plans, LISKEVAR_SEED from which state on.
"""

import collections
import itertools
import os
import random

import liskevar as lk
import pytest
from model import WIDTHS, Model, wrapped

try:
    import pandas
except ImportError:
    pandas = None

PLANS = int(os.environ.get("LISKEVAR_PLANS", "150"))
SEED = int(os.environ.get("LISKEVAR_SEED", "1"))
TEXTS = ["", "a", 'said "no"', "two\nlines", "é", "日本", "a,b", " a", "NULL", "\u2028", "\U0001f600", "007", "tab\t"]
NAMES = ["a", "b", "k", "v", "k_right", "value", "x y", 'q"', "é:desc", "a,b"]


class Plans:
    """Random plans: a frame of the package beside its judge and, as long as that goes, a pandas frame."""

    def __init__(self, seed):
        self.chance = random.Random(seed)
        self.dtype = self.chance.choice(["Int64", "Int64", "Int64", "Int32", "UInt64", "UInt32", "Int128"])
        bits, signed = WIDTHS[self.dtype]
        ends = [0, 1, 2, 3, wrapped(1 << (bits - 1), self.dtype), (1 << (bits - signed)) - 1]
        self.numbers = [*ends, *([-1] if signed else [])]

    def rare(self, share):
        return self.chance.random() < share

    def cell(self, kind):
        if self.rare(0.2):
            return None
        return self.chance.choice({"n": self.numbers, "t": TEXTS, "b": [True, False]}[kind])

    def table(self):
        columns = {name: self.chance.choice("nnttb") for name in self.chance.sample(NAMES, self.chance.randint(2, 4))}
        if self.rare(0.8):
            columns["k"] = "n"
        rows = [tuple(self.cell(it) for it in columns.values()) for _ in range(self.chance.randint(0, 6))]
        types = {name: {"n": self.dtype, "t": "String", "b": "Boolean"}[it] for name, it in columns.items()}
        frame = lk.from_rows(rows, list(columns), types=types)
        return frame, Model(columns, rows), columns, self.pandas(columns, rows)

    def pandas(self, columns, rows):
        if pandas is None:
            return None
        return pandas.DataFrame([list(it) for it in rows], columns=list(columns), dtype=object)

    def expression(self, columns, kind, depth=2):
        """A random expression of a kind, as a tuple, over some columns."""
        mine = [name for name, it in columns.items() if it == kind]
        if depth == 0 or (self.rare(0.4) and mine):
            return ("col", self.chance.choice(mine)) if mine and self.rare(0.7) else ("lit", self.cell(kind), kind)
        part = lambda it: self.expression(columns, it, depth - 1)
        if kind == "n":
            return (self.chance.choice(["add", "sub", "mul"]), part("n"), part("n"))
        if kind == "t":
            return part("t")
        word = self.chance.choice(["and", "or", "not", "is_null", "eq", "ne", "lt", "le", "gt", "ge"])
        if word in ("and", "or"):
            return (word, part("b"), part("b"))
        if word == "not":
            return (word, part("b"))
        other = self.chance.choice("nntb")
        return (word, part(other)) if word == "is_null" else (word, part(other), part(other))

    def spelled(self, expr):
        """A tuple as an expression of the package."""
        word, *parts = expr
        if word == "col":
            return lk.col(parts[0])
        if word == "lit":
            return lk.lit(parts[0], {"n": self.dtype, "t": "String", "b": "Boolean"}[parts[1]])
        made = [self.spelled(it) for it in parts]
        if word in ("is_null", "not"):
            return made[0].is_null() if word == "is_null" else ~made[0]
        a, b = made
        return {
            "add": lambda: a + b, "sub": lambda: a - b, "mul": lambda: a * b, "and": lambda: a & b, "or": lambda: a | b,
            "eq": lambda: a == b, "ne": lambda: a != b, "lt": lambda: a < b, "le": lambda: a <= b, "gt": lambda: a > b,
            "ge": lambda: a >= b,
        }[word]()  # fmt: skip

    def filter(self, frame, model, columns, panda):
        expr = self.expression(columns, "b")
        if expr[0] == "lit":
            expr = ("is_null", expr)
        made = model.filter(expr, self.dtype)
        if panda is not None:
            kept = collections.Counter(made.rows)
            panda = panda[pandas.Series([kept[it] > 0 for it in plain_rows(panda)], index=panda.index, dtype=bool)]
        return frame.filter(self.spelled(expr)), made, columns, panda

    def select(self, frame, model, columns, panda):
        names = self.chance.sample(list(columns), self.chance.randint(1, len(columns)))
        if self.rare(0.5):
            return frame.select(names), model.select([(it, ("col", it)) for it in names], self.dtype), {it: columns[it] for it in names}, panda if panda is None else panda[names]
        kinds = {name: self.chance.choice("ntb") for name in self.chance.sample(NAMES, 2)}
        exprs = [(name, self.expression(columns, kind)) for name, kind in kinds.items()]
        added = self.rare(0.5)
        work = frame.with_columns if added else frame.select
        judged = (model.with_columns if added else model.select)(exprs, self.dtype)
        made = work(*(self.spelled(it).alias(name) for name, it in exprs))
        return made, judged, {**columns, **kinds} if added else kinds, None

    def rename(self, frame, model, columns, panda):
        old = self.chance.choice(list(columns))
        free = [it for it in [*NAMES, "free"] if it not in columns] or [f"free {len(columns)}"]
        names = {old: self.chance.choice(free)}
        made = {names.get(name, name): it for name, it in columns.items()}
        return frame.rename(names), model.rename(names), made, panda if panda is None else panda.rename(columns=names)

    def unpivot(self, frame, model, columns, panda):
        kind = self.chance.choice(list(columns.values()))
        on = [name for name, it in columns.items() if it == kind]
        index = [name for name, it in columns.items() if it != kind and name not in ("variable", "value")]
        made = {**{it: columns[it] for it in index}, "variable": "t", "value": kind}
        if panda is not None:
            panda = panda.melt(id_vars=index, value_vars=on, var_name="variable", value_name="value") if "value" not in columns else None
        return frame.unpivot(on, index=index), model.unpivot(on, index), made, panda

    def join(self, frame, model, columns, panda):
        other, judge, more, panda2 = self.plan(2)
        how = self.chance.choice(["inner", "left", "full", "cross", "semi", "anti"])
        pairs = [(a, b) for a, x in columns.items() for b, y in more.items() if x == y]
        pairs = [] if how == "cross" else self.chance.sample(pairs, min(len(pairs), self.chance.randint(1, 2)))
        left_on, right_on = [a for a, _ in pairs], [b for _, b in pairs]
        fits = len(set(left_on)) == len(left_on) and len(set(right_on)) == len(right_on) and (pairs or how == "cross")
        if not fits:
            return frame, model, columns, panda
        nulls, coalesce = self.rare(0.5), self.chance.choice([None, True, False])
        coalesced = how not in ("cross", "semi", "anti") and (coalesce or (coalesce is None and how != "full"))
        suffix = "_right"
        if how not in ("semi", "anti"):
            right = [it for it in more if not (coalesced and it in right_on)]
            while len({*columns, *(it + suffix if it in columns else it for it in right)}) < len(columns) + len(right):
                suffix += "_"
        args = {"how": how, "nulls_equal": nulls, "coalesce": coalesce, "suffix": suffix}
        if pairs:
            args |= {"on": left_on} if left_on == right_on and self.rare(0.5) else {"left_on": left_on, "right_on": right_on}
        made = frame.join(other, **args)
        judged = model.join(judge, how, left_on, right_on, nulls, coalesced, suffix)
        kinds = dict(zip(judged.columns, [*columns.values(), *(more[it] for it in more if not (coalesced and it in right_on))]))
        both = panda is not None and panda2 is not None and nulls and how in ("inner", "left") and left_on == right_on and coalesced
        panda = merged(panda, panda2, how, left_on, suffix) if both else None
        return made, judged, kinds if how not in ("semi", "anti") else columns, panda

    def concat(self, frame, model, columns, panda):
        if panda is not None:
            panda = pandas.concat([panda, panda], ignore_index=True)
        return lk.concat([frame, frame]), model.concat(model), columns, panda

    def cut(self, frame, model, columns, panda):
        keys = self.keys(columns)
        offset, length = self.chance.randint(0, 2), self.chance.randint(0, 5)
        return sorted_by(frame, keys).slice(offset, length), model.sort(keys).slice(offset, length), columns, None

    def keys(self, columns):
        names = self.chance.sample(list(columns), self.chance.randint(1, min(2, len(columns))))
        return [(it, self.rare(0.5), self.rare(0.5)) for it in names]

    def plan(self, most=5):
        made = self.table()
        for _ in range(self.chance.randint(0, most)):
            kinds = ["filter", "select", "select", "rename", "unpivot", "concat", "cut"] + ["join"] * 3 * (most > 2)
            work = getattr(self, self.chance.choice(kinds))
            step = work(*made)
            if len(step[1].rows) <= 400:
                made = step
        return made


def merged(a, b, how, on, suffix):
    """A join of pandas, in which nulls meet; it has no null of its own here but None."""
    marks = lambda frame: frame.assign(**{it: [("null",) if v is None else (type(v).__name__, v) for v in frame[it]] for it in on})
    made = marks(a).merge(marks(b), how=how, on=on, suffixes=("", suffix))
    for name in on:
        made[name] = pandas.Series([None if v[0] == "null" else v[1] for v in made[name]], index=made.index, dtype=object)
    return made


def plain_rows(frame):
    plain = lambda it: None if it is None or it is pandas.NA or (isinstance(it, float) and it != it) else it
    return [tuple(plain(it) for it in row) for row in frame.itertuples(index=False, name=None)]


def sorted_by(frame, keys):
    names, descending, nulls_last = zip(*keys)
    return frame.sort(list(names), descending=list(descending), nulls_last=list(nulls_last))


def counted(rows):
    return collections.Counter(tuple((type(it).__name__, it) for it in row) for row in rows)


@pytest.mark.program
@pytest.mark.parametrize("part", range(10))
def test_rows_of_random_plans(part):
    by_pandas = 0
    for number in range(part, PLANS, 10):
        seed = SEED * 1_000_000 + number
        made = Plans(seed)
        frame, model, columns, panda = made.plan()
        assert frame.columns == model.columns, seed
        is_sorted = made.rare(0.5)
        if is_sorted:
            keys = made.keys(columns)
            frame, model, panda = sorted_by(frame, keys), model.sort(keys), None
            check_order(made, frame, model, columns, keys, seed)
        rows = frame.collect(workers=made.chance.choice([1, 4]), chunk_rows=made.chance.choice([1, 2, 1000]))
        assert rows.columns == model.columns, seed
        assert counted(rows) == counted(model.rows), seed
        # an order that stands through a select leaves rows that tie in any order
        if is_sorted:
            assert list(rows) == model.rows, seed
        if panda is not None:
            by_pandas += 1
            assert counted(rows) == counted(plain_rows(panda)), seed
    assert pandas is None or by_pandas or PLANS < 100


def check_order(made, frame, model, columns, keys, seed):
    """An order stands through filters, selects, renames and added columns, though its keys are changed or left out."""
    names = [name for name, _, _ in keys]
    marks = [f"key {it}" for it in range(len(names))]
    marked = model.select([*((it, ("col", it)) for it in model.columns), *((m, ("col", it)) for m, it in zip(marks, names))], made.dtype)
    for _ in range(made.chance.randint(1, 3)):
        work = made.chance.choice(["filter", "select", "with", "rename"])
        if work == "filter":
            expr = (made.chance.choice(["and", "or", "or"]), made.expression(columns, "b"), ("is_null", ("lit", None, "n")))
            frame, marked = frame.filter(made.spelled(expr)), marked.filter(expr, made.dtype)
        elif work == "select":
            kept = made.chance.sample(list(columns), made.chance.randint(1, len(columns)))
            columns = {it: columns[it] for it in kept}
            frame, marked = frame.select(kept), marked.select([(it, ("col", it)) for it in [*kept, *marks]], made.dtype)
        elif work == "rename":
            old = made.chance.choice(list(columns))
            new = {old: made.chance.choice([it for it in [*NAMES, "free"] if it not in columns] or [f"free {len(columns)}"])}
            columns = {new.get(name, name): it for name, it in columns.items()}
            frame, marked = frame.rename(new), marked.rename(new)
        else:
            name, kind = made.chance.choice([*columns, "new"]), made.chance.choice("ntb")
            expr = made.expression(columns, kind)
            columns = {**columns, name: kind}
            frame, marked = frame.with_columns(made.spelled(expr).alias(name)), marked.with_columns([(name, expr)], made.dtype)
    given = list(frame.collect(workers=made.chance.choice([1, 4]), chunk_rows=made.chance.choice([1, 2, 1000])))
    assert frame.columns == list(columns), seed
    seen = marked.select([(it, ("col", it)) for it in columns], made.dtype).rows
    order = marked.select([(it, ("col", it)) for it in marks], made.dtype).rows
    at = 0
    for _, group in itertools.groupby(range(len(order)), key=lambda it: order[it]):
        group = list(group)
        assert counted(given[at : at + len(group)]) == counted([seen[it] for it in group]), seed
        at += len(group)
    assert at == len(given), seed
