"""Queries of the usual join tutorials and random ones: the program's rows are sqlite3's, and refusals have their places."""

import collections
import os
import random
import sqlite3

import liskevar as lk
import pytest

pytest.importorskip("sqlglot")
QUERIES = int(os.environ.get("LISKEVAR_QUERIES", "150"))

TABLES = {
    "customers": (["id", "name", "city", "referrer"], [
        (1, "Anna", "Graz", None), (2, "Bob", "Wien", 1), (3, "Chloé", None, 1), (4, "Díaz, Eva", "Graz", 2), (5, "", "", 9),
    ]),
    "orders": (["id", "customer_id", "product_id", "amount", "paid"], [
        (10, 1, 100, 2, 1), (11, 1, 101, 1, 0), (12, 2, 100, 5, 1), (13, 3, 102, 3, None), (14, None, 101, 7, 1), (15, 8, 100, 1, 0),
    ]),
    "products": (["id", "name", "price"], [(100, "pen", 3), (101, "ink", 12), (102, "paper", None), (103, "desk", 200)]),
    "returns": (["order_id", "reason"], [(10, "broken"), (12, None), (12, "late"), (None, "unknown")]),
    "old_orders": (["id", "customer_id", "amount"], [(1, 1, 9), (2, 4, None)]),
}  # fmt: skip

# Each with the rows that sqlite3 gave for it, in their order where the query tells one.
TUTORIAL = [
    ("select name, city from customers where city = 'Graz'", [("Anna", "Graz"), ("Díaz, Eva", "Graz")]),
    ("select c.name, o.amount from customers c inner join orders o on c.id = o.customer_id order by o.id", [("Anna", 2), ("Anna", 1), ("Bob", 5), ("Chloé", 3)]),
    ("select c.name, o.id from customers as c left join orders as o on o.customer_id = c.id order by c.id, o.id", [("Anna", 10), ("Anna", 11), ("Bob", 12), ("Chloé", 13), ("Díaz, Eva", None), ("", None)]),
    ("select c.name, o.id from customers c right join orders o on c.id = o.customer_id order by o.id desc", [(None, 15), (None, 14), ("Chloé", 13), ("Bob", 12), ("Anna", 11), ("Anna", 10)]),
    ("select c.id, o.id from customers c full outer join orders o on c.id = o.customer_id order by 1 nulls last, 2", [(1, 10), (1, 11), (2, 12), (3, 13), (4, None), (5, None), (None, 14), (None, 15)]),
    ("select c.name from customers c left join orders o on c.id = o.customer_id where o.id is null order by name desc", [("Díaz, Eva",), ("",)]),
    ("select a.name, b.name from customers a join customers b on a.referrer = b.id order by a.id", [("Bob", "Anna"), ("Chloé", "Anna"), ("Díaz, Eva", "Bob")]),
    ("select c.name, p.name, o.amount * p.price as total from orders o join customers c on c.id = o.customer_id join products p on p.id = o.product_id order by total desc, c.name", [("Bob", "pen", 15), ("Anna", "ink", 12), ("Anna", "pen", 6), ("Chloé", "paper", None)]),
    ("select c.name, p.name from customers c cross join products p where p.price > 100 order by c.id", [("Anna", "desk"), ("Bob", "desk"), ("Chloé", "desk"), ("Díaz, Eva", "desk"), ("", "desk")]),
    ("select c.name, o.id from customers c, orders o where c.id = o.customer_id and o.amount between 2 and 4 order by o.id", [("Anna", 10), ("Chloé", 13)]),
    ("select name from customers c where exists (select 1 from orders o where o.customer_id = c.id) order by name", [("Anna",), ("Bob",), ("Chloé",)]),
    ("select name from customers c where not exists (select * from orders o where o.customer_id = c.id and o.amount > 2) order by c.id", [("Anna",), ("Díaz, Eva",), ("",)]),
    ("select name from products where id in (select product_id from orders where paid = 1) order by id", [("pen",), ("ink",)]),
    ("select name from products where id not in (select product_id from orders)", [("desk",)]),
    ("select id from customers where id not in (select customer_id from orders)", []),
    ("select id, amount from orders union all select id, amount from old_orders order by amount desc nulls last, id limit 4 offset 1", [(14, 7), (12, 5), (13, 3), (10, 2)]),
    ("select t.name, t.amount from (select c.name, o.amount from customers c join orders o on c.id = o.customer_id where o.amount > 1) t order by t.amount", [("Anna", 2), ("Chloé", 3), ("Bob", 5)]),
    ("with late as (select order_id from returns where reason = 'late') select o.id from orders o join late on late.order_id = o.id", [(12,)]),
    ("select a.id, b.id from customers a join customers b on a.referrer is not distinct from b.referrer where a.id < b.id order by 1", [(2, 3)]),
    ("select o.id, r.reason from orders o left join returns r on r.order_id = o.id and r.reason is not null and o.paid = 1 order by o.id", [(10, "broken"), (11, None), (12, "late"), (13, None), (14, None), (15, None)]),
    ("select name from customers where (city is null or city <> 'Graz') and id in (2, 3, 4) order by id desc limit 1", [("Chloé",)]),
    ("select * from old_orders join customers using (id) order by amount", [(2, 4, None, "Bob", "Wien", 1), (1, 1, 9, "Anna", "Graz", None)]),
    ("select p.name from products p natural join old_orders", []),
    ("select id, c.name, o.amount from customers c left join old_orders o using (id) order by id", [(1, "Anna", 9), (2, "Bob", None), (3, "Chloé", None), (4, "Díaz, Eva", None), (5, "", None)]),
    ("select id, customer_id from old_orders full join products using (id) order by id;", [(1, 1), (2, 4), (100, None), (101, None), (102, None), (103, None)]),
    ("select id, c.id from old_orders o right join customers c using (id) order by id desc limit 2", [(5, 5), (4, 4)]),
    ("select c.id from customers c where exists (with o as (select customer_id from orders) select 1 from o where o.customer_id = c.id) order by 1", [(1,), (2,), (3,)]),
]  # fmt: skip

REFUSED = [
    ("select count(*) from orders", 1, 8, "COUNT(*)"),
    ("select customer_id\nfrom orders\ngroup by customer_id", 3, 1, "GROUP"),
    ("select distinct city from customers", 1, 8, "DISTINCT"),
    ("select nmae from customers", 1, 8, "no column nmae; there are customers.id"),
    ("select c.name from custmers c", 1, 20, "no table 'custmers'"),
    ("select id from customers join orders on customers.id = orders.customer_id", 1, 8, "several tables"),
    ("select name from customers union select name from products", 1, 28, "UNION"),
    ("select name from customers where city > 5", 1, 34, "types don't fit"),
    ("select upper(name) from customers", 1, 8, "UPPER(name)"),
    ("select case when id > 1 then 1 else 2 end from customers", 1, 18, "can't be taken"),
    ("select name from customers where id = (select max(customer_id) from orders)", 1, 34, "subquery"),
    ("select c.name from customers c left join orders o on c.id < o.customer_id", 1, 54, "no equality"),
    ("select name frm customers", 1, 17, ""),
    ("select name from customers order by 3", 1, 37, "no column 3"),
    ("select a.id from orders a, orders a", 1, 28, "twice"),
    ("select name from customers limit -1", 1, 34, ""),
    ("select id from customers c where exists (select count(*) from orders o where o.customer_id = c.id)", 1, 49, "COUNT(*)"),
    ("select c.id from customers c full join old_orders o using (id)", 1, 8, "without its table"),
    ("select o.* from customers c left join old_orders o using (id)", 1, 8, "without its table"),
    ("select c.id from customers c where c.city in (select d.city from customers d where d.referrer is not distinct from c.referrer)", 1, 84, "takes nulls"),
    ("insert into customers values (1)", 1, 1, ""),
]  # fmt: skip


def base_of(tables):
    base = sqlite3.connect(":memory:")
    for name, (columns, rows) in tables.items():
        base.execute(f"create table {name} ({', '.join(columns)})")
        base.executemany(f"insert into {name} values ({', '.join('?' * len(columns))})", rows)
    return base


def frames_of(tables, types=None):
    return {name: lk.from_rows(rows, columns, name=name, types=(types or {}).get(name)) for name, (columns, rows) in tables.items()}


@pytest.mark.program
@pytest.mark.parametrize("query, rows", TUTORIAL, ids=range(1, len(TUTORIAL) + 1))
def test_queries_of_join_tutorials(query, rows):
    given = lk.sql(query, frames_of(TABLES)).collect()
    by_sqlite = base_of(TABLES).execute(query).fetchall()
    if "order by" in query:
        assert (list(given), by_sqlite) == (rows, rows)
    else:
        assert [collections.Counter(it) for it in (given, by_sqlite)] == [collections.Counter(rows)] * 2


@pytest.mark.program
def test_a_shared_column_stands_through_a_right_join():
    query = "select id, reason from customers left join old_orders using (id) right join returns on order_id = id * 10 order by 1 nulls last, 2"
    rows = [(1, "broken"), (None, None), (None, "late"), (None, "unknown")]
    assert list(lk.sql(query, frames_of(TABLES)).collect()) == base_of(TABLES).execute(query).fetchall() == rows


@pytest.mark.program
@pytest.mark.parametrize("word, rows", [("semi", [(10,), (12,)]), ("anti", [(11,), (13,), (14,), (15,)])])
def test_joins_that_keep_the_left_columns_alone(word, rows):
    query = f"select o.id from orders o {word} join returns r on r.order_id = o.id order by 1"
    assert list(lk.sql(query, frames_of(TABLES)).collect()) == rows


@pytest.mark.parametrize("query, line, column, words", REFUSED)
def test_refusals_have_their_place(query, line, column, words):
    with pytest.raises(lk.SqlError) as told:
        lk.sql(query, frames_of(TABLES))
    assert (told.value.line, told.value.column) == (line, column), str(told.value)
    assert words in str(told.value)


class Queries:
    """Random queries over three small tables of numbers and texts with nulls."""

    def __init__(self, seed):
        self.chance = random.Random(seed)
        self.count = 0

    def pick(self, *parts):
        return self.chance.choice(parts)

    def rare(self, share):
        return self.chance.random() < share

    def tables(self):
        cell = {"k": lambda: self.pick(None, 1, 2, 3), "n": lambda: self.pick(None, 0, 1, 2, 5), "t": lambda: self.pick(None, "", "a", "it's", "é")}
        return {
            name: (["k", "n", "t"], [tuple(cell[it]() for it in "knt") for _ in range(self.chance.randint(0, 5))])
            for name in ("r", "s", "u")
        }  # fmt: skip

    def condition(self, names, depth=1):
        """A condition over columns of some tables."""
        name = lambda: self.pick(*names)
        number = lambda: self.pick(f"{name()}.k", f"{name()}.n", "1", "2", f"{name()}.n + 1", f"{name()}.k * 2 - {name()}.n")
        if depth and self.rare(0.4):
            return f"({self.condition(names, 0)} {self.pick('and', 'or')} {self.condition(names, 0)})"
        return self.pick(
            f"{number()} {self.pick('=', '<>', '<', '<=', '>', '>=')} {number()}",
            f"{name()}.t {self.pick('=', '<>', '<')} {self.pick(chr(39) * 2, repr('a'), name() + '.t')}",
            f"{name()}.{self.pick('k', 'n', 't')} is {self.pick('', 'not ')}null",
            f"{name()}.n {self.pick('', 'not ')}in (1, 2{self.pick('', ', null')})",
            f"{name()}.n between 1 and {number()}",
            f"not {name()}.k = {name()}.n",
        )

    def source(self):
        self.count += 1
        alias = f"x{self.count}"
        table = self.pick("r", "s", "u")
        if self.rare(0.2):
            inner = f"y{self.count}"
            return f"(select {inner}.k, {inner}.n, {inner}.t from {table} {inner} where {self.condition([inner])}) {alias}", alias
        return f"{table} {alias}", alias

    def on(self, names, alias, side):
        left = self.pick(*names)
        parts = [self.pick(f"{left}.k = {alias}.k", f"{alias}.n = {left}.k", f"{left}.t = {alias}.t", f"{left}.k + 1 = {alias}.n")]
        if self.rare(0.3):
            parts.append(self.condition([alias]))
        if self.rare(0.3):
            parts.append(self.condition([left]))
        if side == "join" and self.rare(0.3):
            parts.append(self.condition([left, alias]))
        self.chance.shuffle(parts)
        return " and ".join(parts)

    def test(self, names):
        """A test of a subquery."""
        self.count += 1
        inner, outer = f"z{self.count}", self.pick(*names)
        table, negated = self.pick("r", "s", "u"), self.pick("", "not ")
        tie = self.pick("", f"where {inner}.k = {outer}.k", f"where {inner}.t = {outer}.t and {self.condition([inner])}", f"where {self.condition([inner])}")
        if self.rare(0.5):
            return f"{negated}exists (select 1 from {table} {inner} {tie})"
        return f"{outer}.n {negated}in (select {inner}.{self.pick('k', 'n')} from {table} {inner} {tie})"

    def select(self):
        source, alias = self.source()
        text, names = f"from {source}", [alias]
        for _ in range(self.chance.choice([0, 1, 1, 2])):
            source, alias = self.source()
            side = self.pick("join", "left join", "right join", "full join", "cross join", ",")
            if side == "," and "join" in text:
                side = "cross join"
            text += f"{side if side == ',' else ' ' + side} {source}"
            if side.endswith("join") and side != "cross join":
                text += f" on {self.on(names, alias, side)}"
            names.append(alias)
        where = [self.condition(names) for _ in range(self.chance.choice([0, 1, 1]))]
        where += [self.test(names) for _ in range(self.chance.choice([0, 0, 1]))]
        if len(names) > 1 and self.rare(0.3):
            where.append(f"{names[0]}.k = {names[-1]}.k")
        text += f" where {' and '.join(where)}" if where else ""
        items = ", ".join(self.pick(f"{self.pick(*names)}.k", f"{self.pick(*names)}.n - 1") + f" as c{it}" for it in range(2))
        return f"select {items}, {self.pick(*names)}.t as c2 {text}"

    def shared(self):
        """A join of columns that become one."""
        names = self.pick("k", "k, t")
        sides = [self.pick("join", "left join", "right join", "full join") for _ in range(self.chance.choice([1, 1, 2]))]
        text = "r x0" + "".join(f" {side} {table} x{n} using ({names})" for n, (side, table) in enumerate(zip(sides, "su"), start=1))
        where = self.pick("", " where k > 1", " where k is null or x0.n < 2", " where x1.n is null")
        items = "k, x0.n, x1.n as m, k + 1 as l" if names == "k" else "t, k, x0.n, x1.n as m"
        return f"select {self.pick('*', items)} from {text}{where}"

    def query(self):
        if self.rare(0.15):
            return self.shared()
        if self.rare(0.2):
            text = f"{self.select()} union all {self.select()}"
        else:
            text = self.select()
        if self.rare(0.5):
            keys = ", ".join(f"{it} {self.pick('', 'asc', 'desc')} {self.pick('', 'nulls first', 'nulls last')}" for it in ("c1", "2", "c0", "c2")[self.chance.randint(0, 1) :])
            text += f" order by {keys}" + (", c1" if "c1" not in keys and "2 " not in keys else "")
            if self.rare(0.5):
                text += f" limit {self.chance.randint(0, 4)}" + self.pick("", " offset 1")
        return text


@pytest.mark.program
@pytest.mark.parametrize("part", range(5))
def test_random_queries(part):
    types = dict.fromkeys(("r", "s", "u"), {"k": "Int64", "n": "Int64", "t": "String"})
    for number in range(part, QUERIES, 5):
        made = Queries(number)
        tables = made.tables()
        query = made.query()
        wanted = base_of(tables).execute(query).fetchall()
        given = lk.sql(query, frames_of(tables, types)).collect(chunk_rows=made.pick(1, 1000))
        assert collections.Counter(given) == collections.Counter(wanted), (number, query)
        if " order by " in query:
            assert list(given) == wanted, (number, query)
