"""What a person meets: mistakes at their own line, statuses as exceptions, values in and out, the command line."""

import datetime
import io
import json
import os
import subprocess
import sys
import xml.dom.minidom
from decimal import Decimal

import liskevar as lk
import pytest
from liskevar import cli, program
from liskevar.errors import BY_STATUS
from liskevar.expr import names_in

HERE = os.path.abspath(__file__)


@pytest.fixture
def orders():
    return lk.from_rows([(1, 500, "Anna"), (2, 250, None)], ["order", "amount", "customer"], name="orders")


def line_of(text):
    with open(HERE, encoding="utf-8") as file:
        return next(number for number, line in enumerate(file, start=1) if text in line)


# ---- mistakes, told at the call


@pytest.mark.parametrize("work, fault, words", [
    (lambda o: o.select("amuont"), "UnknownColumn", "no column 'amuont'; there are order, amount, customer; did you mean 'amount'?"),
    (lambda o: o.filter(lk.col("amount")), "TypeMismatch", "Int64 and Boolean"),
    (lambda o: o.filter(lk.col("customer") > 5), "TypeMismatch", "String and Int64"),
    (lambda o: o.with_columns(x=lk.col("customer") + 1), "TypeMismatch", "String"),
    (lambda o: o.with_columns(x=lk.lit(2**127)), "TypeMismatch", "doesn't fit 128 bits"),
    (lambda o: o.select("order", "order"), "DuplicateName", "'order' stands twice"),
    (lambda o: o.select(), "BadNode", "no column"),
    (lambda o: o.select(lk.lit(1)), "BadNode", "has no name"),
    (lambda o: o.join(o, on="customer", left_on="order"), "BadJoin", "on stands for both sides"),
    (lambda o: o.join(o, how="cross", on="order"), "BadJoin", "a cross join has no key"),
    (lambda o: o.join(o), "BadJoin", "0 left keys"),
    (lambda o: o.join(o, on="ordre"), "UnknownColumn", "in the left frame"),
    (lambda o: o.join(o, on=lk.col("order") + 1), "BadJoin", "coalesce=False"),
    (lambda o: o.join(o, on="order", suffix=""), "DuplicateName", "give another suffix"),
    (lambda o: o.join(o, on="order", how="outer left"), "BadJoin", "none of inner"),
    (lambda o: o.join(o, left_on="order", right_on="customer").filter(lk.col("order") > 1), "TypeMismatch", ""),
    (lambda o: o.sort("x"), "UnknownColumn", "no column 'x'"),
    (lambda o: o.sort("order", "order"), "BadSort", "twice"),
    (lambda o: o.sort("order", descending=[True, False]), "BadSort", "2 flags in descending, for 1 keys"),
    (lambda o: o.slice(-1, 2), "BadSort", "from row -1"),
    (lambda o: o.head(2**64), "BadSort", "a slice of"),
    (lambda o: o.rename({"order": "amount"}), "DuplicateName", "'amount'"),
    (lambda o: o.unpivot([]), "BadNode", "unpivoted"),
    (lambda o: o.unpivot(["order"], index="amount", value_name="amount"), "DuplicateName", "'amount'"),
    (lambda o: lk.concat([o, o.select("order")]), "TypeMismatch", "columns differ"),
    (lambda o: lk.concat([]), "BadNode", "nothing"),
    (lambda o: o.collect(workers=257), "BadConfig", "workers is 257, and goes from 1 to 256"),
    (lambda o: o.select("order").select("amount"), "UnknownColumn", "there are order"),
])  # fmt: skip
def test_mistakes_are_told_at_the_call(orders, work, fault, words):
    with pytest.raises(lk.PlanError) as told:
        work(orders)
    assert told.value.fault == fault and words in str(told.value) and told.value.status == 6
    assert str(told.value.place).startswith(HERE)


def test_the_place_is_the_users_own_line(orders):
    with pytest.raises(lk.PlanError) as told:
        orders.filter(lk.col("amonut") > 3)  # the mistake
    assert told.value.place.text == f"{HERE}:{line_of('# the mis' + 'take')}"
    assert told.value.place.source.startswith("orders.filter(")


def test_expressions_have_no_truth():
    with pytest.raises(TypeError, match="write & for and"):
        lk.col("a") > 1 and lk.col("b") > 2


# ---- statuses


@pytest.mark.parametrize("status", range(1, 11))
def test_each_status_is_an_exception(status):
    told = program.refusal(status, f"error {status}: some fault\n", (), 0)
    assert type(told) is BY_STATUS[status] and told.status == status
    assert type(program.refusal(status, "", (), 0)) is BY_STATUS[status]


def test_the_node_of_a_status_is_told_by_its_line(orders):
    made = orders.join(orders, how="cross")
    told = program.refusal(7, "error 7: TooMany at node 2\n", [None, None, made._node], 3)
    assert isinstance(told, lk.TooMany) and told.node == 2 and told.place is made._node.place
    assert "more than 3 rows; set row_limit" in str(told) and "how=" in told.place.source


def test_what_a_line_tells():
    told = program.refusal(6, 'error 6: UnknownColumn at node 1: "x\\"y"\n', (), 0)
    assert (told.fault, told.node, told.name) == ("UnknownColumn", 1, 'x"y')
    assert program.refusal(10, "liskevar: no toolchain\n", (), 0).words.endswith("status 10: liskevar: no toolchain")


@pytest.fixture
def stand_in(tmp_path, monkeypatch):
    """Puts in the program's place what refuses each job with a status and, if it has that command, tells why."""

    def work(status, why=None):
        path = tmp_path / f"stand_in_{status}_{why is not None}"
        tells = f"echo 'liskevar why [FILE]' ;;\nwhy) grep -q '\"plan\"' && printf '%s\\n' '{why}'; exit {status}" if why else ""
        refuses = f"echo 'error {status}: TooMany at node 0' >&2; exit {status}"
        path.write_text(f"#!/bin/sh\ncase $1 in\n--help) echo 'liskevar run'; {tells} ;;\n*) {refuses} ;;\nesac\n")
        path.chmod(0o755)
        monkeypatch.setenv("LISKEVAR_PROGRAM", str(path))

    return work


@pytest.mark.parametrize("status", range(1, 11))
def test_why_is_told_where_the_program_tells_it(orders, stand_in, status):
    words = "node 0 gives 2 rows\n  and 1 is the limit"
    stand_in(status, words)
    with pytest.raises(BY_STATUS[status]) as told:
        orders.collect()
    is_told = status in (4, 5, 6, 7)
    assert told.value.why == (words if is_told else "") and str(told.value).endswith(words) == is_told
    assert told.value.node == 0 and "TooMany at node 0" in told.value.words


@pytest.mark.parametrize("why", [None, "ok\n1 node"])
def test_without_a_why_the_line_stands_alone(orders, stand_in, why):
    stand_in(7, why)
    with pytest.raises(lk.TooMany) as told:
        orders.collect(row_limit=1)
    assert told.value.why == "" and str(told.value).endswith("set row_limit (--row-limit) higher if that is meant")


@pytest.mark.program
def test_too_many_rows(orders):
    with pytest.raises(lk.TooMany) as told:
        orders.join(orders, how="cross").collect(row_limit=3)  # too many
    assert told.value.node == 2 and told.value.place.text.endswith(f":{line_of('# too ' + 'many')}")


# ---- values


VALUES = {
    "Int32": [2**31 - 1, -(2**31), 0], "Int64": [2**63 - 1, -(2**63), 0], "UInt32": [2**32 - 1, 0], "UInt64": [2**64 - 1, 0],
    "Int128": [2**127 - 1, -(2**127), 0], "Boolean": [True, False], "Binary": [b"", b"\x00\xff"],
    "String": ["", 'said "no"', "two\nlines", "\x00\x1f", "é\U0001f600\u2028", "null"],
    "Decimal9": [Decimal("0E-9"), Decimal("1.000000001")], "Cents": [Decimal("-0.05"), Decimal("92233720368547758.07"), Decimal("1.00")],
}  # fmt: skip


@pytest.mark.program
@pytest.mark.parametrize("dtype", VALUES)
def test_values_come_back(dtype):
    rows = [(it, n) for n, it in enumerate([*VALUES[dtype], None])]
    given = lk.from_rows(rows, ["v", "n"], types={"v": dtype}).sort("n").collect()
    assert list(given) == rows
    assert [type(it[0]) for it in given] == [type(it[0]) for it in rows]
    assert list(lk.from_rows(rows, ["v", "n"], types={"v": dtype}).filter(lk.col("v").is_null()).collect()) == rows[-1:]


@pytest.mark.program
def test_decimals_are_turned_back():
    prices = lk.from_rows([(Decimal("2.50"), 3), (Decimal("0.1"), 10)], ["price", "n"])
    made = prices.with_columns(total=lk.col("price") * lk.col("n")).filter(lk.col("price") < 2.6).sort("n")
    assert made.schema == {"price": "Cents", "n": "Int64", "total": "Cents"}
    assert list(made.collect()) == [(Decimal("2.50"), 3, Decimal("7.50")), (Decimal("0.10"), 10, Decimal("1.00"))]
    assert lk.from_rows([(Decimal("0E-9"), 1)], ["a", "b"]).collect().to_csv() == "a,b\n0.000000000,1\n"
    assert made.collect().to_csv() == "price,n,total\n2.50,3,7.50\n0.10,10,1.00\n"


def test_rows_of_python(orders):
    assert lk.from_rows([{"a": 1}, {"b": "x"}]).schema == {"a": "Int64", "b": "String"}
    days = lk.from_rows([(datetime.date(2026, 11, 29),)], ["d"])
    assert json.loads(days.job())["frames"][0]["columns"][0]["values"] == ["2026-11-29"]
    tenths, eighths = (lk.from_rows([(Decimal(it),)], ["a"]) for it in ("2.5", "0.125"))
    assert tenths.schema == {"a": "Decimal1"} and tenths.join(eighths, on="a").schema == {"a": "Decimal3"}
    with pytest.raises(lk.Refused, match="doesn't fit 128 bits"):
        lk.from_rows([(2**128,)], ["a"])
    for rows, words in [([(1, "x"), (2,)], "row 1: 1 values for 2"), ([(1, 1.5)], "float"), ([(1, "x"), ("y", 2)], "int, str")]:
        with pytest.raises(lk.Refused, match=words):
            lk.from_rows(rows, ["a", "b"])
    with pytest.raises(lk.Refused, match="isn't Unicode"):
        lk.from_rows([("a\ud800",)], ["a"]).job()
    with pytest.raises(lk.Refused, match="types: rows has no column 'z'"):
        lk.from_rows([(1,)], ["a"], types={"z": "Int64"})


@pytest.mark.program
def test_pandas_both_ways():
    pandas = pytest.importorskip("pandas")
    given = pandas.DataFrame({"i": [1, 2], "f": [1.0, None], "t": ["x", None], "b": [True, False]}, index=[7, 7])
    frame = lk.from_pandas(given)
    assert frame.schema == {"i": "Int64", "f": "Int64", "t": "String", "b": "Boolean"}
    back = frame.sort("i").to_pandas()
    assert back["i"].tolist() == [1, 2] and back["f"].isna().tolist() == [False, True] and back["t"].tolist() == ["x", None]
    assert str(back["i"].dtype) == "Int64" and str(back["b"].dtype) == "boolean"
    with pytest.raises(lk.Refused, match="'Cents'"):
        lk.from_pandas(pandas.DataFrame({"a": [1.5]}))
    assert lk.from_pandas(pandas.DataFrame({"a": [1.5]}), types={"a": "Cents"}).schema == {"a": "Cents"}


# ---- plans


def test_chains_are_balanced():
    frame = lk.from_rows([(1,)], ["a"])
    made = frame.filter(lk.col("a").is_in(range(5000)))
    depth = lambda it: 1 + max(map(depth, it.values() if isinstance(it, dict) else it), default=0) if isinstance(it, (dict, list)) else 0
    assert depth(json.loads(made.job())) < 40
    chain = lk.col("a") == 0
    for number in range(1, 2000):
        chain = chain | (lk.col("a") == number)
    assert depth(json.loads(frame.filter(chain).job())) < 40 and len(names_in(chain)) == 2000
    deep = lk.col("a")
    for number in range(70):
        deep = deep - 1
    with pytest.raises(lk.PlanError, match="nests 71 deep"):
        frame.with_columns(b=deep)


def test_many_nodes():
    frame = lk.from_rows([(1,)], ["a"])
    for _ in range(4095):
        frame = frame.filter(lk.col("a") > 0)
    assert len(json.loads(frame.job())["plan"]) == 4096
    with pytest.raises(lk.TooMany, match="4,096"):
        frame.filter(lk.col("a") > 0).job()


def test_an_order_stands_to_the_end(orders):
    plan = lambda it: [node["node"] for node in json.loads(it.job())["plan"]]
    by = orders.sort("amount", descending=True)
    assert plan(by.filter(lk.col("order") > 0).select("customer")) == ["DataFrameScan", "Filter", "Select", "Sort"]
    assert by.select("customer").columns == ["customer"]
    assert plan(by.head(1)) == ["DataFrameScan", "Sort"]
    assert plan(by.rename({"amount": "x"})) == ["DataFrameScan", "Rename", "Sort"]
    assert json.loads(by.rename({"amount": "x"}).job())["plan"][2]["by"] == ["x"]
    assert plan(by.join(orders, on="order")) == ["DataFrameScan", "DataFrameScan", "Join"]


@pytest.mark.program
def test_sorted_rows_without_their_key(orders):
    assert list(orders.sort("amount").select("customer").collect()) == [(None,), ("Anna",)]
    assert list(orders.sort("amount").with_columns(amount=0 - lk.col("amount")).collect()) == [(2, -250, None), (1, -500, "Anna")]
    assert list(orders.sort("amount").with_columns(amount=lk.lit(0)).drop("order").rename({"customer": "c"}).head(1).collect()) == [(0, None)]


def test_a_kept_join_says_its_edits(orders):
    kept = lk.KeptJoin(orders, lk.from_rows([(1, "x")], ["order", "note"]), on="order", how="left", row_limit=9)
    kept.insert("left", (3, 4, None))
    kept.remove("right", {"order": 1, "note": "x"})
    told = json.loads(kept.text())
    assert told["edits"] == [["left", "insert", [3, 4, None]], ["right", "remove", [1, "x"]]]
    assert set(told) == {"version", "row_limit", "frames", "join", "edits"} and told["row_limit"] == 9
    assert (told["join"]["left"], told["join"]["right"], told["join"]["how"]) == (0, 1, "left")
    with pytest.raises(lk.Refused, match="no row of the columns order, note"):
        kept.insert("right", (1,))
    with pytest.raises(lk.Refused, match="column 'order': 'x' is no Int64"):
        kept.insert("right", ("x", "x"))


@pytest.mark.program
def test_kept_joins_are_replayed(orders):
    if not lk.offers("replay-edits"):
        pytest.skip("the program has no replay-edits yet")
    kept = lk.KeptJoin(orders, lk.from_rows([(1, "x")], ["order", "note"]), on="order", how="left")
    kept.insert("right", (2, "y"))
    kept.remove("left", (9, 9, None))
    edits, rows = kept.replay()
    assert [(it.came, it.went, it.is_absent) for it in edits] == [(1, 1, False), (0, 0, True)]
    assert list(rows) == [(1, 500, "Anna", "x"), (2, 250, None, "y")]


@pytest.mark.program
def test_reconciliations(orders):
    payments = lk.from_rows([("a", 1), ("b", 7)], ["id", "order"])
    told = lk.reconcile(orders, payments, on="order")
    assert told.counts == (1, 1, 1, 1) and told.left == [0, None] and list(told.right_only()) == [("b", 7)]
    assert list(lk.reconcile(orders.filter(lk.col("order") > 1), payments, on="order").left_only()) == [(2, 250, None)]


# ---- pictures


def test_pictures_are_xml_for_any_name():
    names = ["<a&b>", 'q"', "\x00\x01", "\x7f\ufffe", "\ud800", "é\u202e", "]]>", "x" * 300]
    frame = lk.from_rows([tuple(range(len(names)))], names)
    drawn = frame.filter(lk.col(names[0]) > 1).sort(names[:2], descending=[True, False], nulls_last=[False, True]).head(3).show()
    xml.dom.minidom.parseString(drawn.encode())
    assert "↓" in drawn and "↑ nulls last" in drawn and "3 rows from row 0" in drawn and "Int64" in drawn


def test_the_picture_of_the_readme(examples, monkeypatch):
    top = os.path.dirname(examples)
    with open(os.path.join(top, "README.md"), encoding="utf-8") as file:
        code = file.read().partition("```python\n")[2].partition("print(")[0]
    monkeypatch.chdir(top)
    made = {}
    exec(code, made)
    with open(os.path.join(top, "docs", "report.svg"), encoding="utf-8") as file:
        assert made["report"].show() == file.read()


# ---- the command line


def run(*words, told=b"", status=0):
    """Calls the command line in this process; gives what it prints."""
    out, err = io.BytesIO(), io.StringIO()
    before = sys.stdout, sys.stderr, sys.stdin
    wrapper = io.TextIOWrapper(out, encoding="utf-8")
    sys.stdout, sys.stderr, sys.stdin = wrapper, err, io.TextIOWrapper(io.BytesIO(told))
    try:
        given = cli.main(words)
        wrapper.flush()
    finally:
        sys.stdout, sys.stderr, sys.stdin = before
    assert given == status, err.getvalue()
    return out.getvalue().decode() if status == 0 else err.getvalue()


@pytest.fixture
def two(examples):
    return os.path.join(examples, "orders.csv"), os.path.join(examples, "payments.csv")


@pytest.mark.program
def test_two_files_to_rows(two):
    told = run("join", *two, "--on", "order,part", "--how", "anti", "--sort", "order", "--csv")
    assert told == 'order,part,amount,customer\n1002,2,75,Bob\n1004,1,90,\n1005,1,300,"Díaz, Eva"\n'
    told = run("join", *two, "--on", "order,part", "--columns", "customer,paid", "--sort", "amount:desc", "--sort", "paid", "--csv")
    assert told == "customer,paid\nAnna,500\nBob,50\nBob,200\nChloé,100\n"
    assert "(4 rows)" in run("join", *two, "--on", "order,part")


@pytest.mark.parametrize("words, status, told", [
    (["--on", "order", "--columns", "amuont"], 6, "--columns: no column 'amuont'; there are order, part, amount, customer, part_right, paid, method; did you mean 'amount'?"),
    (["--on", "ordr"], 6, "--on: no column 'ordr' in the left frame"),
    (["--on", "order", "--sort", "x:desc"], 6, "--sort: no column 'x'"),
    (["--on", "order", "--types", "x:Int64"], 1, "--types names 'x', which is no column of any file"),
    (["--on", "order", "--types", "order:Money"], 1, "'Money' is no type"),
    (["--on", "order", "--left-on", "order"], 1, "--left-on nor --right-on"),
    (["--on", "order", "--how", "semi", "--suffix", "x"], 1, "--suffix doesn't apply"),
    (["--on", "order", "--how", "cross"], 6, "a cross join has no key"),
    (["--on", "order", "--null", "x"], 1, "it wants --csv"),
    (["--on", "order", "--names", "a", "--names", "b", "--names", "c"], 1, "3 times, for 2 files"),
    ([], 6, "0 left keys"),
])  # fmt: skip
def test_flags_that_do_not_apply_are_refused(two, words, status, told):
    assert told in run("join", *two, *words, status=status)


def test_names_with_colons(write):
    a, b = write("a.csv", "k,x:desc,y:z\n1,2,3\n"), write("b.csv", "k\n1\n")
    for text, by, descending in [("x:desc", "x:desc", False), ("x:desc:desc", "x:desc", True), ("y:z", "y:z", False), ("k:desc,nulls_last", "k", True)]:
        sort = json.loads(run("join", a, b, "--on", "k", "--sort", text, "--job"))["plan"][-1]
        assert (sort["by"], sort["descending"]) == ([by], [descending])


def test_plans_of_json(two, examples, write):
    plan = os.path.join(examples, "open_orders.json")
    job = json.loads(run("plan", plan, *two, "--job"))
    with open(plan, encoding="utf-8") as file:
        nodes = json.load(file)
    assert job["plan"][2:4] == nodes[2:4] and [it["name"] for it in job["frames"][1]["columns"]] == ["order", "part", "paid"]
    assert job["plan"][4] == {**nodes[4], "descending": [False, False], "nulls_last": [False, False]}
    nodes[3]["predicate"] = {"is_null": {"col": "piad"}}
    assert "node 3: no column 'piad'" in run("plan", write("p.json", json.dumps(nodes)), *two, "--job", status=6)
    assert "node 0 isn't as docs/FORMATS.md has it" in run("plan", write("p.json", '[{"node":"Scan"}]'), *two, "--job", status=1)
    drawn = run("draw", write("job.json", json.dumps(job)))
    xml.dom.minidom.parseString(drawn.encode())


def test_lines_to_csv():
    assert run("csv", told=b'["a","b"]\n[1,""]\n[null,"x,y"]\n') == 'a,b\n1,""\n,"x,y"\n'
    assert run("csv", "--crlf", "--tabs", told=b'["a"]\n[null]\n') == 'a\r\n""\r\n'
    assert "no line: was the job refused?" in run("csv", told=b"", status=1)
    assert "line 2: 1 cells" in run("csv", told=b'["a","b"]\n[1]\n', status=1)


def test_closed_pipes_end_quietly():
    words = [sys.executable, "-m", "liskevar", "csv"]
    given = b'["a"]\n' + b"[1]\n" * 200_000
    environment = {**os.environ, "PYTHONPATH": os.path.dirname(os.path.dirname(HERE))}
    with subprocess.Popen(words, stdin=subprocess.PIPE, stdout=subprocess.PIPE, stderr=subprocess.PIPE, env=environment) as it:
        it.stdin.write(given)
        it.stdin.close()
        it.stdout.readline()
        it.stdout.close()
        assert it.stderr.read() == b""
        assert it.wait() == 141


@pytest.mark.program
def test_sql_of_files(two):
    pytest.importorskip("sqlglot")
    query = 'select o.customer, p.paid from o join p on o."order" = p."order" and o.part = p.part order by p.paid desc limit 2'
    words = ["sql", query, f"o={two[0]}", f"p={two[1]}"]
    assert run(*words, "--csv") == "customer,paid\nAnna,500\nBob,200\n"
    columns = [[it["name"] for it in frame["columns"]] for frame in json.loads(run(*words, "--job"))["frames"]]
    assert columns == [["order", "part", "customer"], ["order", "part", "paid"]]
    assert run("sql", "select amount, paid from o natural join p order by paid limit 1", *words[2:], "--csv") == "amount,paid\n250,50\n"
    assert run(*words, "--explain").startswith("df -> generic_join_build\n")
    assert "line 1, column 8: no column x" in run("sql", "select x from o", f"o={two[0]}", status=1)
