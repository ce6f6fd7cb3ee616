"""CSV in and out: types of a whole job, decimals, dates, nulls and empty texts, limits, refusals."""

import csv
import io
import json
import random
import warnings

import liskevar as lk
import pytest
from liskevar.csv_files import csv_lines, read_csv
from liskevar.job import BYTES_OF_A_JOB


def quiet(path, **told):
    with warnings.catch_warnings():
        warnings.simplefilter("ignore")
        return lk.scan_csv(path, **told)


def frames(job):
    return [{it["name"]: (it["type"], it["values"]) for it in frame["columns"]} for frame in json.loads(job)["frames"]]


# ---- types


def test_types_that_are_guessed(write):
    frame = lk.scan_csv(write("a.csv", "i,u,w,b,t,z,e\n-1,18446744073709551615,-170141183460469231731687303715884105728,true,007,,x\n2,1,1,false,1,,\n"))
    long = lk.scan_csv(write("l.csv", f"a,b\n{'9' * 5000},{'1' * 39}\n"))
    assert long.schema == {"a": "String", "b": "Int128"}
    assert frame.schema == {"i": "Int64", "u": "UInt64", "w": "Int128", "b": "Boolean", "t": "String", "z": "String", "e": "String"}


@pytest.mark.parametrize("left, right, found", [
    ("k\n", "k\n1\n", "Int64"),                            # a file with its header alone
    ("k\n1\n", "k\n", "Int64"),
    ("k,x\n,1\n", "k,y\n5,2\n", "Int64"),                  # an empty column
    ("k\n-1\n", "k\n1\n", "Int64"),
    ("k\n5\n", "k\n18446744073709551615\n", "UInt64"),     # Int64 beside UInt64
    ("k\n-5\n", "k\n18446744073709551615\n", "Int128"),
    ("k\n12\n", "k\nA12\n", "String"),
    ("k\ntrue\n", "k\n", "Boolean"),
])  # fmt: skip
def test_keys_get_one_type(write, left, right, found):
    made = lk.scan_csv(write("l.csv", left)).join(lk.scan_csv(write("r.csv", right)), on="k", how="full")
    assert made.schema["k"] == made.schema["k_right"] == found
    assert {frame["k"][0] for frame in frames(made.job())} == {found}


def test_unions_and_unpivots_get_one_type(write):
    a, b = lk.scan_csv(write("a.csv", "k,v\n1,\n")), lk.scan_csv(write("b.csv", "k,v\nx,2\n"))
    assert lk.concat([a, b]).schema == {"k": "String", "v": "Int64"}
    assert b.unpivot(["k", "v"]).schema == {"variable": "String", "value": "String"}
    assert a.schema["k"] == "Int64", "a plan changes no other"


def test_a_type_is_one_through_the_whole_plan(write):
    a, b = lk.scan_csv(write("a.csv", "k\n1\n")), lk.scan_csv(write("b.csv", "k\nx\n"))
    assert a.join(b, on="k").schema == {"k": "String"}
    with pytest.raises(lk.PlanError, match="Int64 and String"):
        a.filter(lk.col("k") > "x")
    assert a.filter(lk.col("k") > 0).schema == {"k": "Int64"}


def test_decimals_are_told_or_warned_of(write):
    path = write("a.csv", "id,amount\n1,12.50\n2,3\n3,-0.05\n4,\n")
    with pytest.warns(lk.TypeWarning, match="looks like decimals.*amount:Cents"):
        assert lk.scan_csv(path).schema["amount"] == "String"
    frame = lk.scan_csv(path, types={"amount": "Cents"})
    assert frame.schema["amount"] == "Cents"
    assert frames(frame.job())[0]["amount"] == ("Int64", [1250, 300, -5, None])
    assert frames(frame.filter(lk.col("amount") > 3).job()) == frames(frame.job())
    plan = json.loads(frame.filter(lk.col("amount") > 3).job())["plan"]
    assert plan[1]["predicate"] == {"gt": [{"col": "amount"}, {"lit": {"type": "Int64", "value": 300}}]}
    with pytest.raises(lk.Refused, match=r"line 4, column 2 \(amount\): '-0.05' is no Decimal1"):
        lk.scan_csv(path, types={"amount": "Decimal1"}).select("id", "amount")
    with pytest.raises(lk.PlanError, match="look like decimals: tell Cents"):
        quiet(path).filter(lk.col("amount") > 3)


def test_dates(write):
    path = write("a.csv", "day,iso\n29.11.2026,2026-11-29\n01.02.2025,2025-02-01\n")
    with pytest.warns(lk.TypeWarning, match="'day' looks like dates"):
        lk.scan_csv(path)
    frame = lk.scan_csv(path, types={"day": "%d.%m.%Y"})
    assert frames(frame.job())[0]["day"] == frames(frame.job())[0]["iso"] == ("String", ["2026-11-29", "2025-02-01"])
    with pytest.raises(lk.Refused, match="line 3, column 1.*isn't of the form"):
        lk.scan_csv(write("b.csv", "day\n29.11.2026\n2026-11-29\n"), types={"day": "%d.%m.%Y"})


# ---- fields


def test_nulls_and_empty_texts(write):
    frame = lk.scan_csv(write("a.csv", 'a,b,n\n"",,1\n,"",""\nx,"""",3\n'))
    assert frames(frame.job())[0] == {"a": ("String", ["", None, "x"]), "b": ("String", [None, "", '"']), "n": ("Int64", [1, None, 3])}


def test_quotes_inside_of_fields(write):
    rows = 'a,b,c\n5" pipe,"",x\n"two\n"",""\nlines","",""\n6",7"," "\n"",,""\n'
    frame = lk.scan_csv(write("a.csv", rows))
    assert frames(frame.job())[0] == {
        "a": ("String", ['5" pipe', 'two\n","\nlines', '6"', ""]), "b": ("String", ["", "", '7"', None]), "c": ("String", ["x", "", " ", ""]),
    }  # fmt: skip


def test_empty_fields_are_told_apart_as_csv_has_them(write):
    chance = random.Random(3)
    for number in range(400):
        text = "a,b\n" + "".join(chance.choice(['"', '""', ",", "\n", "\r\n", "x", " "]) for _ in range(chance.randint(1, 14)))
        try:
            plain = list(csv.reader(io.StringIO(text, newline=""), strict=True))
        except csv.Error:
            plain = None
        if plain is None or any(len(it) != 2 for it in plain):
            with pytest.raises(lk.Refused):
                read_csv(write(f"{number}.csv", text))
            continue
        table = read_csv(write(f"{number}.csv", text), types={"a": "String", "b": "String"})
        cells = list(zip(*(it.spell(it.type) for it in table.columns)))
        assert [[it or "" for it in row] for row in cells] == plain[1:], text


def test_marks_of_order_and_line_ends(write):
    frame = lk.scan_csv(write("a.csv", b'\xef\xbb\xbf"a",b\r\n1,"x\r\ny"\r\n2,""\r\n'))
    assert frames(frame.job())[0] == {"a": ("Int64", [1, 2]), "b": ("String", ["x\r\ny", ""])}


@pytest.mark.parametrize("delimiter", [",", "\t"])
def test_fields_come_back(write, delimiter):
    chance = random.Random(7)
    parts = ["", "a", '"', '""', ",", "\t", "\n", "\r\n", "é", " ", "null", '","', '"",""']
    for number in range(200):
        width = chance.randint(2, 4)
        cell = lambda: None if chance.random() < 0.2 else "".join(chance.choice(parts) for _ in range(chance.randint(0, 3)))
        rows = [tuple(cell() for _ in range(width)) for _ in range(chance.randint(1, 5))]
        text = "".join(csv_lines([f"c{it}" for it in range(width)], rows, delimiter, chance.choice(["\n", "\r\n"])))
        table = read_csv(write(f"{number}.csv", text), delimiter=delimiter, types={f"c{it}": "String" for it in range(width)})
        assert list(zip(*(it.spell(it.type) for it in table.columns))) == rows
        plain = list(csv.reader(io.StringIO(text, newline=""), delimiter=delimiter))[1:]
        assert plain == [[it or "" for it in row] for row in rows]


def test_one_column_has_no_blank_line():
    lines = list(csv_lines(["a"], [(1,), (None,), (3,)]))
    assert lines == ["a\n", "1\n", '""\n', "3\n"]
    with pytest.raises(lk.Refused, match="--null"):
        list(csv_lines(["a"], [("",), (None,)]))
    assert list(csv_lines(["a"], [("",), (None,), ("NULL",)], null="NULL")) == ["a\n", '""\n', "NULL\n", '"NULL"\n']


@pytest.mark.parametrize("text, words", [
    ("", "line 1: no header"),
    ("a,b\n1\n", "line 2: 1 fields, where the header has 2"),
    ("a,b\n\n1,2\n", "line 2: an empty line"),
    ("a,a\n1,2\n", "columns 1 and 2: the name 'a' stands twice"),
    ('a,b\n1,"x\n', "line 2"),
    (b"a\n\xff\n", "line 2, byte 1: not UTF-8"),
])  # fmt: skip
def test_files_that_are_refused(write, text, words):
    with pytest.raises(lk.Refused, match=words):
        lk.scan_csv(write("a.csv", text))


def test_types_that_are_refused(write):
    path = write("a.csv", "a\nx\n")
    for types, words in [({"b": "Int64"}, "no column 'b'"), ({"a": "Float"}, "'Float' is no type"), ({"a": "Int64"}, "line 2, column 1")]:
        with pytest.raises(lk.Refused, match=words):
            lk.scan_csv(path, types=types)
    with pytest.raises(lk.Refused, match="No such file"):
        lk.scan_csv(path + "x")


# ---- what goes into the job


def test_only_columns_that_are_read_go_into_the_job(write):
    a, b = lk.scan_csv(write("a.csv", "k,x,y,z\n1,2,3,4\n")), lk.scan_csv(write("b.csv", "k,x,w\n1,5,6\n"))
    made = a.join(b, on="k").filter(lk.col("y") > 0).select("x_right")
    assert [list(it) for it in frames(made.job())] == [["k", "x", "y"], ["k", "x"]]
    assert [list(it) for it in frames(a.select("z").job())] == [["z"]]
    assert [list(it) for it in frames(lk.concat([a, a]).select("z").job())] == [["k", "x", "y", "z"]]


def test_a_table_is_one_frame(write):
    a = lk.scan_csv(write("a.csv", "k,x\n1,2\n"))
    job = json.loads(a.join(a.select("k"), on="k").job())
    assert len(job["frames"]) == 1 and [it.get("frame") for it in job["plan"]] == [0, 0, None] or len(job["plan"]) == 4


def test_a_job_that_is_too_long_is_told(write, monkeypatch):
    assert BYTES_OF_A_JOB == 33_554_432
    path = write("a.csv", "k,text\n" + "".join(f"{it},{'x' * 100}\n" for it in range(1000)))
    monkeypatch.setattr("liskevar.job.BYTES_OF_A_JOB", 50_000)
    with pytest.raises(lk.JobTooLong, match="a.csv, columns k, text: .* Take fewer columns"):
        lk.scan_csv(path).job()
    assert lk.scan_csv(path).select("k").job()
    with pytest.raises(lk.JobTooLong, match="by row"):
        read_csv(path, jobs=1)
