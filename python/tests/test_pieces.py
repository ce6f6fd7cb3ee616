"""What is cut for plans in parts: pieces of files, blocks of rows, their places, jobs of parts, orders of rows."""

import collections
import datetime
import json
import os
import random
import sys
import types
import warnings
from decimal import Decimal

import liskevar as lk
import pytest
from conftest import TOP
from liskevar import columns, cutting, pieces, plain_fields, running
from liskevar.csv_files import Source, blocks
from liskevar.dtypes import DType

sys.path.append(os.path.join(TOP, "tools"))
import plain_jobs  # noqa: E402

INT = DType("Int64")


# ---- pieces


def records(source):
    return [row for it in list(blocks(source))[1:] for row in it]


@pytest.mark.parametrize("end", ["\n", "\r\n"])
def test_pieces_hold_the_records_of_the_file(write, end):
    chance = random.Random(end)
    texts = ["", "a", 'x"y', '"q"', '""', '"two\nlines"', '"a,b"', '"said ""no"""', "é", '"\r\n"', "\u2028"]
    for number in range(60):
        rows = [",".join(chance.choice(texts) for _ in range(2)) for _ in range(chance.randint(0, 12))]
        head = chance.choice(["a,b", '"a\n1",b', "\ufeffa,b"])
        path = write(f"{number}.csv", end.join([head, *rows]) + chance.choice(["", end] if rows else [end]))
        whole = list(blocks(Source(path, ",")))
        parts = pieces.sources_of(path, ",", chance.choice([1, 7, 30]))
        assert all(next(blocks(it)) == whole[0] for it in parts)
        assert [row for it in parts for row in records(it)] == records(Source(path, ","))


def test_what_pieces_tell_of_types_is_what_the_file_tells(write):
    chance = random.Random(5)
    kinds = [["1", "-2", ""], ["1.5", "2", ""], ["1.5", "-0", ".5"], ["true", "false", ""], ["ff00", "00"], ["", ""], ["x", '""'], ["1.2.2026", ""], ["1.5", "x"],
             ["18446744073709551615", "1"], ["18446744073709551616", "-1"], ["9" * 50, "1"]]  # fmt: skip
    wanted = [DType(base, scale) for base in ("Int32", "Int64", "UInt64", "Int128") for scale in (0, 1, 2, 18)]
    for number in range(80):
        kind = chance.choice(kinds)
        path = write(f"{number}.csv", "a,b\n" + "".join(f"{chance.choice(kind)},1\n" for _ in range(6)))
        (fields,) = (it for it in pieces.fields_of(Source(path, ","), None, None, False, 1)[0] if it.name == "a")
        parts = pieces.csv_pieces(path, {}, 4)
        looks = {"a": [it.looks(["a"])[0][0] for it in parts]}
        with warnings.catch_warnings(record=True) as told:
            warnings.simplefilter("always")
            (made,) = pieces.csv_columns(path, None, ["a"], looks)
            assert len(told) == (fields.looks in ("decimals", "dates"))
            assert fields.column(None).type.hint == made.type.hint
        for dtype in [*wanted, DType("Boolean"), DType("Binary"), DType("String")]:
            assert made.type.fits(dtype) == fields.fits(dtype), (path, dtype)
        assert made.type.is_empty == fields.is_empty


def test_a_mistake_in_a_piece_is_told_at_its_line_of_the_file(write):
    path = write("a.csv", 'k,a\n1,"x\ny"\n2,3\n4,5\n6\n')
    parts = pieces.sources_of(path, ",", 8)
    with pytest.raises(lk.Refused, match="a.csv, line 6: 1 fields, where the header has 2"):
        [records(it) for it in parts]
    *_, last = pieces.csv_pieces(write("b.csv", "k\n1\n2\nx\n"), {}, 2)
    with pytest.raises(lk.Refused, match=r"b.csv, line 4, column 1 \(k\): 'x' is no Int64"):
        last.cells({"k": INT})


# ---- blocks, places, orders


def scan_of(number, cut, key=-1, columns=(), schema=None):
    return cutting.Scan(number, number, 0, cut, key, tuple(columns), schema or {"k": INT, "a": INT})


def test_blocks_hold_each_row_as_it_is_told():
    held = pieces.HeldPiece({"k": [1, None, 1, 2, None, 3], "a": [1, 2, 3, 4, 5, 6]})
    scans = [scan_of(0, "split"), scan_of(1, "key", 7, ["k"]), scan_of(2, "whole")]
    found = cutting.cut_piece(held, 3, scans, cutting.Fineness(1 << 20, 9))
    rows = {}
    for it in found:
        blocks = [it.block([number]) for number in range(len(it.items))]
        assert [block.size for block in blocks] == list(cutting.sizes_of([it]).values())
        rows[it.scan] = [rows_of_block(block) for block in blocks]
        every = range(len(it.items))
        assert rows_of_block(it.block(every)) == [row for part in rows[it.scan] for row in part]
    every = sorted(zip(*held.held.values()), key=str)
    assert all(sorted((row for part in it for row in part), key=str) == every for it in rows.values())
    assert len(rows[0]) > 2 and len(rows[2]) == 1
    assert sorted([row[0] for row in part] for part in rows[1] if part[0][0] is not None) == [[1, 1], [2], [3]]
    assert [(None, 2), (None, 5)] in rows[1], "null keys lie together"
    assert found[0].items == tuple(("rows", 0, 3, it) for it in range(len(rows[0])))


def rows_of_block(block):
    """The rows of a block, whose sizes are those of its texts."""
    found = list(zip(*(json.loads(b"[%s]" % text.removesuffix(b",")) for text in block.texts)))
    assert len(found) == block.rows and block.size == sum(map(len, block.texts))
    return found


def test_keys_of_two_columns_lie_together():
    schema = {"k": INT, "d": DType("String")}
    held = pieces.HeldPiece({"k": [1, 1, 12, 1], "d": ["2", None, "", "2"]})
    scan = scan_of(0, "key", 7, ["d", "k"], schema)
    hashes = list(columns.key_hashes(held.columns(schema), scan.places(), 1 << 30))
    assert hashes[0] == hashes[3] and len(set(hashes)) == 3


TEXTS = ["", "a", "é", "a,b", "x" * 60, '"', "\\", "\n", "\x7f", "\u2028", "[1]", "null"]
CELLS = {
    "Int64": [0, -1, 7, 123456789012345678, None], "Int128": ["0", "-5", str(2**100), None],
    "String": [*TEXTS, None], "Boolean": [True, False, None], "Binary": ["", "00", "ff0a", None],
}  # fmt: skip


def some_cells(chance, base, height, count):
    """Cells of a type of which few are drawn, so that some columns have no null, or no long text."""
    drawn = chance.sample(CELLS[base], min(count, len(CELLS[base])))
    return [chance.choice(drawn) for _ in range(height)]


def test_columns_of_arrays_are_those_of_lists(monkeypatch):
    numpy, chance = pytest.importorskip("numpy"), random.Random(6)
    monkeypatch.setattr(columns, "CHUNK", 3)
    for _ in range(300):
        height = chance.randint(0, 8)
        cells = [some_cells(chance, it, height, chance.randint(1, 12)) for it in chance.sample(list(CELLS), 3)]
        hashes, size = chance.choice([1, 2, 7, 70_000]), chance.randint(1, 60)
        places = chance.sample(range(3), chance.randint(1, 3))
        found = []
        for it in (numpy, None):
            monkeypatch.setattr(columns, "numpy", it)
            made = list(map(columns.column_of, cells))
            assert [len(it) for it in made] == [height] * 3
            found.append([columns.by_hash(made, places, hashes), columns.by_size(made, size), columns.all_texts(made)])
            assert [json.loads(b"[%s]" % it.removesuffix(b",")) for it in found[-1][2]] == cells
            assert [list(map(json.loads, it.some(range(height)))) for it in made] == cells
        assert found[0] == found[1]
        for group, (start, end) in enumerate(zip([0, *found[0][1].ends[0]], found[0][1].ends[0])):
            assert found[0][1].sizes()[group] <= size or found[0][1].rows[group] == 1 and start < end


def test_plain_files_are_read_as_the_reader_of_csv_reads_them(write, monkeypatch):
    numpy, chance = pytest.importorskip("numpy"), random.Random(7)
    kinds = {
        "numbers": ["0", "7", "-3", "42", "999999999", "-1000000000", "123456789012345678", ""],
        "large": ["18446744073709551615", "-5", str(2**120), "1", ""], "odd": ["-0", "01", "+1", "1_0", " 1", "-", "٣", "1"],
        "even": ["10", "99", "1234", ""], "texts": ["a", "é", "x" * 60, "", "null", "a b"], "strange": ["\\", "\t", "\x01", "a"],
        "truths": ["true", "false", ""], "bytes": ["00", "ff", ""], "decimals": ["1.5", "-0.25", "3", ""], "none": [""],
        "cents": ["0.00", "-0.00", "0.05", "-0.05", "12.50", "-1234567890123456.78", "0.50", ""], "points": ["00.10", "1.50", "-.50", "1..50", "5", "-1.25"],
    }  # fmt: skip
    wanted = [DType(it) for it in ("Int32", "Int64", "UInt32", "UInt64", "Int128", "Boolean", "String", "Binary")] + [DType("Int64", 2)]
    plain, tried = set(), collections.Counter()
    for number in range(150):
        drawn = [chance.choice(list(kinds)) for _ in range(chance.randint(1, 3))]
        drawn = [chance.sample(kinds[it], min(len(kinds[it]), chance.randint(1, 8))) for it in drawn]
        names = [f"c{it}" for it in range(len(drawn))]
        mark, end = chance.choice(",\t"), chance.choice(["\n", "\n", "\r\n"])
        rows = [mark.join(chance.choice(it) for it in drawn) for _ in range(chance.randint(0, 9))]
        rows = [it.replace("\t", ",") if mark == "\t" and it.count("\t") >= len(names) else it for it in rows]
        path = write(f"{number}.{'tsv' if mark != ',' else 'csv'}", end.join([mark.join(names), *rows, ""]).removesuffix(chance.choice([end, ""])))
        piece, *_ = pieces.csv_pieces(path, {"empty_is_text": chance.random() < 0.3})
        found = []
        for it in (numpy, None):
            monkeypatch.setattr(columns, "numpy", it)
            made = [told_of_refused(piece.looks, names)]
            for dtype in wanted:
                told = told_of_refused(piece.columns, dict.fromkeys(names, dtype))
                made.append(told if isinstance(told, str) else [list(column.some(range(len(column)))) for column in told])
                tried[isinstance(told, str)] += 1
            found.append(made)
        assert found[0] == found[1], path
        monkeypatch.setattr(columns, "numpy", numpy)
        plain.add(plain_fields.fields_at(piece.source, len(names)) is None)
    assert plain == {True, False} and min(tried.values()) > 200


def told_of_refused(work, given):
    """What some work gives, or what it is refused with."""
    try:
        return work(given)
    except lk.Refused as error:
        return str(error)


def test_columns_and_csv_of_what_the_program_printed(monkeypatch):
    numpy, chance, plain = pytest.importorskip("numpy"), random.Random(8), collections.Counter()
    monkeypatch.setattr(columns, "CHUNK", 3)
    for _ in range(300):
        height, bases = chance.randint(0, 8), chance.sample(list(CELLS), 3)
        scales = [chance.choice([0, 2]) if it in ("Int64", "Int128") and chance.random() < 0.2 else 0 for it in bases]
        types = {f"c{place}": DType(base, scale) for place, (base, scale) in enumerate(zip(bases, scales))}
        cells = [some_cells(chance, it, height, chance.randint(1, 12)) for it in bases]
        rows = [[*types], *map(list, zip(*cells))]
        lines = "".join(json.dumps(it, ensure_ascii=False, separators=(",", ":")) + "\n" for it in rows).encode()
        answer = running.Answer(lines)
        skip, take = chance.choice([(0, height), (1, 3)])
        shown = dict(list(types.items())[: chance.randint(2, 3)])
        found = []
        for it in (numpy, None):
            monkeypatch.setattr(columns, "numpy", it)
            made = plain_fields.columns_of_lines(lines[answer.start :], 3)
            assert [list(map(json.loads, column.some(range(len(column))))) for column in made] == cells
            found.append(running.csv_text(answer, skip, take, shown, ",", ""))
        assert found[0] == found[1]
        monkeypatch.setattr(columns, "numpy", numpy)
        plain[plain_fields.csv_of_lines(answer.some(skip, take), 3, list(shown.values()), ",") is None] += 1
    assert min(plain[True], plain[False]) > 30


def test_ranges_of_sorted_answers():
    chance = random.Random(9)
    order = cutting.Order(((0, False, False, False), (1, True, True, False)))
    for _ in range(200):
        draw = lambda: [chance.choice([None, *range(9)]), chance.choice([None, "a", "b\n", "c"])]
        rows = sorted((draw() for _ in range(chance.randint(0, 30))), key=order.key)
        answer = running.Answer("".join(f"{json.dumps(it)}\n" for it in [["a", "b"], *rows]).encode())
        ends = sorted(order.key(draw()) for _ in range(chance.randint(0, 5)))
        found = running.ranged(answer, 3, order, ends)
        lines = [it for _, (part, some) in found for it in some.splitlines()]
        assert list(map(json.loads, lines)) == rows and all(part == 3 for _, (part, _) in found)
        for place, (_, some) in found:
            keys = [order.key(json.loads(it)) for it in some.splitlines()]
            assert all(place == sum(not key < it for it in ends) for key in keys)
        sampled = running.sample(answer, order, chance.choice([1, 4, 100]))
        keys = list(map(order.key, rows))
        assert all(it in keys for it in sampled) and bool(sampled) == bool(rows)


def test_no_part_has_more_than_there_is_room_for():
    chance = random.Random(3)
    for _ in range(200):
        room = chance.randint(1, 50)
        sizes = {("rows", it): chance.randint(0, room) for it in range(chance.randint(0, 30))}
        places, parts = cutting.placed(sizes, room, chance.randint(1, 5))
        held = collections.Counter()
        for it, part in places.items():
            held[part] += sizes[it]
        assert set(places) == set(sizes) and all(0 <= it < parts for it in places.values())
        assert max(held.values(), default=0) <= room


def test_rows_compare_as_the_plain_program_sorts_them():
    chance = random.Random(4)
    schema = {"n": INT, "w": DType("Int128"), "t": DType("String"), "b": DType("Boolean"), "x": DType("Binary")}
    cells = {"n": [-1, 2, 10, None], "w": ["-1", "2", "10", None], "t": ["", "é", "a", "\U0001f600", "\uffff", None],
             "b": [True, False, None], "x": ["", "00", "0a", "ff", None]}  # fmt: skip
    for _ in range(100):
        by = chance.sample(list(schema), chance.randint(1, 2))
        flags = [chance.random() < 0.5 for _ in range(4)]
        sort = {"node": "Sort", "input": 0, "by": by, "descending": flags[: len(by)], "nulls_last": flags[2 : 2 + len(by)], "slice": None}
        rows = [[chance.choice(it) for it in cells.values()] for _ in range(12)]
        frame = [{"name": name, "type": it.base, "values": list(column)} for (name, it), column in zip(schema.items(), zip(*rows))]
        scan = {"node": "DataFrameScan", "frame": 0, "columns": None}
        lines = plain_jobs.lines_of({"frames": [{"columns": frame}], "plan": [scan, sort], "root": 1, "row_limit": 99})
        order = cutting.order_of(sort, schema)
        assert sorted(rows, key=order.key) == [json.loads(it) for it in lines[1:]]


# ---- Parquet, by a stand-in of pyarrow


class ParquetFile:
    """A file of two groups of rows."""

    fields = {"k": "int32", "d": "decimal128(10, 2)", "t": "large_string", "b": "bool", "when": "date32[day]"}
    groups = [
        {"k": [1, None], "d": [Decimal("1.50"), None], "t": ["a", ""], "b": [True, None], "when": [datetime.date(2026, 11, 29), None]},
        {"k": [3], "d": [Decimal("-2.05")], "t": [None], "b": [False], "when": [None]},
    ]

    def __init__(self, path):
        if path != "a.parquet":
            raise FileNotFoundError(f"no {path}")
        named = [types.SimpleNamespace(name=name, type=it) for name, it in self.fields.items()]
        self.schema_arrow = type("Schema", (list,), {"names": list(self.fields)})(named)
        self.num_row_groups, self.metadata = 2, types.SimpleNamespace(num_rows=3)

    def read_row_group(self, group, columns):
        of = lambda name: types.SimpleNamespace(to_pylist=lambda: self.groups[group][name])
        assert set(columns) <= set(self.fields)
        return types.SimpleNamespace(column=of)


def test_parquet_files(monkeypatch):
    parquet = types.ModuleType("pyarrow.parquet")
    parquet.ParquetFile = ParquetFile
    module = types.ModuleType("pyarrow")
    module.parquet, module.ArrowException = parquet, type("ArrowException", (Exception,), {})
    monkeypatch.setitem(sys.modules, "pyarrow", module)
    monkeypatch.setitem(sys.modules, "pyarrow.parquet", parquet)
    table = pieces.parquet_table("a.parquet", None)
    wanted = {"k": DType("Int32"), "d": DType("Int64", 2), "t": DType("String"), "b": DType("Boolean"), "when": DType("String")}
    assert table.schema() == wanted and table.height == 3 and pieces.parquet_names("a.parquet") == list(wanted)
    assert table.pieces[0].cells(wanted) == [[1, None], [150, None], ["a", ""], [True, None], ["2026-11-29", None]]
    assert table.pieces[1].cells({"d": wanted["d"], "k": INT}) == [[-205], [3]]
    with pytest.raises(lk.Refused, match="b.parquet: no b.parquet"):
        pieces.parquet_table("b.parquet", None)
    monkeypatch.setitem(ParquetFile.fields, "x", "double")
    with pytest.raises(lk.Refused, match="a.parquet, column 'x': a column of double has no type here"):
        pieces.parquet_table("a.parquet", None)
    assert pieces.parquet_table("a.parquet", {"x": "Cents"}).schema()["x"] == DType("Int64", 2)
    monkeypatch.setitem(sys.modules, "pyarrow.parquet", None)
    with pytest.raises(lk.Refused, match="want pyarrow, which isn't there"):
        pieces.parquet_table("a.parquet", None)
