"""Plans in parts, run on Dask's workers.

Where no program is built, and where a worker is killed, it is a stand-in that evaluates jobs by plain loops
(tools/plain_jobs.py).
"""

import collections
import csv
import io
import json
import os
import random
import signal
import stat
import subprocess
import sys
import xml.dom.minidom

import liskevar as lk
import pytest
from conftest import TOP
from liskevar import cli
from liskevar.csv_files import read_csv
from liskevar.job import Settings, plan_of
from test_random_plans import Plans

sys.path.append(os.path.join(TOP, "tools"))
import plain_jobs  # noqa: E402

distributed = pytest.importorskip("distributed", reason="Dask isn't there (Debian: python3-dask, python3-distributed)")
from liskevar import distribute  # noqa: E402
from liskevar.cluster import Limits, Run  # noqa: E402

# How many random plans, and from which seed on.
PLANS, SEED = int(os.environ.get("LISKEVAR_PLANS_IN_PARTS", "8")), int(os.environ.get("LISKEVAR_SEED", "400"))
STAND_IN = os.path.join(TOP, "tools", "plain_jobs.py")
SMALL = Limits(piece=40, aim=60)


def called(words, text=b""):
    """What the plain program does, in this process."""
    if words[0] == "--help":
        return subprocess.CompletedProcess(words, 0, b"liskevar run\nliskevar parts\nliskevar parts --rows N,N,..\n", b"")
    status, told = plain_jobs.answered(list(words), text)
    return subprocess.CompletedProcess(words, status, b"" if status else told, told if status else b"")


@pytest.fixture(scope="module")
def client():
    """Two workers on threads of this process, which ask the plain program where no proved one is built."""
    patch = pytest.MonkeyPatch()
    if "LISKEVAR_PROGRAM" not in os.environ:
        patch.setenv("LISKEVAR_PROGRAM", STAND_IN)
        patch.setattr("liskevar.program._called", called)
    told = {"processes": False, "n_workers": 2, "threads_per_worker": 1, "dashboard_address": "127.0.0.1:0"}
    with distributed.Client(**told) as made:
        yield made
    patch.undo()


# ---- whole runs


def in_parts(client, frame, limits=SMALL, **numbers):
    run = Run(client, limits)
    return distribute.collect(run, plan_of(frame._ended()), Settings(**numbers), frame.types)


def test_random_plans_in_parts(client):
    tried = 0
    for seed in range(SEED, SEED + 100 * PLANS):
        made = Plans(seed)
        frame, model, *_ = made.plan(3)
        if frame._node.kind == "DataFrameScan" or len(model.rows) > 60:
            continue
        tried += 1
        rows, done = in_parts(client, frame)
        assert collections.Counter(rows) == collections.Counter(model.rows), seed
        assert done.rows == len(rows) and done.retried == 0
        if tried == PLANS:
            break


def write_star(write, height=40):
    chance = random.Random(1)
    key = lambda: chance.choice(["", *map(str, range(12))])
    sales = write("sales.csv", "k,p,n\n" + "".join(f"{key()},{chance.randrange(4)},{it}\n" for it in range(height)))
    stock = write("stock.csv", "k,s\n" + "".join(f'{key()},"{it}\nx"\n' for it in range(height // 2)))
    names = write("names.csv", 'p,name\n0,\n1,""\n2,"a,b"\n')
    return sales, stock, names


QUERY = "select sales.k, n, s, name from sales full join stock on sales.k = stock.k left join names on sales.p = names.p"


def outputs(capsys, words):
    assert cli.main(words) == 0
    return capsys.readouterr()


def test_csv_files_in_parts_by_the_command_line(client, write, capsys, tmp_path, monkeypatch):
    monkeypatch.setattr("liskevar.cluster.Limits.__new__.__defaults__", (150, 300, 33_554_432, 0))
    files = [f"{name}={path}" for name, path in zip(("sales", "stock", "names"), write_star(write))]
    wanted = outputs(capsys, ["sql", QUERY, *files, "--csv", "--types", "name:String"]).out
    words = ["distribute", "--sql", QUERY, *files, "--types", "name:String", "--scheduler", client.scheduler.address]
    out, told = outputs(capsys, [*words, "--parts", "5"])
    assert out.splitlines()[0] == wanted.splitlines()[0]
    same = lambda text: collections.Counter(map(tuple, records_of(text)))
    assert same(out) == same(wanted)
    assert told.splitlines()[-1].startswith("parts ") and f"rows {len(records_of(out))}," in told and "retried 0" in told
    assert "running" in told and "[####" in told
    path = tmp_path / "out.csv"
    quiet = outputs(capsys, [*words, "--quiet", "--output", str(path)])
    assert same(path.read_text()) == same(wanted) and quiet.out == "" and quiet.err.count("\n") == 1


def records_of(text):
    return list(csv.reader(io.StringIO(text, newline="")))[1:]


@pytest.mark.parametrize("end", ["order by n desc", "order by k, n limit 7 offset 3", "order by name desc, n"])
def test_a_sort_of_more_rows_than_a_job_holds(client, write, end):
    paths = write_star(write, 60)
    run = Run(client, Limits(piece=200, aim=200, job=2600))
    names = ("sales", "stock", "names")
    frames = {name: lk.frame.frame_of(distribute.read_table(run, path)) for name, path in zip(names, paths)}
    whole = {name: lk.scan_csv(path) for name, path in zip(names, paths)}
    query = f"select sales.k, n, name from sales left join names on sales.p = names.p {end}"
    made = lk.sql(query, frames)
    rows, _ = distribute.collect(run, plan_of(made._ended()), Settings(), made.types)
    assert rows == lk.sql(query, whole).collect()


def test_a_plan_that_cannot_be_cut_is_run_in_one_part(client):
    rows = lk.from_rows([(it % 5, it) for it in range(20)], ["k", "a"])
    frame = rows.sort("a").slice(2, 9).filter(lk.col("k") > 0)
    found, done = in_parts(client, frame)
    assert found == frame.collect() and done.parts == 1
    with pytest.raises(lk.Refused, match=r"all of rows, .* bytes \(the plan can't be cut: node \d, .*\); a job has"):
        in_parts(client, frame, Limits(job=600))


def test_what_is_too_large_is_refused_with_what_it_is(client):
    many = lk.from_rows([("é" if it % 3 else "x", it) for it in range(600)], ["k", "a"], name="many")
    few = lk.from_rows([("x", 1), (None, 2)], ["k", "b"], name="few")
    full = many.join(few, on="k", how="full")
    with pytest.raises(lk.Refused, match=r'the key k "é" is too frequent: its 400 rows have [0-9,]+ bytes, go into one part'):
        in_parts(client, full, Limits(job=3000))
    with pytest.raises(lk.Refused, match="each part needs a plan of .* bytes, and all of many, .* bytes; a job has at most 3,000"):
        in_parts(client, many.join(many, how="cross"), Limits(job=3000))
    with pytest.raises(lk.Refused, match="a row has more than"):
        in_parts(client, lk.from_rows([("x" * 900,), ("y",)], ["k"]).filter(lk.col("k") != "y"), Limits(job=700))
    with pytest.raises(lk.TooMany, match="a part: error 7: TooMany at node 2") as told:
        three = lk.from_rows([(1,), (2,), (3,)], ["k"])
        in_parts(client, three.join(three, how="cross").filter(lk.col("k") == 1), row_limit=3)
    assert told.value.place is not None


def test_keys_that_share_a_hash_are_cut_finer(client, monkeypatch):
    monkeypatch.setattr("liskevar.distribute.LEAST_HASHES", 1)
    sides = [lk.from_rows([(it, it) for it in range(200)], ["k", name]) for name in "ab"]
    frame = sides[0].join(sides[1], on="k", how="full", coalesce=True)
    rows, done = in_parts(client, frame, Limits(job=1000, aim=10_000))
    assert sorted(rows) == [(it, it, it) for it in range(200)] and 5 < done.parts < 30


def test_many_parts_and_more_parts_than_rows(client):
    """More than 32 parts make Dask's shuffle one of two stages."""
    left = lk.from_rows([(it % 40, it) for it in range(80)], ["k", "a"])
    right = lk.from_rows([(it, it) for it in range(20, 60)], ["k", "b"])
    frame = left.join(right, on="k", how="full", coalesce=True)
    rows, done = in_parts(client, frame, Limits(aim=10, parts=45))
    assert done.parts == 45 and collections.Counter(rows) == collections.Counter(frame.collect())
    one = lk.from_rows([(1, 2)], ["k", "c"]).join(lk.from_rows([], ["k"]), on="k", how="left")
    rows, done = in_parts(client, one, Limits(aim=1, parts=5))
    assert rows == [(1, 2)] and done.parts == 1


def test_a_frame_says_it_itself(client):
    left = lk.from_rows([(1, "a"), (2, "b"), (None, "c")], ["k", "a"])
    rows = left.join(left, on="k", how="left").distribute(scheduler=client.scheduler.address)
    assert sorted(rows, key=str) == [(1, "a", "a"), (2, "b", "b"), (None, "c", None)]
    assert rows.types == left.join(left, on="k", how="left").types


def test_a_worker_that_is_killed_in_the_middle(write, tmp_path, monkeypatch):
    """Two worker processes; the first job that a program runs kills the worker above it."""
    done = tmp_path / "killed"
    text = f"""#!{sys.executable}
import os, signal, subprocess, sys
if sys.argv[1:] == ["run"]:
    try:
        os.close(os.open({str(done)!r}, os.O_CREAT | os.O_EXCL))
        os.kill(os.getppid(), {int(signal.SIGKILL)})
    except FileExistsError:
        pass
sys.exit(subprocess.run([sys.executable, {STAND_IN!r}, *sys.argv[1:]]).returncode)
"""
    path = tmp_path / "program"
    path.write_text(text)
    path.chmod(path.stat().st_mode | stat.S_IXUSR)
    monkeypatch.setenv("LISKEVAR_PROGRAM", str(path))
    monkeypatch.setenv("PYTHONDONTWRITEBYTECODE", "1")
    paths = write_star(write)
    with distribute.cluster(local=2) as made:
        run = Run(made, Limits(piece=150, aim=300))
        frames = {it: lk.frame.frame_of(distribute.read_table(run, file)) for it, file in zip(("sales", "stock", "names"), paths)}
        frame = lk.sql(QUERY, frames)
        rows, told = distribute.collect(run, plan_of(frame._ended()), Settings(), frame.types)
    assert done.exists() and told.retried >= 1 and told.parts >= 2
    whole = lk.sql(QUERY, {it: lk.frame.frame_of(read_csv(file)) for it, file in zip(("sales", "stock", "names"), paths)})
    assert collections.Counter(rows) == collections.Counter(whole.collect())


def test_a_picture_of_parts(client, write, capsys, monkeypatch):
    monkeypatch.setattr("liskevar.cluster.Limits.__new__.__defaults__", (150, 300, 33_554_432, 0))
    files = [f"{name}={path}" for name, path in zip(("sales", "stock", "names"), write_star(write))]
    words = ["distribute", "--sql", f"{QUERY} order by n", *files, "--types", "name:String", "--scheduler", client.scheduler.address]
    text = outputs(capsys, [*words, "--svg", "--parts", "5"]).out
    shown = [it.firstChild.data for it in xml.dom.minidom.parseString(text).getElementsByTagName("text")]
    assert shown.count("cut by k") == 2 and "all of it in each part" in shown and "over the rows of all parts" in shown
    told = [it for it in shown if it.startswith("bytes of part ")]
    assert len(told) == 5 and all("sales.csv " in it and "names.csv " in it and "(all)" in it for it in told)


def test_workers_that_are_gone(monkeypatch):
    """A scheduler whose only worker ends, and none comes in its place."""
    monkeypatch.setenv("LISKEVAR_PROGRAM", STAND_IN)
    monkeypatch.setattr("liskevar.program._called", called)
    told = {"processes": False, "n_workers": 1, "threads_per_worker": 1, "dashboard_address": "127.0.0.1:0"}
    with distributed.Client(**told) as made:
        run = Run(made)
        run.patience = 3
        made.cluster.scale(0)
        with pytest.raises(lk.Refused, match="cutting: no worker is left since 3 seconds"):
            distribute.collect(run, plan_of(lk.from_rows([(1,)], ["k"])._ended()), Settings(), {})


def test_what_is_missing_is_told(client, monkeypatch, write, capsys):
    monkeypatch.setattr("liskevar.cluster.distributed", None)
    assert cli.main(["distribute", "--sql", "select k from a", write("a.csv", "k\n1\n")]) == 1
    assert "Dask, which isn't there" in capsys.readouterr().err
    monkeypatch.undo()
    with pytest.raises(lk.Refused, match="want pyarrow, which isn't there|No such file"):
        distribute.read_table(Run(client), "a.parquet")
