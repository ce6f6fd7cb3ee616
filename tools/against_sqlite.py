#!/usr/bin/env python3
"""Compares the program's rows with those of SQLite for ten joins over CSV files that are hard to read.

    tools/against_sqlite.py [--program ./liskevar] [--seed N]

The files are made from a seed: fields with separators, quotes and line breaks in them, a mark of byte order, lines that
end in carriage return and newline, last columns that are empty, names that aren't ASCII, a header in which a name stands
twice (other names are given in its place), numbers past 64 bits, and 200,000 rows. SQLite reads their fields as texts by
Python's `csv`, an empty one as null, so that nothing but the files is shared with the Python package.
"""

import argparse
import collections
import csv
import io
import json
import os
import random
import sqlite3
import subprocess
import sys
import tempfile

TOP = os.path.dirname(os.path.dirname(os.path.abspath(__file__)))
TEXTS = ["Anna", "Díaz, Eva", 'said "no"', "two\nlines", "  spaces ", "007", "-", "Größe", "日本", "null", "true"]


def texts_of(rows, end="\r\n"):
    file = io.StringIO()
    csv.writer(file, lineterminator=end).writerows(rows)
    return file.getvalue()


def write_files(folder, chance):
    """The files, each with the names of its columns."""
    some = lambda values, empty: "" if chance.random() < empty else str(chance.choice(values))
    wide = [2**64, -(2**63) - 1, 170141183460469231731687303715884105727, 5]
    orders = [[some(range(40), 0.1), some(range(3), 0.1), some(TEXTS, 0.2), some(wide, 0.1), ""] for _ in range(300)]
    payments = [[some(range(50), 0.1), some(range(3), 0.1), some(TEXTS, 0.2), some(wide, 0.1)] for _ in range(400)]
    many = [[str(n % 150_000), chance.choice(TEXTS), str(n)] for n in range(200_000)]
    few = [[str(n * 7), some(TEXTS, 0.0)] for n in range(20_000)]
    made = {
        "orders.csv": (["Nummer", "part", "Größe", "wide", "leer"], orders, "\ufeff", "\r\n", None),
        "payments.csv": (["Nummer", "part", "text", "text"], payments, "", "\n", ["Nummer", "part", "text", "wide"]),
        "many.csv": (["schlüssel", "text", "number"], many, "", "\n", None),
        "few.csv": (["id", "text"], few, "\ufeff", "\r\n", None),
    }
    for name, (header, rows, front, end, _) in made.items():
        with open(os.path.join(folder, name), "w", encoding="utf-8", newline="") as file:
            file.write(front + texts_of([header, *rows], end))
    return {name: names or header for name, (header, _, _, _, names) in made.items()}


def load(base, folder, columns):
    """Reads each file into a table of texts."""
    for name, names in columns.items():
        with open(os.path.join(folder, name), encoding="utf-8-sig", newline="") as file:
            rows = list(csv.reader(file))[1:]
        table = name.removesuffix(".csv")
        base.execute(f"create table {table} ({', '.join(f'{quoted(it)} text' for it in names)})")
        marks = ", ".join("?" for _ in names)
        base.executemany(f"insert into {table} values ({marks})", [[it or None for it in row] for row in rows])


def quoted(name):
    return '"' + name.replace('"', '""') + '"'


# What is joined: the files, further words for `python3 -m liskevar join`, and the same for SQLite.
BOTH = "o.Nummer = p.Nummer and o.part = p.part"
NULLS = "o.Nummer is p.Nummer and o.part is p.part"
LEFT = 'o.Nummer, o.part, o."Größe", o.wide, o.leer'
PAIR = f"{LEFT}, p.text, p.wide"
FULL = f"{LEFT}, p.Nummer, p.part, p.text, p.wide"
SMALL = ("orders.csv", "payments.csv")
LARGE = ("many.csv", "few.csv")
LARGE_ON = ["--left-on", "schlüssel", "--right-on", "id"]
JOINS = [
    (SMALL, ["--how", "inner", "--on", "Nummer"],
     f"select {LEFT}, p.part, p.text, p.wide from orders o join payments p on o.Nummer = p.Nummer"),
    (SMALL, ["--how", "inner", "--on", "Nummer,part", "--nulls-equal"],
     f"select {PAIR} from orders o join payments p on {NULLS}"),
    (SMALL, ["--how", "left", "--on", "Nummer,part"],
     f"select {PAIR} from orders o left join payments p on {BOTH}"),
    (SMALL, ["--how", "full", "--on", "Nummer,part"],
     f"select {FULL} from orders o full join payments p on {BOTH}"),
    (SMALL, ["--how", "full", "--on", "Nummer,part", "--nulls-equal"],
     f"select {FULL} from orders o full join payments p on {NULLS}"),
    (SMALL, ["--how", "semi", "--on", "Nummer,part"],
     f"select {LEFT} from orders o where exists (select 1 from payments p where {BOTH})"),
    (SMALL, ["--how", "anti", "--left-on", "Größe", "--right-on", "text"],
     f'select {LEFT} from orders o where not exists (select 1 from payments p where o."Größe" = p.text)'),
    (SMALL, ["--how", "inner", "--on", "wide", "--columns", "Nummer,Nummer_right,wide", "--sort", "wide:desc",
             "--sort", "Nummer:nulls_last"],
     "select o.Nummer, p.Nummer, o.wide from orders o join payments p on o.wide = p.wide"),
    (LARGE, ["--how", "inner", *LARGE_ON, "--sort", "number"],
     'select m."schlüssel", m.text, m.number, f.text from many m join few f on m."schlüssel" = f.id'
     " order by cast(m.number as integer)"),
    (LARGE, ["--how", "full", *LARGE_ON],
     'select m."schlüssel", m.text, m.number, f.id, f.text from many m full join few f on m."schlüssel" = f.id'),
]  # fmt: skip


def cell(value):
    """A cell as a text, null as none."""
    return value if value is None or isinstance(value, str) else json.dumps(value)


def rows_of(program, folder, files, words, names):
    """The rows that the program gives."""
    words = [sys.executable, "-m", "liskevar", "join", *files, *words, "--job"]
    for name in files:
        words += ["--names", texts_of([names[name]], "")]
    environment = {**os.environ, "PYTHONPATH": os.path.join(TOP, "python"), "PYTHONDONTWRITEBYTECODE": "1"}
    job = subprocess.run(words, cwd=folder, capture_output=True, check=True, env=environment)
    done = subprocess.run([program, "run"], input=job.stdout, capture_output=True)
    if done.returncode != 0:
        raise SystemExit(f"{' '.join(words)}: status {done.returncode}: {done.stderr.decode()}")
    return [tuple(map(cell, json.loads(line))) for line in done.stdout.splitlines()[1:]]


def main():
    parser = argparse.ArgumentParser(description=__doc__, formatter_class=argparse.RawDescriptionHelpFormatter)
    parser.add_argument("--program", default=os.path.join(TOP, "liskevar"))
    parser.add_argument("--seed", type=int, default=1)
    given = parser.parse_args()
    differ = 0
    with tempfile.TemporaryDirectory() as folder:
        names = write_files(folder, random.Random(given.seed))
        base = sqlite3.connect(":memory:")
        load(base, folder, names)
        base.execute('create index few_id on few (id)')
        base.execute('create index many_key on many ("schlüssel")')
        for number, (files, words, query) in enumerate(JOINS, start=1):
            found = rows_of(given.program, folder, files, words, names)
            wanted = base.execute(query).fetchall()
            same = collections.Counter(found) == collections.Counter(wanted)
            if "order by" in query:
                same = found == wanted
            differ += not same
            print(f"{number:2}. {len(wanted):7} rows, {'the same' if same else 'DIFFERENT'}: {' '.join(words)}")
    print(f"{len(JOINS)} joins, {differ} differ")
    return 1 if differ else 0


if __name__ == "__main__":
    sys.exit(main())
