#!/usr/bin/env python3
"""A work by SQLite in memory: by_sqlite.py WORK < job.json"""

import json
import sqlite3
import sys

INNER = "select l.k, l.a, r.b from f0 l join f1 r on l.k = r.k"
QUERIES = {
    "inner": INNER,
    "texts": INNER,
    "left_sorted": "select l.k, l.a, r.b from f0 l left join f1 r on l.k = r.k order by 1, 2, 3",
    "full": "select l.k, l.a, r.k as k_right, r.b from f0 l full join f1 r on l.k = r.k",
    "semi": "select l.k, l.a from f0 l where exists (select 1 from f1 r where r.k = l.k)",
    "anti": "select l.k, l.a from f0 l where not exists (select 1 from f1 r where r.k = l.k)",
    "filter_join_sort": INNER + " where l.a < 500 and r.b < 500 order by 1, 2, 3",
    "union": " union all ".join(f"select k from f{n} where a < 500" for n in range(4)),
    "filtered": "select k, a, k + a as sum from f0 where k < 100",
    "star": "select f0.*, name0, name1, name2, name3 from f0 join f1 using (k0) join f2 using (k1)"
    " join f3 using (k2) join f4 using (k3)",
}


def main():
    base = sqlite3.connect(":memory:")
    for number, frame in enumerate(json.load(sys.stdin)["frames"]):
        names = [it["name"] for it in frame["columns"]]
        base.execute(f"create table f{number} ({', '.join(names)})")
        marks = ", ".join("?" for _ in names)
        base.executemany(f"insert into f{number} values ({marks})", zip(*(it["values"] for it in frame["columns"])))
        # SQLite makes an index of its own for most joins, and none for a full one.
        base.execute(f"create index i{number} on f{number} ({names[0]})")
    found = base.execute(QUERIES[sys.argv[1]])
    encode = json.JSONEncoder(ensure_ascii=False, separators=(",", ":")).encode
    sys.stdout.write(encode([it[0] for it in found.description]) + "\n")
    sys.stdout.writelines(encode(row) + "\n" for row in found)


if __name__ == "__main__":
    main()
