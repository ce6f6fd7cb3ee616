#!/usr/bin/env python3
"""A left join by SQLite in memory, made anew after each thousand edits, of the JSON on standard input: the names of its
columns and its rows at the end. Nothing is told of an edit. The key is the first column of both tables, and has an index.
"""

import json
import sqlite3
import sys

EVERY = 1000


def main():
    asked = json.load(sys.stdin)
    database = sqlite3.connect(":memory:")
    names = [[it["name"] for it in frame["columns"]] for frame in asked["frames"]]
    for table, columns, frame in zip(("l", "r"), names, asked["frames"]):
        database.execute(f"create table {table} ({', '.join(columns)})")
        marks = ", ".join("?" * len(columns))
        database.executemany(f"insert into {table} values ({marks})", zip(*(it["values"] for it in frame["columns"])))
        database.execute(f"create index by_{table} on {table} ({columns[0]})")
    key = names[0][0]
    columns = [f"l.{it}" for it in names[0]] + [f"r.{it}" for it in names[1][1:]]
    joined = f"from l left join r on l.{key} = r.{names[1][0]}"
    words = {}
    for table, side, own in (("l", "left", names[0]), ("r", "right", names[1])):
        marks = ", ".join("?" * len(own))
        same = " and ".join(f"{it} is ?" for it in own)
        words[side, "insert"] = f"insert into {table} values ({marks})"
        words[side, "remove"] = f"delete from {table} where rowid = (select rowid from {table} where {same} limit 1)"
    sizes = []
    for number, (side, word, row) in enumerate(asked["edits"]):
        database.execute(words[side, word], row)
        if (number + 1) % EVERY == 0:
            sizes.append(database.execute(f"select count(*) {joined}").fetchone()[0])
    order = ", ".join(str(n + 1) for n in range(len(columns)))
    rows = database.execute(f"select {', '.join(columns)} {joined} order by {order}")
    out = sys.stdout
    out.write(json.dumps([*names[0], *names[1][1:]], separators=(",", ":")) + "\n")
    out.writelines(json.dumps(row, separators=(",", ":")) + "\n" for row in rows)


if __name__ == "__main__":
    main()
