"""Plans with cuts that the rules don't allow, at least one for each kind of node: some such cut gives other rows.

Each is a job, the node whose rows the parts give, the gather plan, and the cuts of its scans in the form of the command
`parts`. The cut `nulls anywhere` is one by key, but for rows with a null, which lie in any part.
"""


def column(name):
    return {"col": name}


def frame(**columns):
    return {"columns": [{"name": name, "type": "Int64", "values": values} for name, values in columns.items()]}


LEFT = frame(k=[1, 1, 2, 3, None], a=[1, 2, 2, 3, 1])
RIGHT = frame(k=[1, 2, 2, 4, None], b=[2, 2, 1, 4, 1])
THIRD = frame(k=[1, 2, 4, None], c=[1, 2, 3, 4])


def scan(number):
    return {"node": "DataFrameScan", "frame": number, "columns": None}


def join(how, left=0, right=1, on=("k",), right_on=None, **told):
    keys = {"left_on": list(map(column, on)), "right_on": list(map(column, right_on or on))}
    node = {
        "node": "Join", "left": left, "right": right, **keys, "how": how, "join_nulls": False,
        "coalesce": "KeepColumns", "suffix": f"_{right}", "rows_left": [None, 0], "rows_right": [None, 0],
    }  # fmt: skip
    return {**node, **told}


def sort(below, cut):
    return {"node": "Sort", "input": below, "by": ["a"], "descending": [False], "nulls_last": [False], "slice": cut}


def case(plan, cuts, root=None, gather=None, frames=(LEFT, RIGHT, THIRD)):
    """A job over three frames, cut as the words say: split, whole, or the columns of a key, which all scans share."""
    numbers = {"version": 1, "workers": 1, "chunk_rows": 2, "row_limit": 1000}
    job = {**numbers, "frames": list(frames), "plan": plan, "root": len(plan) - 1}
    scans = []
    for (n, node), word in zip(((n, it) for n, it in enumerate(plan) if "frame" in it), cuts):
        is_key = word not in ("split", "whole")
        kind = "nulls anywhere" if word.endswith("?") else "key"
        key = {"cut": kind, "key": 9, "columns": word.rstrip("?").split(",")}
        scans.append({"node": n, "frame": node["frame"], **(key if is_key else {"cut": word})})
    return job, job["root"] if root is None else root, gather, scans


def over(kind, **told):
    """A node over one scan that each part has whole."""
    return case([scan(0), {"node": kind, "input": 0, **told}], ["whole"])


def keyed(kind, cut, **told):
    """A join whose left side is a node over a scan that is cut by the wrong column."""
    return case([scan(0), {"node": kind, "input": 0, **told}, scan(1), join("inner", 1, 2)], [cut, "k"])


def named(name, expr):
    return {"name": name, "expr": expr}


ONE = {"lit": {"type": "Int64", "value": 1}}
GATHER = [scan(0), sort(0, [1, 2])]
A_AS_B = {"node": "Rename", "input": 0, "pairs": [{"existing": "a", "new": "b"}]}
UNION = [scan(0), A_AS_B, scan(1), {"node": "Union", "inputs": [1, 2]}]
VALUES = {"node": "Unpivot", "input": 0, "on": ["k", "a"], "index": [], "variable": "n", "value": "v"}
RENAMED = {"node": "Rename", "input": 1, "pairs": []}
SWAPPED = [{"existing": "k", "new": "a"}, {"existing": "a", "new": "k"}]
FULL = [scan(0), scan(1), join("full"), scan(2)]

WRONG = {
    "a scan, whole": case([scan(0)], ["whole"]),
    "Filter, whole": over("Filter", predicate={"is_not_null": column("a")}),
    "SimpleProjection, whole": over("SimpleProjection", columns=["a"]),
    "Select, whole": over("Select", exprs=[named("x", column("a"))]),
    "HStack, whole": over("HStack", exprs=[named("x", column("a"))]),
    "Rename, whole": over("Rename", pairs=[{"existing": "a", "new": "x"}]),
    "Unpivot, whole": over("Unpivot", on=["a"], index=["k"], variable="variable", value="value"),
    "HStack that replaces the key": keyed("HStack", "k", exprs=[named("k", {"add": [column("k"), ONE]})]),
    "HStack that puts another column in the key's place": keyed("HStack", "k", exprs=[named("k", column("a"))]),
    "Select that swaps names": keyed("Select", "k", exprs=[named("k", column("a")), named("a", column("k"))]),
    "Rename that swaps names": keyed("Rename", "k", pairs=SWAPPED),
    "Unpivot whose values are the key": case(
        [scan(0), VALUES, scan(1), join("inner", 1, 2, on=["v"], right_on=["k"])], ["k", "k"]
    ),
    "Filter below a join, its other side's key": keyed("Filter", "a", predicate={"is_not_null": column("a")}),
    "SimpleProjection below a join, by another column": keyed("SimpleProjection", "a", columns=["a", "k"]),
    "a union's first input whole": case(UNION, ["whole", "split"]),
    "a union's second input whole": case(UNION, ["split", "whole"]),
    "a union's inputs by two keys": case([*UNION, scan(2), join("inner", 3, 4)], ["k", "b", "k"]),
    "a union's input by rows under a join by key": case([*UNION, scan(2), join("inner", 3, 4)], ["k", "split", "k"]),
    "a sort with a slice below, split": case([scan(0), sort(0, [1, 2]), RENAMED], ["split"]),
    "a sort with a slice below, whole": case([scan(0), sort(0, [1, 2]), RENAMED], ["whole"]),
    "a sort below, whole": case([scan(0), sort(0, None), RENAMED], ["whole"]),
    "a slice in each part with the offset": case([scan(0), sort(0, [1, 2])], ["split"], gather=GATHER),
    "a sort with a slice at the root, whole": case([scan(0), sort(0, [1, 2])], ["whole"], root=0, gather=GATHER),
    "an inner join, both sides by rows": case([scan(0), scan(1), join("inner")], ["split", "split"]),
    "an inner join, both sides whole": case([scan(0), scan(1), join("inner")], ["whole", "whole"]),
    "an inner join, a side by another column": case([scan(0), scan(1), join("inner")], ["a", "k"]),
    "a left join's right side by rows": case([scan(0), scan(1), join("left")], ["whole", "split"]),
    "a left join, both sides by rows": case([scan(0), scan(1), join("left")], ["split", "split"]),
    "a semi join's right side by rows": case([scan(0), scan(1), join("semi")], ["whole", "split"]),
    "a semi join, both sides by rows": case([scan(0), scan(1), join("semi")], ["split", "split"]),
    "an anti join's right side by rows": case([scan(0), scan(1), join("anti")], ["whole", "split"]),
    "an anti join, both sides by rows": case([scan(0), scan(1), join("anti")], ["split", "split"]),
    "a cross join, both sides by rows": case([scan(0), scan(1), join("cross", on=())], ["split", "split"]),
    "a full join's left side by rows": case([scan(0), scan(1), join("full")], ["split", "whole"]),
    "a full join's right side by rows": case([scan(0), scan(1), join("full")], ["whole", "split"]),
    "a full join, both sides by rows": case([scan(0), scan(1), join("full")], ["split", "split"]),
    "null keys parted where nulls meet": case([scan(0), scan(1), join("inner", join_nulls=True)], ["k?", "k?"]),
    "a key below a full join": case([*FULL, join("inner", 2, 3, join_nulls=True)], ["k", "k", "k"]),
    "a key of two columns in two orders": case(
        [scan(0), scan(1), join("inner", on=("k", "a"), right_on=("k", "b"))], ["k,a", "b,k"]
    ),
    "a frame that two scans read, cut once for both": case(
        [scan(0), scan(0), join("inner", on=("k",), right_on=("a",))], ["k", "k"]
    ),
}
