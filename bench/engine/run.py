#!/usr/bin/env python3
"""Runs whole plans over frames in memory by the engine and by its peers in turn, compares what they answer, and prints
medians in milliseconds and ratios.

    bench/engine/run.py [--in FOLDER] [--turns N] [--before PROGRAM]

The engine runs each plan by 1, 2 and 4 workers; its peers are the same by hand in Rust (`rustc -O`, one thread), R's
data.table by one thread and by four, and pandas, where they are there. All work on the same frames, in memory before
the clock starts. A ratio is the engine's median by one worker over the peer's; data.table by 4 is compared with the
engine by 4. The engine's program is built in FOLDER, which is kept, or else in a folder that is removed. PROGRAM is that of
another state of the sources, built in a folder of its own (`--in` there keeps it): it is run in turn with this one, by as
many workers.
"""

import argparse
import collections
import shutil
import statistics
import subprocess
import sys
import tempfile
from pathlib import Path

HERE = Path(__file__).resolve().parent
sys.path.insert(0, str(HERE.parent))
import against_rust  # noqa: E402


BY = "", " by 2", " by 4"


def peers(programs, frames, before):
    """The commands of those that are there, and the names of the others."""
    commands, missing = {"ours": [programs["ours"]], "rust": [programs["rust"]]}, []
    if before:
        commands["before"] = [before]
    if shutil.which("Rscript") and subprocess.run(["Rscript", "-e", "library(data.table)"], capture_output=True).returncode == 0:
        for threads in "1", "4":
            commands[f"data.table by {threads}"] = ["Rscript", HERE / "by_data_table.R", frames, threads]
    else:
        missing.append("data.table")
    for python in sys.executable, "/usr/bin/python3":
        if subprocess.run([python, "-c", "import pandas"], capture_output=True).returncode == 0:
            commands["pandas"] = [python, HERE / "by_pandas.py", frames]
            break
    else:
        missing.append("pandas")
    return commands, missing


def measure(commands, turns):
    """For each side the times by name; all must agree on the numbers."""
    times, numbers = {side: collections.defaultdict(list) for side in commands}, {}
    for _ in range(turns):
        for side, command in commands.items():
            for line in subprocess.run(command, capture_output=True, text=True, check=True).stdout.splitlines():
                name, nanoseconds, number = line.rsplit(" ", 2)
                times[side][name].append(int(nanoseconds) / 1e6)
                plan = name.removesuffix(" by 2").removesuffix(" by 4")
                if numbers.setdefault(plan, number) != number:
                    sys.exit(f"{name}: {side} answers {number}, another {numbers[plan]}")
    return {side: {name: statistics.median(it) for name, it in of.items()} for side, of in times.items()}


def cells_beside(ours, side, of, plan):
    """The times of a side, each with the ratio of the engine's time over it."""
    if side == "before":
        pairs = [(ours[plan + by], of[plan + by]) for by in BY]
    else:
        pairs = [(ours[plan + BY[2]] if side.endswith("by 4") else ours[plan], of[plan])]
    return [cell for mine, theirs in pairs for cell in (f"{theirs:.0f}", f"{mine / theirs:.2f}")]


def main(top, turns, before):
    against_rust.make_repository(top, ["engine"])
    programs = against_rust.build(top, "engine")
    frames = top / "frames"
    frames.mkdir(exist_ok=True)
    subprocess.run([programs["rust"], frames], check=True)
    commands, missing = peers(programs, frames, before)
    found = measure(commands, turns)
    ours, others = found.pop("ours"), found
    print(f"medians of {3 * turns} runs, milliseconds; not there: {', '.join(missing) or 'none'}")
    columns = {side: [f"before by {it}" for it in (1, 2, 4)] if side == "before" else [side] for side in others}
    head = ["plan", "by 1", "by 2", "by 4", "1 over 4", *(cell for side in others for it in columns[side] for cell in (it, "ratio"))]
    print("| " + " | ".join(head) + " |\n|" + "---|" * len(head))
    for plan in others["rust"]:
        one, two, four = (ours[plan + by] for by in BY)
        cells = [plan, f"{one:.0f}", f"{two:.0f}", f"{four:.0f}", f"{one / four:.2f}"]
        for side, of in others.items():
            cells += cells_beside(ours, side, of, plan)
        print("| " + " | ".join(cells) + " |")


if __name__ == "__main__":
    parser = argparse.ArgumentParser(description=__doc__, formatter_class=argparse.RawDescriptionHelpFormatter)
    parser.add_argument("--in", dest="folder", type=Path)
    parser.add_argument("--turns", type=int, default=3)
    parser.add_argument("--before", type=lambda it: Path(it).resolve())
    given = parser.parse_args()
    if given.folder:
        given.folder.mkdir(parents=True, exist_ok=True)
        main(given.folder.resolve(), given.turns, given.before)
    else:
        with tempfile.TemporaryDirectory() as made:
            main(Path(made), given.turns, given.before)
