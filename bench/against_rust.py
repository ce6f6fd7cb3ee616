#!/usr/bin/env python3
"""Builds each named benchmark over the crates and its counterpart by `rustc -O`, runs them in turn, and prints
medians in milliseconds and their ratios.

    against_rust.py [--in FOLDER] NAME..

It builds in FOLDER, which it keeps, or else in a folder that it removes.

A benchmark is a folder beside this script:
    main.rattle     the program over the crates, as src/main.rt
    proofs/F.txt    the loop invariants of its function F, if it wants any
    proofs/F/A.txt  a file A of the proof of its function F
    crates          the crates that it uses, in one line
    plain.rs        the counterpart
Both programs write lines of a name, nanoseconds, and a number that must be the same in both.
"""

import argparse
import collections
import shutil
import statistics
import subprocess
import sys
import tempfile
from pathlib import Path

HERE = Path(__file__).resolve().parent
TOP = HERE.parent
TURNS = 5


def copy_crate(name, top):
    """A copy of a crate of the project, with what was proved of it where the copy has nothing proved yet."""
    copy = top / "crates" / name
    skipped = ["out"] if (copy / "out").exists() else []
    shutil.copytree(TOP / "crates" / name, copy, dirs_exist_ok=True, ignore=shutil.ignore_patterns(*skipped))


def make_repository(top, names):
    """A repository of these benchmarks and of the crates that they use."""
    (top / ".git").mkdir(exist_ok=True)
    uses = {name: (HERE / name / "crates").read_text().split() for name in names}
    used = {crate for crates in uses.values() for crate in crates}
    lines = [line for line in (TOP / "crates.txt").read_text().splitlines() if line.split(":")[0] in used]
    for crate in used:
        copy_crate(crate, top)
    for name in names:
        crate = top / "crates" / f"bench_{name}"
        (crate / "src").mkdir(parents=True, exist_ok=True)
        (crate / "stdin").touch()
        (crate / "src" / "main.rt").write_text((HERE / name / "main.rattle").read_text())
        for text in (HERE / name).glob("proofs/*.txt"):
            (crate / "proofs" / text.stem).mkdir(parents=True, exist_ok=True)
            (crate / "proofs" / text.stem / "Invariants.antt").write_text(text.read_text())
        for text in (HERE / name).glob("proofs/*/*.txt"):
            (crate / "proofs" / text.parent.name).mkdir(parents=True, exist_ok=True)
            (crate / "proofs" / text.parent.name / f"{text.stem}.antt").write_text(text.read_text())
        lines.append(f"bench_{name}: {' '.join(uses[name])}")
    (top / "crates.txt").write_text("\n".join(lines) + "\n")


def build(top, name):
    """The two programs."""
    crate = top / "crates" / f"bench_{name}"
    subprocess.run(["rt", "run"], cwd=crate, stdout=subprocess.DEVNULL, check=True)
    plain = top / f"plain_{name}"
    subprocess.run(["rustc", "-O", "-o", plain, HERE / name / "plain.rs"], check=True)
    return {"ours": crate / "out" / f"bench_{name}", "rust": plain}


def measure(programs):
    """For each program the times by name, and the numbers that both must agree on."""
    times = {side: collections.defaultdict(list) for side in programs}
    numbers = {side: {} for side in programs}
    for _ in range(TURNS):
        for side, program in programs.items():
            for line in subprocess.run([program], capture_output=True, text=True, check=True).stdout.splitlines():
                name, nanoseconds, number = line.rsplit(" ", 2)
                times[side][name].append(int(nanoseconds) / 1e6)
                numbers[side][name] = number
    if numbers["ours"] != numbers["rust"]:
        sys.exit(f"the two sides differ: {numbers}")
    return times


def main(top, names):
    make_repository(top, names)
    for name in names:
        times = measure(build(top, name))
        print(f"{name:36} {'ours ms':>9} {'rust ms':>9} {'ratio':>7}")
        for call, ours in times["ours"].items():
            ours, rust = statistics.median(ours), statistics.median(times["rust"][call])
            print(f"  {call:34} {ours:9.2f} {rust:9.2f} {ours / rust:7.2f}")


if __name__ == "__main__":
    parser = argparse.ArgumentParser()
    parser.add_argument("--in", dest="folder", type=Path)
    parser.add_argument("names", nargs="+")
    words = parser.parse_args()
    if words.folder:
        words.folder.mkdir(parents=True, exist_ok=True)
        main(words.folder.resolve(), words.names)
    else:
        with tempfile.TemporaryDirectory() as made:
            main(Path(made), words.names)
