#!/usr/bin/env python3
"""What comes behind the merge gate, as long as there is time: statuses, map, package, wrong bodies, tutorial.

The run that calls this has a fixed time, which a slow machine needs for the proofs alone. So each step begins only
within MINUTES of that run's start (the calling process tells it), and is ended where it would go on past them; which
steps had no time is said. Ends with 0 where each step that ran to its end did.
"""

import os
import subprocess
import sys
import time

TOP = os.path.dirname(os.path.dirname(os.path.abspath(__file__)))
MINUTES = 150
STEPS = (
    ["check_statuses.py"],
    ["check_map.py"],
    ["try_package.py", "--install"],
    ["try_tutorial.py"],
    ["try_more_edits.py", "--sample", "4"],
)


def seconds_of(process):
    """How long this process has run."""
    with open(f"/proc/{process}/stat") as told:
        ticks = int(told.read().rpartition(")")[2].split()[19])
    with open("/proc/uptime") as told:
        return float(told.read().split()[0]) - ticks / os.sysconf("SC_CLK_TCK")


def main():
    end = time.monotonic() + MINUTES * 60 - seconds_of(os.getppid())
    passed = True
    for script, *words in STEPS:
        left = end - time.monotonic()
        try:
            if left <= 0:
                raise subprocess.TimeoutExpired(script, left)
            ran = subprocess.run([sys.executable, os.path.join(TOP, "tools", script), *words], timeout=left)
            passed &= ran.returncode == 0
        except subprocess.TimeoutExpired:
            print(f"{script}: no time left", flush=True)
    return 0 if passed else 1


if __name__ == "__main__":
    sys.exit(main())
