#!/usr/bin/env python3
"""Runs each command of README.md and docs/TUTORIAL.md and compares what it prints with what stands there.

    tools/try_tutorial.py

The commands are run by a shell in a folder of their own, in which the project's files are seen. In a block of the kind
`console`, a line that begins with `$ ` is a command, and the lines below it are what it prints: first its output, then
what it says on standard error, and `[status N]` where it doesn't end with 0. A block of the kind `python` is run too,
and the block below it is what it prints. The program has to be built already.
Where no interpreter has sqlglot, commands that want it are left out, and it is said how many.
"""

import os
import re
import subprocess
import sys
import tempfile

sys.dont_write_bytecode = True

from try_package import interpreter  # noqa: E402

TOP = os.path.dirname(os.path.dirname(os.path.abspath(__file__)))
SEEN = ["tools", "examples", "crates", "crates.txt", "liskevar", "python"]
PAGES = ["README.md", "docs/TUTORIAL.md"]
SECONDS = 120


def cases_of(text):
    """Each command with the lines that are to be printed."""
    found = re.finditer(r"^```console\n(.*?)^```$|^```python\n(.*?)^```\n\n^```\n(.*?)^```$", text, re.MULTILINE | re.DOTALL)
    for block in found:
        if block[2] is not None:
            yield f"python3 - <<'END'\n{block[2]}END", block[3]
            continue
        for case in re.split(r"^\$ ", block[1], flags=re.MULTILINE)[1:]:
            command, _, printed = case.partition("\n")
            yield command, printed


def printed_by(command, folder):
    path = f"{folder}/bin:{os.environ['PATH']}"
    environment = {**os.environ, "PATH": path, "PYTHONPATH": os.path.join(TOP, "python"), "PYTHONDONTWRITEBYTECODE": "1"}
    words = ["sh", "-c", command]
    done = subprocess.run(words, cwd=folder, capture_output=True, text=True, timeout=SECONDS, env=environment)
    status = f"[status {done.returncode}]\n" if done.returncode != 0 else ""
    return done.stdout + done.stderr + status


def main():
    if not os.path.exists(os.path.join(TOP, "crates", "liskevar", "out", "liskevar")):
        print("try_tutorial.py: the program isn't built; ./liskevar --version builds it", file=sys.stderr)
        return 1
    cases = []
    for page in PAGES:
        with open(os.path.join(TOP, page), encoding="utf-8") as file:
            found = list(cases_of(file.read()))
        if not found:
            print(f"try_tutorial.py: {page} has no command", file=sys.stderr)
            return 1
        cases += found
    python, lacking = interpreter(["sqlglot"])
    kept = [it for it in cases if not lacking or " sql " not in it[0]]
    others = 0
    with tempfile.TemporaryDirectory() as folder:
        for name in SEEN:
            os.symlink(os.path.join(TOP, name), os.path.join(folder, name))
        os.mkdir(os.path.join(folder, "bin"))
        # a symlink would lose the interpreter's own folders
        with open(os.path.join(folder, "bin", "python3"), "w", encoding="utf-8") as file:
            file.write(f'#!/bin/sh\nexec {python} "$@"\n')
        os.chmod(file.name, 0o755)
        for command, wanted in kept:
            found = printed_by(command, folder)
            if found != wanted:
                others += 1
                print(f"$ {command}\nprints\n{found}in place of\n{wanted}", file=sys.stderr)
    left = f", {len(cases) - len(kept)} left out, which want sqlglot" if lacking else ""
    print(f"tutorial: {len(kept)} commands, {others} of them print something else{left}")
    return 1 if others else 0


if __name__ == "__main__":
    sys.exit(main())
