#!/usr/bin/env python3
"""Runs the tests of the Python package (python/tests), and its type check and linter where they are there.

    tools/try_package.py [--install] [WORDS FOR PYTEST]

With --install what is missing is installed first, where apt-get is there and may do so. The interpreter is the one of python3 on PATH, this one and the distribution's that has most of pytest, sqlglot, pandas,
dask and distributed; what it lacks is told, since tests that want it are left out. The program has to be built already; tests that
want it are left out too where it isn't.
"""

import os
import shutil
import subprocess
import sys

TOP = os.path.dirname(os.path.dirname(os.path.abspath(__file__)))
WANTED = ("pytest", "sqlglot", "pandas", "dask", "distributed")
SECONDS = 900


def has(interpreter, package):
    words = [interpreter, "-c", f"import {package}"]
    return subprocess.run(words, stdout=subprocess.DEVNULL, stderr=subprocess.DEVNULL).returncode == 0


def interpreter(wanted=WANTED):
    """The interpreter that has most of some packages, and those that it lacks."""
    found = [it for it in (shutil.which("python3"), sys.executable, "/usr/bin/python3") if it and os.path.exists(it)]
    lacks = lambda it: [name for name in wanted if not has(it, name)]
    best = min(dict.fromkeys(found), key=lambda it: len(lacks(it)))
    return best, lacks(best)


def install():
    """Installs the distribution's packages that the tests want."""
    packages = [*(f"python3-{it}" for it in WANTED), "mypy"]
    quiet = {"stdin": subprocess.DEVNULL, "stdout": subprocess.DEVNULL, "stderr": subprocess.DEVNULL}
    environment = {**os.environ, "DEBIAN_FRONTEND": "noninteractive"}
    for words in (["update"], ["install", "-y", "--no-install-recommends", *packages]):
        if subprocess.run(["apt-get", *words], env=environment, **quiet).returncode != 0:
            print(f"package: apt-get {words[0]} failed; what is missing is left out")
            return


def checked(name, *words):
    """Runs a check where its command is there."""
    if shutil.which(name) is None:
        print(f"package: left out: {name} isn't there")
        return 0
    done = subprocess.run([name, *words], cwd=os.path.join(TOP, "python"), stdout=subprocess.PIPE, stderr=subprocess.STDOUT)
    print(f"package: {name}: {'passes' if done.returncode == 0 else done.stdout.decode()}")
    return done.returncode


def main():
    words = sys.argv[1:]
    if words[:1] == ["--install"]:
        words = words[1:]
        if (interpreter()[1] or shutil.which("mypy") is None) and shutil.which("apt-get") and os.geteuid() == 0:
            install()
    python, lacking = interpreter()
    for name in lacking:
        print(f"package: left out: {python} has no {name} (Debian: python3-{name})")
    status = checked("mypy", "--strict", "--cache-dir", os.devnull, "liskevar") | checked("ruff", "check", "liskevar")
    if "pytest" in lacking:
        return status
    call = [python, "-m", "pytest", "-q", "-rs", "-p", "no:cacheprovider", *words]
    environment = {**os.environ, "PYTHONDONTWRITEBYTECODE": "1"}
    return status | subprocess.run(call, cwd=os.path.join(TOP, "python"), env=environment, timeout=SECONDS).returncode


if __name__ == "__main__":
    sys.exit(main())
