#!/usr/bin/env python3
"""Makes of the proved program what can be installed without the toolchain: a .deb and a tar file.

    tools/release.py [--to FOLDER] [--program FILE]

Both have the program, the Python package, the docs, the examples, the licence, a file BUILT with the commit, the
toolchain and the program's checksum, and SHA256SUMS of all their files; SHA256SUMS beside them has those of the two.
The program is that of crates/liskevar/out, which has to be newer than its sources: ./liskevar builds it so, by proof
alone. Nothing but the time is looked at here.
With --program another one is taken, and BUILT says that nothing is known of its proof. From one commit and one program
both files come out byte for byte the same. The tar file: unpack it, and call bin/liskevar or, with PYTHONPATH=python,
python3 -m liskevar.
"""

import argparse
import hashlib
import os
import re
import shutil
import subprocess
import sys
import tarfile
import tempfile

TOP = os.path.dirname(os.path.dirname(os.path.abspath(__file__)))
BUILT = os.path.join(TOP, "crates", "liskevar", "out", "liskevar")
DOCS = ["README.md", "LICENSE", "docs", "examples"]
CALL = """#!/bin/sh
# Workers' threads come and go: with one arena of the C library's, what one of them gave back serves the next. Columns of
# half a MiB and more lie apart from it, so that the system has their memory back as soon as they are gone.
here=$(cd "$(dirname "$(readlink -f "$0")")" && pwd)
MALLOC_ARENA_MAX=${MALLOC_ARENA_MAX:-1} MALLOC_MMAP_THRESHOLD_=${MALLOC_MMAP_THRESHOLD_:-524288} exec "$here/PROGRAM" "$@"
"""
CONTROL = """Package: liskevar
Version: {version}
Architecture: {architecture}
Maintainer: Liskevar maintainers <maintainers@users.noreply.liskevar.example>
Section: science
Priority: optional
Depends: libc6 (>= 2.34), libgcc-s1
Recommends: python3 (>= 3.11)
Suggests: python3-sqlglot, python3-pandas
Description: proved joins of tables
 Reads a job of frames and a plan as JSON, and prints the joined rows, which a
 machine-checked proof says are the plan's. With a Python package: frames, SQL
 and CSV files. Nothing of the Python package is proved.
"""


class Refused(Exception):
    """Why no release is made."""


def said(*words, **more):
    """What a command prints."""
    done = subprocess.run(words, stdout=subprocess.PIPE, stderr=subprocess.DEVNULL, cwd=TOP, **more)
    return done.stdout.decode().strip() if done.returncode == 0 else ""


def sources():
    """All files that the program was built of."""
    parts = [os.path.join(TOP, "crates", it, part) for it in os.listdir(os.path.join(TOP, "crates")) for part in ("src", "specs", "proofs")]
    return [os.path.join(TOP, "crates.txt"), *(os.path.join(at, it) for part in parts for at, _, names in os.walk(part) for it in names)]


def proved_program():
    """The program that was built by proof; Refused where it isn't there or is older than a source."""
    if not os.path.exists(BUILT):
        raise Refused("the program isn't built; ./liskevar --version builds it")
    age = os.stat(BUILT).st_mtime
    newer = [it for it in sources() if os.stat(it).st_mtime > age]
    if newer:
        raise Refused(f"{os.path.relpath(newer[0], TOP)} is newer than the program; ./liskevar --version builds it anew")
    if said("git", "status", "--porcelain", "--untracked-files=no"):
        raise Refused("files differ from the commit; a release is made of a commit")
    return BUILT


def checksum(path):
    with open(path, "rb") as file:
        return hashlib.sha256(file.read()).hexdigest()


def built_text(program, is_proved):
    """What is known of the program."""
    proof = "./liskevar builds by proof alone; that this program was built so is told by its time, newer than each source"
    lines = {
        "version": version_of(program), "commit": said("git", "rev-parse", "HEAD") or "not told",
        "toolchain": (said("rt", "version") if shutil.which("rt") else "") or "not told",
        "proof": proof if is_proved else "nothing is known: the program was given by --program",
        "sha256 of the program": checksum(program),
    }  # fmt: skip
    return "".join(f"{name}: {it}\n" for name, it in lines.items())


def version_of(program):
    """The program's version, and the commit's."""
    found = re.search(r"\d+(?:\.\d+)*", said(program, "--version"))
    if not found:
        raise Refused(f"{program} tells no version")
    count = said("git", "rev-list", "--count", "HEAD")
    return f"{found[0]}+{count or 0}.{said('git', 'rev-parse', '--short=10', 'HEAD') or 'none'}"


def lay(folder, program, is_proved, places):
    """Puts all files into a folder; `places` says where the program, its call, the package and the docs go."""
    where = {name: os.path.join(folder, it) for name, it in places.items()}
    for it in where.values():
        os.makedirs(os.path.dirname(it) if it in (where["program"], where["call"]) else it, exist_ok=True)
    shutil.copyfile(program, where["program"])
    with open(where["call"], "w", encoding="utf-8") as file:
        file.write(CALL.replace("PROGRAM", os.path.relpath(where["program"], os.path.dirname(where["call"]))))
    ignored = shutil.ignore_patterns("__pycache__", "*.pyc")
    shutil.copytree(os.path.join(TOP, "python", "liskevar"), os.path.join(where["package"], "liskevar"), ignore=ignored)
    for name in DOCS:
        it, to = os.path.join(TOP, name), os.path.join(where["docs"], name)
        shutil.copytree(it, to) if os.path.isdir(it) else shutil.copyfile(it, to)
    with open(os.path.join(where["docs"], "BUILT"), "w", encoding="utf-8") as file:
        file.write(built_text(program, is_proved))
    for at, names, files in os.walk(folder):
        for it in [*names, *files]:
            path = os.path.join(at, it)
            os.chmod(path, 0o755 if it in names or path in (where["program"], where["call"]) else 0o644)
    return where["docs"]


def add_sums(folder, docs):
    """SHA256SUMS of all files of a folder, to be checked from its top."""
    paths = sorted(os.path.relpath(os.path.join(at, it), folder) for at, _, files in os.walk(folder) for it in files)
    text = "".join(f"{checksum(os.path.join(folder, it))}  {it}\n" for it in paths)
    with open(os.path.join(docs, "SHA256SUMS"), "w", encoding="utf-8") as file:
        file.write(text)
    os.chmod(os.path.join(docs, "SHA256SUMS"), 0o644)


def tar_of(folder, path, name, moment):
    """A tar file whose entries are in order, of one time and owner."""

    def plain(entry):
        entry.mtime, entry.uid, entry.gid, entry.uname, entry.gname = moment, 0, 0, "root", "root"
        return entry

    with tarfile.open(path, "w:xz") as file:
        file.add(folder, arcname=name, filter=plain)


def make(to, program, is_proved):
    """Makes both files. Gives their paths."""
    version, moment = version_of(program), int(said("git", "log", "-1", "--format=%ct") or 0)
    architecture = said("dpkg", "--print-architecture") or "amd64"
    os.makedirs(to, exist_ok=True)
    name = f"liskevar-{version}"
    paths = [os.path.join(to, f"{name}-linux-{architecture}.tar.xz")]
    with tempfile.TemporaryDirectory() as folder:
        tree = os.path.join(folder, name)
        docs = lay(tree, program, is_proved, {"program": "lib/liskevar", "call": "bin/liskevar", "package": "python", "docs": "."})
        add_sums(tree, docs)
        tar_of(tree, paths[0], name, moment)
        if shutil.which("dpkg-deb") is None:
            print("release: left out: no .deb, since dpkg-deb isn't there", file=sys.stderr)
            return paths
        paths.append(os.path.join(to, f"liskevar_{version}_{architecture}.deb"))
        deb = os.path.join(folder, "deb")
        docs = lay(deb, program, is_proved, {
            "program": "usr/lib/liskevar/liskevar", "call": "usr/bin/liskevar", "package": "usr/lib/python3/dist-packages",
            "docs": "usr/share/doc/liskevar",
        })  # fmt: skip
        os.rename(os.path.join(docs, "LICENSE"), os.path.join(docs, "copyright"))
        add_sums(deb, docs)
        os.makedirs(os.path.join(deb, "DEBIAN"))
        with open(os.path.join(deb, "DEBIAN", "control"), "w", encoding="utf-8") as file:
            file.write(CONTROL.format(version=version, architecture=architecture))
        environment = {**os.environ, "SOURCE_DATE_EPOCH": str(moment)}
        words = ["dpkg-deb", "--root-owner-group", "-Zxz", "--build", deb, paths[1]]
        subprocess.run(words, stdout=subprocess.DEVNULL, env=environment, check=True)
    return paths


def main():
    parser = argparse.ArgumentParser(description=__doc__, formatter_class=argparse.RawDescriptionHelpFormatter)
    parser.add_argument("--to", default="release", metavar="FOLDER", help="where the files go; release if not told")
    parser.add_argument("--program", metavar="FILE", help="a program of which nothing is known, in place of the proved one")
    given = parser.parse_args()
    try:
        program = os.path.abspath(given.program) if given.program else proved_program()
        paths = make(os.path.abspath(given.to), program, not given.program)
    except Refused as why:
        print(f"release: {why}", file=sys.stderr)
        return 1
    with open(os.path.join(given.to, "SHA256SUMS"), "w", encoding="utf-8") as file:
        file.writelines(f"{checksum(it)}  {os.path.basename(it)}\n" for it in paths)
    print(*paths, sep="\n")
    return 0


if __name__ == "__main__":
    sys.exit(main())
