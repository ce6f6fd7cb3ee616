"""Finding the proved program, building it where that is needed, and calling it."""

import functools
import hashlib
import json
import os
import re
import shutil
import subprocess
import tempfile
from collections.abc import Sequence
from typing import Any

from .errors import BY_STATUS, LiskevarError, NotOffered
from .nodes import Node
from .places import PACKAGE

LINE = re.compile(r'error \d+: (?P<fault>[^:\n]*?)(?: at node (?P<node>\d+))?(?:: (?P<name>".*"))?\n?', re.DOTALL)
# The statuses of which the command `why` tells more.
EXPLAINED = (4, 5, 6, 7)
# So many bytes and more are given in a file.
LONG = 1 << 20
# What the script `liskevar` tells the C library too, where it isn't set.
MEMORY = {"MALLOC_ARENA_MAX": "1", "MALLOC_MMAP_THRESHOLD_": "524288"}


@functools.lru_cache(maxsize=8)
def _built(path: str) -> None:
    """Calls the repository's script once, so that a build is seen: it tells on standard error how far it is."""
    if subprocess.run([path, "--version"], stdout=subprocess.DEVNULL, check=False).returncode != 0:
        raise NotOffered(f"{path} built no program; what it says stands above")


def find_program() -> str:
    """The program's path.

    Looked for in this order: the variable LISKEVAR_PROGRAM; `./liskevar` of the repository that this package lies in,
    which builds the program where it isn't there; `bin/liskevar` beside the package's folder; `liskevar` on PATH.
    """
    above = os.path.dirname(os.path.dirname(PACKAGE))
    script, beside = os.path.join(above, "liskevar"), os.path.join(above, "bin", "liskevar")
    told = os.environ.get("LISKEVAR_PROGRAM")
    if not told and os.path.isfile(script):
        _built(script)
        told = script
    found = told or (beside if os.path.isfile(beside) else shutil.which("liskevar"))
    if found is None:
        raise NotOffered("the program liskevar isn't found: install it, or set LISKEVAR_PROGRAM to its path")
    return found


@functools.lru_cache(maxsize=8)
def _digest(found: str) -> str:
    above = os.path.dirname(os.path.dirname(PACKAGE))
    if os.path.dirname(os.path.abspath(found)) == above:
        found = os.path.join(above, "crates", "liskevar", "out", "liskevar")
    try:
        with open(found, "rb") as file:
            return hashlib.file_digest(file, "sha256").hexdigest()
    except OSError as error:
        raise NotOffered(f"{found}: {error.strerror}") from error


def digest() -> str:
    """The SHA-256 of the program that is found; of the repository's script that of what it has built."""
    return _digest(find_program())


def _called(words: Sequence[str], text: bytes = b"") -> subprocess.CompletedProcess[bytes]:
    """What the program does, told words and a text."""
    program, environment = find_program(), {**MEMORY, **os.environ}
    told: dict[str, Any] = {"capture_output": True, "env": environment, "check": False}
    try:
        if len(text) < LONG:
            return subprocess.run([program, *words], input=text, **told)
        # a pipe takes few bytes at a time
        with tempfile.TemporaryFile() as file:
            file.write(text)
            file.seek(0)
            return subprocess.run([program, *words], stdin=file, **told)
    except OSError as error:
        raise NotOffered(f"{program}: {error.strerror}") from error


def ask(
    command: str, text: bytes, nodes: Sequence[Node] = (), row_limit: int = 0, more: Sequence[str] = ()
) -> bytes:  # fmt: skip
    """What a command that is told `more` words prints; an exception for each status but 0, with the node's place."""
    done = _called([command, *more], text)
    if done.returncode == 0:
        return done.stdout
    told, why = done.stderr.decode(errors="replace"), ""
    if done.returncode in EXPLAINED and offers("why"):
        why = _called(["why"], text).stdout.decode(errors="replace").strip()
    raise refusal(done.returncode, told, nodes, row_limit, "" if why.startswith("ok") else why)


def refusal(status: int, told: str, nodes: Sequence[Node], row_limit: int, why: str = "") -> LiskevarError:
    """The exception of a status, of the line that came with it and of what `why` tells."""
    words = next((it for it in told.splitlines() if it.startswith("error ")), "")
    found, kind = LINE.fullmatch(words), BY_STATUS.get(status, LiskevarError)
    if found is None:
        return kind(f"the program ended with status {status}: {told.strip()}", why=why)
    number = int(found["node"]) if found["node"] else None
    node = nodes[number] if number is not None and number < len(nodes) else None
    if found["fault"] == "TooMany" and row_limit:
        what = f"the {node.kind}" if node else "a node"
        words += f": {what} has more than {row_limit:,} rows; set row_limit (--row-limit) higher if that is meant"
    name = json.loads(found["name"]) if found["name"] else None
    return kind(words, fault=found["fault"], node=number, name=name, place=node.place if node else None, why=why)


@functools.lru_cache(maxsize=8)
def _help(program: str) -> str:
    return _called(["--help"]).stdout.decode(errors="replace")


def offers(command: str) -> bool:
    """Whether the program that is found has a command, by its `--help`."""
    return re.search(rf"^liskevar {re.escape(command)}\b", _help(find_program()), re.MULTILINE) is not None


def want(command: str) -> None:
    """NotOffered where the program hasn't the command."""
    if not offers(command):
        raise NotOffered(f"{find_program()} has no command {command!r}: a newer build is wanted")
