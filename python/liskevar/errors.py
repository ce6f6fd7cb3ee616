"""What liskevar refuses, as exceptions.

Each status of the program has a class of its own. Mistakes that are found before anything runs are the same classes: a
plan's fault is a `PlanError` whether this package or the program told it.
"""

from __future__ import annotations

from .places import Place

BY_STATUS: dict[int, type[LiskevarError]] = {}


class LiskevarError(Exception):
    """Anything that is refused.

    `status` is the program's, 0 where it was never asked; `fault` its word for it, `node` the node's number, `name` the
    column, `place` the user's call that made the node, and `why` what the program's command `why` tells.
    """

    status = 0

    def __init_subclass__(cls, status: int = 0) -> None:
        cls.status = status
        if status:
            BY_STATUS[status] = cls

    def __init__(
        self, words: str, *, fault: str = "", node: int | None = None, name: str | None = None,
        place: Place | None = None, why: str = "",
    ) -> None:  # fmt: skip
        super().__init__((f"{place}: {words}" if place else words) + (f"\n{why}" if why else ""))
        self.words, self.fault, self.node, self.name, self.place, self.why = words, fault, node, name, place, why


class Refused(LiskevarError):
    """A file, a value or a flag that can't be taken; the program wasn't asked."""


class SqlError(Refused):
    """A query that can't be taken, with its line and column, both from 1."""

    def __init__(self, words: str, query: str, line: int, column: int) -> None:
        lines = query.splitlines() or [""]
        shown = lines[min(line, len(lines)) - 1]
        super().__init__(f"line {line}, column {column}: {words}\n  {shown}\n  {' ' * (column - 1)}^")
        self.line, self.column = line, column


class NotOffered(LiskevarError):
    """The program that was found hasn't the command that is asked for."""


class BadWords(LiskevarError, status=1):
    """The words are no command."""


class ReadFault(LiskevarError, status=2):
    """A read failed."""


class JobTooLong(LiskevarError, status=3):
    """The job has more than 33,554,432 bytes."""


class NotJson(LiskevarError, status=4):
    """The text isn't JSON, or nests too deep."""


class NotAJob(LiskevarError, status=5):
    """The value spells no job."""


class PlanError(LiskevarError, status=6):
    """A number is out of its range, or the plan has a fault."""


class TooMany(LiskevarError, status=7):
    """More than 4,096 nodes, or a node with more rows than the limit."""


class Stopped(LiskevarError, status=8):
    """Stopped."""


class WriteFault(LiskevarError, status=9):
    """Writing failed."""


class OutOfMemory(LiskevarError, status=10):
    """There wasn't enough memory, or the program couldn't be built."""
