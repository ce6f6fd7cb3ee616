"""Where the user's own calls stand, so that a mistake is told at the line that made it."""

from __future__ import annotations

import contextlib
import contextvars
import linecache
import os
import sys
from collections.abc import Iterator
from dataclasses import dataclass
from types import FrameType

PACKAGE = os.path.dirname(os.path.abspath(__file__))
_told: contextvars.ContextVar[Place | None] = contextvars.ContextVar("told", default=None)


@dataclass(frozen=True)
class Place:
    """A place in the user's program or query, and what is written there."""

    text: str
    source: str = ""

    def __str__(self) -> str:
        return f"{self.text}: `{self.source}`" if self.source else self.text


@contextlib.contextmanager
def told_as(text: str) -> Iterator[None]:
    """Calls made inside stand at the place of this text, not at a line of Python."""
    token = _told.set(Place(text))
    try:
        yield
    finally:
        _told.reset(token)


def place_of_caller() -> Place | None:
    """The line of the first caller that is no part of this package; None where there is none."""
    frame: FrameType | None = sys._getframe(1)
    while frame and str(frame.f_globals.get("__name__")).split(".")[0] == __package__:
        frame = frame.f_back
    if _told.get() or frame is None or frame.f_code.co_filename.startswith("<frozen"):
        return _told.get()
    path, line = frame.f_code.co_filename, frame.f_lineno
    return Place(f"{path}:{line}", linecache.getline(path, line).strip())
