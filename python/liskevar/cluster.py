"""Dask's scheduler and workers, as a run in parts uses them."""

import contextlib
import functools
import logging
import multiprocessing
import os
import sys
import time
import uuid
import warnings
from collections.abc import Callable, Iterator, Sequence
from typing import Any, NamedTuple

from .errors import LiskevarError, Refused
from .job import BYTES_OF_A_JOB
from .pieces import BYTES_OF_A_PIECE
from .program import find_program
from .running import attempt

try:
    import dask
    import dask.bag
    import distributed
except ImportError:
    distributed = None

# How often what failed is tried again; a task whose worker died is tried again by Dask's own rule.
RETRIES = 2
BAR = 30
# What Dask does all the time beside the work, done less often: it takes 30 ms of each second of each process.
SELDOM = {
    "distributed.worker.profile.interval": "2s", "distributed.worker.profile.cycle": "20s",
    "distributed.admin.tick.interval": "500ms", "distributed.admin.system-monitor.interval": "5s",
}  # fmt: skip
# The seconds between two looks whether anything came, and whether there are workers.
PAUSE, LOOK = 0.02, 2.0


class Limits(NamedTuple):
    """The bytes of a piece, of what a part is aimed to have and of a job; and the least number of parts, 0 for that of
    the workers' threads."""

    piece: int = BYTES_OF_A_PIECE
    aim: int = 8_388_608
    job: int = BYTES_OF_A_JOB
    parts: int = 0


@contextlib.contextmanager
def cluster(scheduler: str | None = None, local: int | None = None) -> Iterator[Any]:
    """A client of the scheduler at an address, or of a local one with so many worker processes."""
    if distributed is None:
        raise Refused("distribute wants Dask, which isn't there (Debian: python3-dask and python3-distributed)")
    if local is not None and local < 1:
        raise Refused(f"{local} worker processes are told, and one is needed")
    if scheduler is not None:
        try:
            client = distributed.Client(scheduler, timeout=20)
        except (OSError, ValueError) as error:
            raise Refused(f"no scheduler answers at {scheduler}: {error}") from error
        with client:
            yield client
        return
    count = local or os.cpu_count() or 1
    told = {"threads_per_worker": 1, "dashboard_address": "127.0.0.1:0", "silence_logs": logging.CRITICAL}
    # processes that are forked have the variables of the first run, and not of this one
    told["env"] = {"LISKEVAR_PROGRAM": find_program()}
    with dask.config.set({**SELDOM, **_starting(count)}), distributed.LocalCluster(n_workers=count, **told) as made:
        with distributed.Client(made) as client:
            yield client


def _starting(count: int) -> dict[str, str]:
    """How so many worker processes are started: each by itself reads all modules, which takes a second; several are
    forked of one that has read them."""
    if count == 1 or "forkserver" not in multiprocessing.get_all_start_methods():
        return {}
    modules = ["distributed", "distributed.nanny", "liskevar.cli", "liskevar.distribute"]
    multiprocessing.get_context("forkserver").set_forkserver_preload(modules)
    # or else Dask reads pandas for them, here too
    distributed.utils._forkserver_preload_set = True
    return {"distributed.worker.multiprocessing-method": "forkserver"}


class Run:
    """What all steps of a run share: Dask's client, the limits, and how far it is, which is told on standard error."""

    def __init__(self, client: Any, limits: Limits = Limits(), is_shown: bool = False) -> None:
        self.client, self.limits, self.is_shown = client, limits, is_shown
        # so many seconds may pass without a worker
        self.patience = 120
        # under this word parts tell the scheduler that they start
        self.topic, self.start = f"liskevar-{uuid.uuid4().hex}", time.monotonic()
        try:
            client.wait_for_workers(1, timeout=60)
        except (OSError, TimeoutError) as error:
            raise Refused("the scheduler has no worker") from error
        self.threads = sum(client.nthreads().values()) or 1

    def _show(self, stage: str, done: int, count: int) -> None:
        if self.is_shown:
            filled = BAR * done // max(count, 1)
            end = "\n" if done == count else ""
            print(f"\r{stage:8} [{'#' * filled:{BAR}}] {done} of {count}", end=end, file=sys.stderr, flush=True)

    def map(self, work: Callable[..., Any], *given: Sequence[Any], **told: Any) -> list[Any]:
        """A future of each call."""
        return list(self.client.map(functools.partial(attempt, work, **told), *given, pure=False, retries=RETRIES))

    def share(self, value: Any) -> Any:
        """A value as a task, which is made again where the worker that has it dies; what is scattered would be lost."""
        with warnings.catch_warnings():
            # Dask warns of large values in tasks
            warnings.simplefilter("ignore")
            return self.client.submit(_same, value, pure=False)

    def finish(self, stage: str, futures: Sequence[Any]) -> list[Any]:
        """What futures give, in their order; the first that is refused or fails ends the run."""
        found: dict[str, Any] = {}
        self._show(stage, 0, len(futures))
        for future, value in self._completed(stage, futures):
            found[future.key] = self._checked(stage, future, value, futures)
            self._show(stage, len(found), len(futures))
        return [found[it.key] for it in futures]

    def in_order(self, stage: str, futures: Sequence[Any]) -> Iterator[Any]:
        """What futures give, one after the other as they come."""
        for done, it in enumerate(futures):
            self._show(stage, done, len(futures))
            for future, value in self._completed(stage, [it]):
                yield self._checked(stage, future, value, futures)
        self._show(stage, len(futures), len(futures))

    def _completed(self, stage: str, futures: Sequence[Any]) -> Iterator[tuple[Any, Any]]:
        """Futures with what they give, as they come; Refused where no worker is left to make them."""
        waiting = distributed.as_completed(futures, with_results=True, raise_errors=False)
        looked = seen = time.monotonic()
        while not waiting.is_empty():
            if waiting.has_ready():
                yield from waiting.next_batch(block=False)
                continue
            time.sleep(PAUSE)
            if time.monotonic() - looked > LOOK:
                looked = time.monotonic()
                seen = looked if self.client.nthreads() else seen
                if looked - seen > self.patience:
                    self.client.cancel(futures)
                    raise Refused(f"{stage}: no worker is left since {self.patience} seconds")

    def _checked(self, stage: str, future: Any, value: Any, futures: Sequence[Any]) -> Any:
        """The value of a future; where it has none, or was refused, the others are given up."""
        if future.status == "finished" and not isinstance(value, LiskevarError):
            return value
        # the line of the bar ends here
        print(end="\n" if self.is_shown else "", file=sys.stderr)
        self.client.cancel(futures)
        raise value if isinstance(value, LiskevarError) else _refused(stage, future)

    def grouped(self, blocks: Sequence[Any], groups: int) -> list[Any]:
        """What lists of pairs of a number and a block hold of each number below `groups`: Dask's shuffle of a bag."""
        empty = [dask.delayed(_nothing)() for _ in range(groups - len(blocks))]
        bag = dask.bag.from_delayed([*blocks, *empty])
        return list(bag.groupby(_first, shuffle="tasks").to_delayed()[:groups])

    def compute(self, work: Callable[..., Any], calls: Sequence[Sequence[Any]]) -> list[Any]:
        """A future of each call, of which Dask may have to make the arguments first."""
        made = [dask.delayed(attempt, pure=False)(work, *it) for it in calls]
        return list(self.client.compute(made, retries=RETRIES))

    def retried(self) -> int:
        """How many starts of parts were not the first."""
        starts = [tuple(told) for _, told in self.client.get_events(self.topic)]
        return len(starts) - len(set(starts))


def _same(value: Any) -> Any:
    return value


def _nothing() -> list[Any]:
    return []


def _first(pair: Sequence[Any]) -> Any:
    return pair[0]


def _refused(stage: str, future: Any) -> Refused:
    """The error of a task that failed, as people read it."""
    error = future.exception() if future.status == "error" else None
    if type(error).__name__ == "KilledWorker":
        return Refused(f"{stage}: each worker that tried it ended; was there too little memory? {error}")
    return Refused(f"{stage}: {type(error).__name__}: {error}" if error else f"{stage}: a task was {future.status}")
