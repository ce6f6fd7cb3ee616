#!/usr/bin/env python3
"""Builds the proved program, and says meanwhile how far it is.

Proves the crates that crates/liskevar stands on, lowest first and as many side by side as there are processors; the
longest way up comes first, and processors that nothing waits for help with what is running. The toolchain locks a
crate and all below it while it works on one, so each process gets a copy of the sources in a room of its own, and
what was proved is laid beside the sources here (crates/NAME/out). Then the program itself is built.

On a terminal one line moves; elsewhere a line is written every half minute. What the toolchain prints goes to
crates/NAME/out/build.log. Ends with 0 where the program was built anew.
"""

import contextlib
import errno
import fcntl
import functools
import glob
import hashlib
import os
import re
import shutil
import signal
import subprocess
import sys
import tempfile
import time

TOP = os.path.dirname(os.path.dirname(os.path.abspath(__file__)))
PROGRAM = "liskevar"
BUILT = f"{TOP}/crates/{PROGRAM}/out/{PROGRAM}"
PARTS = ("src", "specs", "proofs")
# How often the line is written, in seconds.
ON_TERMINAL, ELSEWHERE = 0.5, 30
# More processes than that don't help with one crate.
MOST_JOBS = 4
# What a check may take, in bytes of memory, and a build on the disk: 6 GB of it stay there.
MEMORY, DISK = 3_000_000_000, 8_000_000_000
LARGE_PAGES = "/sys/kernel/mm/transparent_hugepage/enabled"
CHECKED = re.compile(rb"checked \S+, (\d+) of (\d+)")


class Failed(Exception):
    """A build that can't go on; its text says what to do."""


class Crate:
    """A crate of the repository, and how far its proof is."""

    def __init__(self, name, below):
        self.name, self.below = name, below
        self.folder = f"{TOP}/crates/{name}"
        self.log = f"{self.folder}/out/build.log"
        self.behind = self.jobs = 0
        self.room = self.process = None
        self.steps, self.offset, self.checked, self.functions = [], 0, 0, 0

    @functools.cached_property
    def sources(self):
        """Its files, the lowest folder first."""
        found = []
        for part in PARTS:
            for at, folders, files in os.walk(f"{self.folder}/{part}"):
                folders.sort()
                found += [f"{at}/{it}" for it in sorted(files)]
        return found

    @functools.cached_property
    def all_below(self):
        return {it for low in self.below for it in (low, *low.all_below)}

    @functools.cached_property
    def key(self):
        """A sum of the toolchain, of its sources and of those below it."""
        found = hashlib.sha256(toolchain())
        for path in self.sources:
            with open(path, "rb") as file:
                text = file.read()
            found.update(f"{path[len(self.folder):]} {len(text)}\n".encode())
            found.update(text)
        for low in self.below:
            found.update(low.key.encode())
        return found.hexdigest()

    def is_proved(self):
        try:
            with open(f"{self.folder}/out/proved", encoding="ascii") as file:
                return file.read() == self.key and os.path.isdir(f"{self.folder}/out/rlib")
        except OSError:
            return False

    def begin(self, room, jobs):
        """Starts its proof in a room; its library is made of it in a moment."""
        os.makedirs(f"{self.folder}/out", exist_ok=True)
        open(self.log, "wb").close()
        self.room, self.jobs, self.offset = room, jobs, 0
        room.lay(self)
        self.steps = [["rt", "check", "--jobs", str(jobs)], ["rt", "lib"]]
        self.next_step()

    def next_step(self):
        with open(self.log, "ab") as log:
            self.process = subprocess.Popen(
                self.steps.pop(0),
                cwd=f"{self.room.path}/crates/{self.name}",
                stdin=subprocess.DEVNULL,
                stdout=log,
                stderr=log,
                start_new_session=True,
            )

    def stop(self):
        if self.process and self.process.poll() is None:
            os.killpg(self.process.pid, signal.SIGTERM)
            self.process.wait()

    def goes_on(self):
        """Reads how many functions are proved. Gives whether it is still at work."""
        with open(self.log, "rb") as log:
            log.seek(self.offset)
            text = log.read()
        whole = text.rfind(b"\n") + 1
        self.offset += whole
        for checked, functions in CHECKED.findall(text[:whole]):
            self.checked, self.functions = int(checked), int(functions)
        status = self.process.poll()
        if status is None:
            return True
        if status != 0:
            raise Failed(end_of(self))
        if self.steps:
            self.next_step()
            return True
        self.room.take(self)
        return False


class Room:
    """A copy of the sources in which one crate at a time is proved, over libraries that were proved before."""

    def __init__(self, path, crates):
        self.path, self.laid = path, set()
        os.makedirs(f"{path}/.git")
        for name in ("crates.txt", "HANDLES"):
            shutil.copy(f"{TOP}/{name}", path)
        with open(f"{path}/crates.txt", encoding="utf-8") as file:
            lines = [it for it in file if it.partition(":")[0].split()[:1] in [[c.name] for c in crates]]
        with open(f"{path}/crates.txt", "w", encoding="utf-8") as file:
            file.writelines(lines)
        for crate in crates:
            for source in crate.sources:
                to = f"{path}{source[len(TOP):]}"
                os.makedirs(os.path.dirname(to), exist_ok=True)
                shutil.copyfile(source, to)

    def lay(self, crate):
        """Lays the libraries below a crate beside its sources."""
        for low in crate.all_below - self.laid:
            to = f"{self.path}/crates/{low.name}/out"
            shutil.rmtree(to, ignore_errors=True)
            shutil.copytree(f"{low.folder}/out/rlib", f"{to}/rlib", copy_function=link_or_copy)
            self.laid.add(low)

    def take(self, crate):
        """Takes what was proved out of the room."""
        made, to = f"{self.path}/crates/{crate.name}/out", f"{crate.folder}/out/rlib"
        shutil.rmtree(to, ignore_errors=True)
        shutil.copytree(f"{made}/rlib", to, copy_function=link_or_copy)
        # no later build reads it, and it takes more room than the library
        shutil.rmtree(f"{made}/incremental", ignore_errors=True)
        with open(f"{crate.folder}/out/proved", "w", encoding="ascii") as file:
            file.write(crate.key)
        self.laid.add(crate)


def link_or_copy(one, other):
    try:
        os.link(one, other)
    except OSError:
        shutil.copyfile(one, other)


@functools.cache
def toolchain():
    return subprocess.run(["rt", "version"], stdout=subprocess.PIPE, check=True).stdout


@contextlib.contextmanager
def large_pages():
    """Large pages for all, where this process may set that, until the build ends: without them a tenth of the time is the system's."""
    try:
        with open(LARGE_PAGES, "r+", encoding="ascii") as file:
            before = re.search(r"\[(\w+)\]", file.read())[1]
            file.write("always")
    except (OSError, TypeError):
        yield
        return
    try:
        yield
    finally:
        with open(LARGE_PAGES, "w", encoding="ascii") as file:
            file.write(before)


def crates():
    """The crates that the program stands on, and itself, lowest first."""
    listed = {}
    with open(f"{TOP}/crates.txt", encoding="utf-8") as file:
        for line in file:
            name, colon, words = line.partition("#")[0].partition(":")
            if colon:
                listed[name.split()[0]] = words.split()
    found = {}

    def visit(name):
        if name not in found:
            below = [visit(it) for it in listed[name] if it in listed]
            found[name] = Crate(name, below)
        return found[name]

    visit(PROGRAM)
    # the work on a crate and on the longest way up from it, in bytes of its sources
    for crate in reversed([*found.values()]):
        crate.behind += sum(os.path.getsize(it) for it in crate.sources)
        for low in crate.below:
            low.behind = max(low.behind, crate.behind)
    return [*found.values()]


def minutes(seconds):
    return f"{int(seconds) // 60} min {int(seconds) % 60:02} s"


class Teller:
    """The one line that says how far the build is."""

    def __init__(self, total):
        self.total, self.began, self.told = total, time.monotonic(), 0.0
        self.is_terminal = sys.stderr.isatty()

    def tell(self, done, running, at_once=False):
        now = time.monotonic()
        if not at_once and now - self.told < (ON_TERMINAL if self.is_terminal else ELSEWHERE):
            return
        self.told = now
        parts = [f"{it.name} ({it.checked} of {it.functions or '?'} functions)" for it in running]
        line = f"liskevar: {done} of {self.total} crates proved, {minutes(now - self.began)}"
        line += f"; proving {', '.join(parts)}" if parts else ""
        if self.is_terminal:
            width = shutil.get_terminal_size().columns - 1
            print(f"\r\033[K{line[:width]}", end="", file=sys.stderr, flush=True)
        else:
            print(line, file=sys.stderr, flush=True)

    def end(self):
        if self.is_terminal:
            print(file=sys.stderr)


def end_of(crate):
    """What is said of a crate that wasn't proved or not built."""
    with open(crate.log, encoding="utf-8", errors="replace") as log:
        end = [f"    {it.rstrip()}" for it in log.readlines()[-20:]]
    return "\n".join([
        f"{crate.name} was not proved or not built. The end of {crate.log}:",
        *end,
        "liskevar: if a source was edited, mend it as the lines above say; if the machine ran out of memory or disk"
        " (a build takes about 3 GB of memory a processor, and 8 GB of disk), free some; then run the same command"
        " again: what was proved is kept.",
    ])


def processes():
    """How many checks may run at once: one a processor, as memory allows."""
    with open("/proc/meminfo", encoding="ascii") as file:
        kilobytes = int(re.search(r"MemAvailable:\s+(\d+)", file.read())[1])
    return max(1, min(len(os.sched_getaffinity(0)), 1024 * kilobytes // MEMORY))


def jobs_for(crate, others, waiting, idle, most):
    """How many jobs a crate's check gets, where so many processors are idle and so many other crates wait for one.

    The longest way up decides when all is done, so the crate that stands at its foot gets all but one, whatever waits.
    """
    if all(crate.behind > it.behind for it in others):
        return max(1, min(MOST_JOBS, max(most - 1, idle - waiting)))
    return 1


def prove(left, teller, total, room_for):
    """Proves the crates that are left, longest way up first."""
    most, running, rooms = processes(), [], []
    try:
        while left or running:
            ready = [it for it in left if not (it.all_below & {*left, *running})]
            ready.sort(key=lambda it: -it.behind)
            while ready and (idle := most - sum(it.jobs for it in running)) > 0:
                crate = ready.pop(0)
                left.remove(crate)
                jobs = jobs_for(crate, [*running, *left], len(ready), idle, most)
                running.append(crate)
                crate.begin(rooms.pop() if rooms else room_for(), jobs)
            for crate in [*running]:
                if not crate.goes_on():
                    running.remove(crate)
                    rooms.append(crate.room)
            teller.tell(total - len(left) - len(running), running)
            time.sleep(0.2)
    finally:
        for crate in running:
            crate.stop()


def link_program(program):
    """Builds the program over its proved libraries: with no words it ends at once, with status 1."""
    os.makedirs(os.path.dirname(program.log), exist_ok=True)
    with open(program.log, "wb") as log:
        subprocess.run(["rt", "run"], cwd=program.folder, stdin=subprocess.DEVNULL, stdout=log, stderr=log)
    if not os.path.isfile(BUILT):
        raise Failed(end_of(program))


def build():
    every = crates()
    program = every[-1]
    # whatever stands there is not what will be built
    if os.path.exists(BUILT):
        os.remove(BUILT)
    began = time.time()
    libraries = [it for it in every if it is not program]
    left = [it for it in libraries if not it.is_proved()]
    teller = Teller(len(every))
    teller.tell(len(libraries) - len(left), [], at_once=True)
    folder = os.path.dirname(BUILT)
    for left_over in glob.glob(f"{folder}/rooms-*"):
        shutil.rmtree(left_over, ignore_errors=True)
    # on the disk of the sources, so that a library is linked and not copied
    with tempfile.TemporaryDirectory(prefix="rooms-", dir=folder) as top, large_pages():
        number = iter(range(len(every)))
        try:
            prove(left, teller, len(libraries), lambda: Room(f"{top}/{next(number)}", libraries))
            teller.tell(len(libraries), [program], at_once=True)
            link_program(program)
        finally:
            teller.end()
    # a source that was changed meanwhile is newer than the program
    os.utime(BUILT, (began, began))
    return 0


def alone(folder):
    """Waits until no other build works in this folder."""
    os.makedirs(folder, exist_ok=True)
    lock = open(f"{folder}/build.lock", "w", encoding="ascii")
    try:
        fcntl.flock(lock, fcntl.LOCK_EX | fcntl.LOCK_NB)
    except BlockingIOError:
        print("liskevar: another build is at work here; waiting for its end", file=sys.stderr)
        fcntl.flock(lock, fcntl.LOCK_EX)
    return lock


def main():
    asked = time.time()
    if shutil.which("rt") is None:
        raise Failed(
            "the program isn't built yet, and the command `rt` of the Rattle toolchain, which proves and builds it,"
            " isn't on PATH. README.md names the version that is needed."
        )
    with alone(os.path.dirname(BUILT)):
        # another build, which this one waited for, has made it
        if os.path.exists(BUILT) and os.path.getctime(BUILT) > asked:
            return 0
        return build()


def told(error):
    """What an error of the system means here, and what to do."""
    if error.errno in (errno.ENOSPC, errno.EDQUOT):
        return f"the disk is full ({error.filename or TOP}): free about {DISK // 10**9} GB and run the same command again"
    if error.errno in (errno.EACCES, errno.EPERM, errno.EROFS):
        return f"{error.filename or TOP} can't be written: make a copy of the repository that is yours, and build there"
    return f"{error.filename or TOP}: {error.strerror}; mend that and run the same command again"


if __name__ == "__main__":
    signal.signal(signal.SIGTERM, lambda *_: sys.exit(143))
    try:
        sys.exit(main())
    except KeyboardInterrupt:
        print("\nliskevar: stopped; what was proved is kept: run the same command to go on", file=sys.stderr)
        sys.exit(130)
    except Failed as why:
        print(f"liskevar: {why}", file=sys.stderr)
    except OSError as error:
        print(f"liskevar: {told(error)}", file=sys.stderr)
    sys.exit(10)
