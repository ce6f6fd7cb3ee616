#!/usr/bin/env python3
"""Refuses each allocation of a run of the program in turn, and looks at what the run then does.

    want_of_memory.py PROGRAM WORD.. < JOB

The folder want_of_memory beside it has four jobs: a sorted join, a full join over a union, two full joins in a chain,
and the ledger.

The first run has all memory, and its lines are kept. Then run N has its Nth call of `malloc`, `calloc` or `realloc`
refused, for N from 1 on until a run makes fewer calls. Each of them must either write nothing (of `stream`: some front
of its lines) and end with status 10 and its one line, or end with status 0 and the same lines in some order. It prints how many runs there were of each.
"""

import os
import subprocess
import sys
import tempfile
from collections import Counter
from pathlib import Path

# Counts the program's allocations, over all threads, and refuses the one whose number the environment gives.
SHIM = r"""
#define _GNU_SOURCE
#include <dlfcn.h>
#include <errno.h>
#include <stdlib.h>
#include <unistd.h>

static long made;
static long refused = -1;

static int refuse(void) {
    if (refused < 0) {
        const char *number = getenv("REFUSED");
        refused = number ? atol(number) : 0;
    }
    if (__atomic_add_fetch(&made, 1, __ATOMIC_RELAXED) != refused) return 0;
    write(9, "x", 1);
    errno = ENOMEM;  // which the C library looks at where it starts a thread
    return 1;
}

void *malloc(size_t size) {
    static void *(*next)(size_t);
    if (!next) next = dlsym(RTLD_NEXT, "malloc");
    return refuse() ? NULL : next(size);
}

void *calloc(size_t count, size_t size) {
    static void *(*next)(size_t, size_t);
    if (!next) next = dlsym(RTLD_NEXT, "calloc");
    return refuse() ? NULL : next(count, size);
}

void *realloc(void *old, size_t size) {
    static void *(*next)(void *, size_t);
    if (!next) next = dlsym(RTLD_NEXT, "realloc");
    return refuse() ? NULL : next(old, size);
}
"""

NO_MEMORY = b"error 10: out of memory\n"


def build_shim(folder):
    """The shared object that refuses an allocation."""
    source = folder / "shim.c"
    source.write_text(SHIM)
    shim = folder / "shim.so"
    subprocess.run(["gcc", "-O2", "-shared", "-fPIC", "-o", shim, source, "-ldl"], check=True)
    return shim


def run(words, job, shim, number):
    """A run whose allocation of this number is refused, and whether it came so far."""
    read, write = os.pipe()

    def keep_mark():
        os.dup2(write, 9)

    environment = dict(os.environ, LD_PRELOAD=str(shim), REFUSED=str(number))
    ran = subprocess.run(
        words, input=job, capture_output=True, env=environment, pass_fds=[9, write], preexec_fn=keep_mark
    )
    os.close(write)
    came = os.read(read, 1) == b"x"
    os.close(read)
    return ran, came


def is_front(out, lines):
    """Whether what was written is whole lines of the answer, each at most as often, and then a front of one."""
    *whole, last = out.split(b"\n")
    return not Counter(whole) - Counter(lines) and any(it.startswith(last) for it in lines)


def main(words):
    job = sys.stdin.buffer.read()
    with tempfile.TemporaryDirectory() as made:
        shim = build_shim(Path(made))
        whole, _ = run(words, job, shim, 0)
        if whole.returncode != 0:
            sys.exit(f"with all memory it ends with {whole.returncode}: {whole.stderr}")
        lines = sorted(whole.stdout.splitlines())
        refused = rows = 0
        number = 1
        while True:
            ran, came = run(words, job, shim, number)
            if not came:
                break
            may_stand = ran.stdout == b"" or "stream" in words and is_front(ran.stdout, lines)
            if ran.returncode == 10 and may_stand and ran.stderr == NO_MEMORY:
                refused += 1
            elif ran.returncode == 0 and sorted(ran.stdout.splitlines()) == lines and ran.stderr == b"":
                rows += 1
            else:
                sys.exit(f"allocation {number} refused: {ran.returncode}, {ran.stdout}, {ran.stderr}")
            number += 1
    print(f"{number - 1} allocations, each refused once: {refused} ended with status 10 and no line (of a stream: a front), {rows} with all lines")


if __name__ == "__main__":
    main(sys.argv[1:])
