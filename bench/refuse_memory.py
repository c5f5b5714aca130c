#!/usr/bin/env python3
"""bench/refuse_memory.py PROGRAM [FIRST [STEP]]: refuses one allocation after another to a command with all options, by a
shim under the C library's allocator, and looks at what each call leaves: the result without a failure, or status 10 with a
first part of it. The last line counts the calls. The shim is built by cc."""
from __future__ import annotations

import argparse
import subprocess
import sys
import tempfile
from collections import Counter
from dataclasses import dataclass, field
from pathlib import Path

import host
from host import TOP, Word

ROW = TOP / "rows/nothing-fails"

SHIM = r"""
#define _GNU_SOURCE
#include <dlfcn.h>
#include <errno.h>
#include <stddef.h>
#include <stdio.h>
#include <stdlib.h>

static long left = -1;
static unsigned long made;

static int refuses(void)
{
    if (left < 0) {
        const char *text = getenv("REFUSE");
        left = text ? atol(text) : 0;
    }
    made++;
    return left > 0 && made == (unsigned long)left;
}

#define REAL(name, ...) ((void *(*)(__VA_ARGS__))dlsym(RTLD_NEXT, #name))

void *malloc(size_t size)
{
    static void *(*real)(size_t);
    if (!real)
        real = REAL(malloc, size_t);
    return refuses() ? NULL : real(size);
}

void *calloc(size_t count, size_t size)
{
    static void *(*real)(size_t, size_t);
    if (!real)
        real = REAL(calloc, size_t, size_t);
    return refuses() ? NULL : real(count, size);
}

void *realloc(void *old, size_t size)
{
    static void *(*real)(void *, size_t);
    if (!real)
        real = REAL(realloc, void *, size_t);
    return refuses() ? NULL : real(old, size);
}

int posix_memalign(void **into, size_t align, size_t size)
{
    static int (*real)(void **, size_t, size_t);
    if (!real)
        real = (int (*)(void **, size_t, size_t))dlsym(RTLD_NEXT, "posix_memalign");
    return refuses() ? ENOMEM : real(into, align, size);
}

void *aligned_alloc(size_t align, size_t size)
{
    static void *(*real)(size_t, size_t);
    if (!real)
        real = REAL(aligned_alloc, size_t, size_t);
    return refuses() ? NULL : real(align, size);
}

__attribute__((destructor)) static void tell(void)
{
    const char *path = getenv("REFUSED_COUNT");
    FILE *file = path ? fopen(path, "w") : NULL;
    if (file) {
        fprintf(file, "%lu\n", made);
        fclose(file);
    }
}
"""


@dataclass(frozen=True)
class Left:
    """What a call leaves. Two of them are alike whatever the number of their allocations."""

    status: int
    out: bytes
    err: bytes
    recording: bytes | None
    report: bytes | None
    allocations: int = field(compare=False)


def build(folder: Path) -> Path:
    """The shim, built."""
    source, shim = folder / "shim.c", folder / "shim.so"
    source.write_text(SHIM)
    subprocess.run(["cc", "-shared", "-fPIC", "-O1", "-o", shim, source, "-ldl"], check=True)
    return shim


def stored(file: Path) -> bytes | None:
    """What is stored in a file, if it is there."""
    return file.read_bytes() if file.is_file() else None


@dataclass(frozen=True)
class Calls:
    """Calls of a program under the shim, each in a folder of its own in this one."""

    program: Path
    shim: Path
    folder: Path

    def call(self, number: int) -> Left:
        """One call, with this allocation refused; 0 refuses none."""
        with tempfile.TemporaryDirectory(dir=self.folder) as made:
            folder = Path(made)
            for file in (ROW / "files").iterdir():
                (folder / file.name).write_bytes(file.read_bytes())
            command: list[Word] = [self.program, *(ROW / "words").read_text().split("\n")[:-1]]
            names = {"LD_PRELOAD": str(self.shim), "REFUSE": str(number), "REFUSED_COUNT": str(folder / "count")}
            run = subprocess.run(command, cwd=folder, env=names, stdin=subprocess.DEVNULL, capture_output=True, timeout=60)
            count = int(stored(folder / "count") or 0)
            return Left(run.returncode, run.stdout, run.stderr, stored(folder / "k"), stored(folder / "r"), count)


def is_part(left: Left, whole: Left) -> bool:
    """Status 10, and a first part of what a call without a failure leaves, in the order in which it leaves it."""
    came = left.err.removesuffix(b"aprof: out of memory\n")
    return (
        left.status == 10
        and whole.out.startswith(left.out)
        and came in (b"", whole.err)
        and left.recording in (None, whole.recording)
        and left.report in (None, whole.report)
        and (left.recording is None or left.out == whole.out)
        and (left.report is None or left.recording is not None)
        and (came == b"" or left.report is not None)
    )


def refuse(calls: Calls, first: int, step: int) -> int:
    """Refuses each of these allocations, tells of it, and returns how many calls were wrong."""
    whole = calls.call(0)
    print(f"{whole.allocations} allocations, status {whole.status}")
    found: Counter[str] = Counter()
    for number in range(first, whole.allocations + 1, step):
        left = calls.call(number)
        kind = "same" if left == whole else "part" if is_part(left, whole) else "wrong"
        found[kind] += 1
        if kind == "wrong":
            print(f"allocation {number}: {left}")
    print(f"{found['same']} as without, {found['part']} out of memory, {found['wrong']} wrong")
    return found["wrong"]


def options_of() -> argparse.Namespace:
    """The words of the command line."""
    parser = host.parser(__doc__)
    parser.add_argument("program", metavar="PROGRAM", type=host.program, help="the built aprof")
    parser.add_argument("first", metavar="FIRST", nargs="?", type=host.positive, default=1, help="the first allocation to refuse; 1 unless given")
    parser.add_argument("step", metavar="STEP", nargs="?", type=host.positive, default=1, help="refuse each STEPth from there on; 1 unless given")
    return parser.parse_args()


def main() -> int:
    """The status is 1 where a call was wrong."""
    options = options_of()
    with tempfile.TemporaryDirectory() as made:
        folder = Path(made)
        calls = Calls(options.program, build(folder), folder)
        return 1 if refuse(calls, options.first, options.step) else 0


if __name__ == "__main__":
    sys.exit(main())
