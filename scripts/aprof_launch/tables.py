"""What the numbers in the program's last texts mean: README has the same."""
from __future__ import annotations

import re

from aprof_show import ends

IMAGES: tuple[tuple[tuple[int, ...], str, str], ...] = (
    ((1, 2, 3, 4, 5, 9, 10), "is no whole 32-bit little-endian ELF file", "a compiler for riscv32"),
    ((6, 11), "is not linked (a .o), position-independent, or dynamic", "link it with -static -no-pie (and -fno-pie)"),
    ((7,), "is for another processor", "--target=riscv32"),
    (
        (8,),
        "has compressed instructions, RV32E or floats in registers",
        "-march=rv32ima -mabi=ilp32, the libraries too",
    ),
    (
        (12, 13, 14, 15, 16, 17, 18),
        "has a segment or an entry that can't be loaded",
        "the linker's own layout (no script); less static data",
    ),
)
NO_START = "17 comes also where there is no `_start`: link a C library, or include examples/main.h"

REMARKS = {
    3: " (a null pointer, or one that is wrong)",
    4: " (a null pointer, a recursion whose stack is full, no memory left for `malloc` or `new`, musl's `abort` or a failed `assert`)",
}
FAULTS = {kind: f"{what}{REMARKS.get(kind, '')}" for kind, what in enumerate(ends.FAULTS, 1)}

TRACES = {
    1: "its first line is another",
    2: "a record is malformed",
    3: "a record is out of order",
    4: "the end is missing",
}


def no_code(at: int) -> str:
    """How a run comes to an address where there is no code."""
    if at == 0:
        return "a null function pointer was called, or _start returned"
    return "a call through a wrong function pointer, or a return over an overwritten stack"


MOST_STEPS = 10**12
"""A run has at most so many, and so has a turn of a schedule."""


def schedule_line(line: str) -> str:
    """What is wrong with a line of a schedule."""
    if line.endswith("\r"):
        return "lines end in LF, not CR LF"
    found = re.fullmatch(r"\s*([0-9]+)\s+([0-9]+)\s*", line)
    if found is None:
        return "not of the form TID STEPS, as 1 10000: two numbers and one space"
    tid, steps = found.groups()
    if line != f"{tid} {steps}":
        return "there is one space, and it stands between the two numbers"
    if not 1 <= int(steps) <= MOST_STEPS:
        return f"STEPS is 1 to {MOST_STEPS}"
    if tid[0] == "0" or steps[0] == "0":
        return "a number begins with no 0"
    return "a run begins with thread 1"


def image_row(number: int) -> list[str]:
    """The row of README's table for `image K`."""
    rows = [f"it {what}; to fix it: {cure}" for numbers, what, cure in IMAGES if number in numbers]
    return [*rows, *([NO_START] if number == 17 else [])]
