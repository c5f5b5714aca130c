"""Where in the program an address is: the routine, and the line of its source."""
from __future__ import annotations

import os
from bisect import bisect_right
from collections.abc import Sequence
from dataclasses import dataclass
from functools import cache

from aprof_show.model import Routine
from aprof_show.source import BadImage, demangle, lines_of_image, read_symbols

NEAR = 64
"""Bytes below an address where a line is looked for: an instruction may have none."""


@dataclass(frozen=True)
class Place:
    """Where an address lies: the routine that begins at or below it, by the image's symbols, and the line of its source."""

    routine: str | None
    line: str | None


def place_of(image: str, address: int) -> Place:
    try:
        symbols = read_symbols(image)
    except (BadImage, OSError):
        return Place(None, None)
    number = bisect_right([at for at, _ in symbols], address) - 1
    if number < 0:
        return Place(None, line_at(image, [address]))
    routine = Routine(*symbols[number])
    demangle([routine])
    near = range(address, max(routine.entry, address - NEAR) - 1, -4)
    return Place(routine.shown or routine.name, line_at(image, near))


def has_symbols(image: str) -> bool:
    try:
        return bool(read_symbols(image))
    except (BadImage, OSError):
        return False


def line_at(image: str, addresses: Sequence[int]) -> str | None:
    """FILE:LINE of the first address that has one, where the image has lines and a program is there that reads them."""
    lines = lines_of_image(image, addresses, of_entries=False)
    found = next((lines[address] for address in addresses if address in lines), None)
    return found.removeprefix(os.getcwd() + "/") if found else None


@cache
def place_text(image: str, address: int) -> str | None:
    """`in look, dead.c:20`, or as much of it as is known."""
    place = place_of(image, address)
    parts = [f"in {place.routine}" if place.routine else None, place.line]
    return ", ".join(part for part in parts if part) or None
