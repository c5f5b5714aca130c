"""Which routines are of the C library, by the names of musl's functions and by where the linker puts them, and which are of the
C++ library, by what is in `std`: a program's own objects have its templates."""
from __future__ import annotations

import re
from collections.abc import Iterable, Sequence
from pathlib import Path

from aprof_show.model import Report, Routine

FEWEST = 4
"""So many of the library's names behind one another are no chance: any program with it has its start and its end."""

OF_CXX = re.compile(r"_Z+(?:T[hv][n0-9_]+)?(N[rVK]*[RO]?S[abdiost]|St|N[rVK]*10__cxxabiv1|nw|na|dl|da)|__cxa_")
"""How names of the C++ library begin: those in `std` and in `__cxxabiv1`, `operator new` and `delete`, and what compiled code
calls (`__cxa_atexit`)."""


def musl_names() -> frozenset[str]:
    """Made by scripts/musl_names.py."""
    return frozenset(Path(__file__).with_name("musl-names.txt").read_text(encoding="ascii").split())


def library_routines(reports: Sequence[Report], routines: Sequence[Routine]) -> set[Routine]:
    """Those of `routines`, which the reports have joined, that are the libraries'. None where nothing else would be left."""
    names = musl_names()
    places = {place for report in reports for place in last_of_library(report.routines, names)}
    found = {routine for routine in routines if (routine.entry, routine.name) in places or is_in_std(routine.name)}
    return found if len(found) < len(routines) else set()


def last_of_library(routines: Sequence[Routine], names: frozenset[str]) -> list[tuple[int, str | None]]:
    """The routines behind the last one that isn't the library's: a program's own objects are linked before it. A routine
    without a name among them, such as the start of a thread, is the library's too, and so is an initialiser of C++."""
    places: list[tuple[int, str | None]] = []
    for routine in sorted(routines, key=lambda routine: -routine.entry):
        if not is_anyones(routine.name) and routine.name not in names and not is_in_std(routine.name):
            break
        places.append((routine.entry, routine.name))
    while places and is_anyones(places[-1][1]):
        places.pop()
    return places if sum(not is_anyones(name) for _, name in places) >= FEWEST else []


def is_anyones(name: str | None) -> bool:
    """Whether a name doesn't tell whose the routine is."""
    return name is None or name.startswith("_GLOBAL__")


def is_in_std(name: str | None) -> bool:
    return OF_CXX.match(name or "") is not None


def library_text(routines: Iterable[Routine]) -> str:
    """What the library of these routines is called; that of C++ has the one of C in it."""
    return "C++ library" if any(is_in_std(routine.name) for routine in routines) else "C library"
