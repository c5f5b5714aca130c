"""Whether reports are of one program and each is another one: warnings where they hardly can be."""
from __future__ import annotations

import os
from collections.abc import Iterator, Sequence
from pathlib import Path

from aprof_show.library import musl_names
from aprof_show.model import CacheReport, Report

COMMON = 0.25
"""Reports of one program have more of the names in common, of those that the one with fewer has."""

EVERYWHERE = frozenset({"main", "_start"})

Addresses = dict[str, set[int]]
"""Those of each name."""


def addresses_of(reports: Sequence[Report]) -> Addresses:
    addresses: Addresses = {}
    for report in reports:
        for routine in report.routines:
            if routine.name is not None:
                addresses.setdefault(routine.name, set()).add(routine.entry)
    return addresses


def few_names(some: Addresses, others: Addresses) -> bool:
    """Whether there is hardly a name in common, of those that are the programs' own."""
    mine, yours = (names.keys() - musl_names() - EVERYWHERE for names in (some, others))
    fewer = min(len(mine), len(yours))
    return fewer > 0 and len(mine & yours) < COMMON * fewer


def clash(some: Addresses, others: Addresses) -> bool:
    """Whether most names of both are at other addresses, or an address has another name."""
    common = some.keys() & others.keys()
    moved = sum(not some[name] & others[name] for name in common)
    here = {entry: name for name, entries in some.items() for entry in entries}
    renamed = any(here.get(entry, name) != name for name, entries in others.items() for entry in entries)
    return renamed or 2 * moved > len(common)


def strangers(reports: Sequence[Report]) -> Iterator[str]:
    """Warnings about reports that are joined, each compared with the first one."""
    first = addresses_of(reports[:1])
    for report in reports[1:]:
        other = addresses_of([report])
        if clash(first, other):
            what = "hardly a routine in common" if few_names(first, other) else "most routines at other addresses"
            yield f"{reports[0].path} and {report.path} have {what}: of different programs or builds?"
            return


def repeated(reports: Sequence[Report | CacheReport]) -> Iterator[str]:
    """A warning where a file is given twice, perhaps in a folder too."""
    seen: set[str] = set()
    for report in reports:
        path = os.path.realpath(report.path)
        if path in seen:
            yield f"{report.path} is given twice, and counts twice"
            return
        seen.add(path)


def without_contexts(reports: Sequence[Report]) -> Iterator[str]:
    """A warning where some reports have calling contexts and others have none."""
    lacking = [report for report in reports if report.roots is None]
    if 0 < len(lacking) < len(reports):
        yield f"{lacking[0].path} has no calling contexts, so those of the other reports are left out, and so is ITS OWN"


def many_new(old: str, new: Sequence[Report]) -> Iterator[str]:
    """A warning where a pattern of several old reports may have become one old report and many new ones."""
    folder = Path(old).parent
    if len(new) > 2 and not Path(old).is_dir() and any(Path(report.path).parent == folder for report in new):
        yield f"--against takes one old report, here {old}; the other {len(new)} are new: to compare two sets, put each in a folder"


def strange_pair(old: Sequence[Report], new: Sequence[Report]) -> Iterator[str]:
    """A warning about reports that are compared. Another build has other addresses, but names in common."""
    if few_names(addresses_of(old), addresses_of(new)):
        yield f"{old[0].path} and {new[0].path} have hardly a routine in common: of different programs?"
