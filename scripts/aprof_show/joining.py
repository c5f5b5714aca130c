"""Joins reports to what one longer run would have stored: points of one size are added up.

Routines are joined by name. Where the reports are of one image, routines of one name (static functions of several files) are
told apart by their address, and routines without a name are joined by it; else the former are told apart by their order in
each report, and the latter are kept apart. A report has no names for routines that never returned in it: where the reports are
of one image, these are called what another report calls them.
"""
from __future__ import annotations

from collections import Counter
from collections.abc import Iterable, Iterator, Sequence
from dataclasses import replace

from aprof_show.model import CacheReport, CacheRoutine, Context, Point, Profile, Report, Routine, sum_of_parts

Key = tuple[object, ...]
Listing = Sequence[tuple[int, str | None]]
"""The address and the name of each routine of a report, in its order."""


class CannotJoin(Exception):
    """Reports of different kinds."""


def join(reports: Sequence[Report]) -> Profile:
    if len(reports) == 1:
        profile = Profile(list(reports), reports[0].routines, reports[0].roots)
        tell_apart(profile.routines, {})
        return profile
    one_image = of_one_image(reports)
    if one_image:
        name_unreturned(reports)
    listings = [[(routine.entry, routine.name) for routine in report.routines] for report in reports]
    keys = {
        routine: key
        for report, found in zip(reports, keys_of(listings, one_image))
        for routine, key in zip(report.routines, found)
    }
    joined: dict[Key, Routine] = {}
    sources: dict[Routine, set[str]] = {}
    points: dict[Routine, list[Point]] = {}
    for report in reports:
        for routine in report.routines:
            new = joined.setdefault(keys[routine], Routine(routine.entry, routine.name, shown=routine.shown))
            points.setdefault(new, []).extend(routine.points)
            sources.setdefault(new, set()).add(report.path)
    for new, found in points.items():
        new.points = add_points([], found)
    tell_apart(list(joined.values()), sources)
    roots = None
    if all(report.roots is not None for report in reports):
        roots = join_contexts(reports, {routine: joined[key] for routine, key in keys.items()})
    return Profile(list(reports), list(joined.values()), roots)


def add_points(some: Iterable[Point], others: Iterable[Point]) -> list[Point]:
    by_size = {point.size: point for point in some}
    for point in others:
        there = by_size.get(point.size)
        by_size[point.size] = add_up(there, point) if there else point
    return [by_size[size] for size in sorted(by_size)]


def points_of(contexts: Iterable[Context]) -> list[Point]:
    """The points of the calls of all these contexts."""
    return add_points([], (point for context in contexts for point in context.points))


def add_up(one: Point, other: Point) -> Point:
    """The point of the calls of both, which have one size."""
    return Point(
        one.size,
        one.calls + other.calls,
        min(one.least, other.least),
        max(one.most, other.most),
        one.cost + other.cost,
        sum_of_parts([one, other]),
    )


def of_one_image(reports: Sequence[Report]) -> bool:
    return at_one_place([[(r.entry, r.name) for r in report.routines if not is_unnamed(r)] for report in reports])


def at_one_place(listings: Sequence[Listing]) -> bool:
    """Whether no address has two names, and names that several reports have are at one address. A few may be at several: static
    functions of one name."""
    names: dict[int, str | None] = {}
    places: dict[str, list[set[int]]] = {}
    for listing in listings:
        mine: dict[str, set[int]] = {}
        for entry, name in listing:
            if names.setdefault(entry, name) != name:
                return False
            if name:
                mine.setdefault(name, set()).add(entry)
        for name, entries in mine.items():
            places.setdefault(name, []).append(entries)
    shared = [sets for sets in places.values() if len(sets) > 1]
    differing = sum(not set.intersection(*sets) for sets in shared)
    return 4 * differing <= len(shared) - differing


def is_unnamed(routine: Routine) -> bool:
    """Whether its report can't know its name, as no call of it returned."""
    return routine.name is None and not routine.points


def name_unreturned(reports: Sequence[Report]) -> None:
    """Gives the routines that have no name, as they never returned, the one at their address in the other reports."""
    routines = [routine for report in reports for routine in report.routines]
    names = {routine.entry: routine.name for routine in routines if not is_unnamed(routine)}
    for routine in routines:
        if is_unnamed(routine):
            routine.name = names.get(routine.entry)


def keys_of(listings: Sequence[Listing], one_image: bool) -> list[list[Key]]:
    """What is equal for two routines exactly where they are to be joined."""
    return [[*keys_in(listing, place, one_image)] for place, listing in enumerate(listings)]


def keys_in(listing: Listing, place: int, one_image: bool) -> Iterator[Key]:
    seen: Counter[str] = Counter()
    for entry, name in listing:
        if one_image:
            yield (entry,)
        elif name is None:
            yield (place, entry)
        else:
            yield (name, seen[name])
            seen[name] += 1


def tell_apart(routines: list[Routine], sources: dict[Routine, set[str]]) -> None:
    """Gives routines that have the same label something behind it: their addresses, or the report of those without names."""
    counts = Counter(routine.label for routine in routines)
    for routine in routines:
        if counts[routine.label] > 1:
            routine.apart = f"{routine.entry:08x}" if routine.name else ", ".join(sorted(sources.get(routine, ())))


def tell_alike(routines: Sequence[Routine]) -> None:
    """Gives routines whose labels are alike only as they are shown, such as two destructors of a class, their addresses."""
    counts = Counter(routine.label for routine in routines)
    for routine in routines:
        if counts[routine.label] > 1 and not routine.apart:
            routine.apart = f"{routine.entry:08x}"


def join_contexts(reports: Sequence[Report], joined: dict[Routine, Routine]) -> list[Context]:
    """Contexts joined by their chains of joined routines, in the order in which they first come."""
    roots: list[Context] = []
    places: dict[tuple[Context | None, Routine], Context] = {}
    for report in reports:
        below: list[tuple[Context, Context | None]] = [(root, None) for root in reversed(report.roots or [])]
        while below:
            context, caller = below.pop()
            routine = joined[context.routine]
            new = places.get((caller, routine))
            if new is None:
                new = places[caller, routine] = Context(routine, caller)
                (caller.callees if caller else roots).append(new)
            new.joined.append(context)
            below.extend((callee, new) for callee in reversed(context.callees))
    for new in places.values():
        new.points = points_of(new.joined)
    return roots


def join_caches(reports: Sequence[CacheReport]) -> CacheReport:
    """Accesses and misses added up."""
    listings = [[(routine.entry, routine.name) for routine in report.routines] for report in reports]
    one_image = at_one_place([[(entry, name) for entry, name in listing if name] for listing in listings])
    sums: dict[Key, CacheRoutine] = {}
    for report, keys in zip(reports, keys_of(listings, one_image)):
        for routine, key in zip(report.routines, keys):
            there = sums.get(key)
            is_apart = routine.name is None and not one_image
            sums[key] = add_accesses(there, routine) if there else replace(routine, apart=report.path if is_apart else None)
    ends = {report.end for report in reports}
    end = ends.pop() if len(ends) == 1 else "of several kinds"
    return CacheReport(", ".join(report.path for report in reports), end, sum(r.steps for r in reports), list(sums.values()))


def add_accesses(one: CacheRoutine, other: CacheRoutine) -> CacheRoutine:
    return replace(one, name=one.name or other.name, accesses=one.accesses + other.accesses, misses=one.misses + other.misses)
