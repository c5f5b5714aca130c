"""Growths above a limit, as `--fail-above` tells of them."""
from __future__ import annotations

from collections.abc import Collection, Iterator, Mapping, Sequence
from dataclasses import replace

from aprof_show.costs import Cost, costs_of
from aprof_show.growth import Growth, factor_of
from aprof_show.library import library_text
from aprof_show.model import Context, Profile, Report, Routine
from aprof_show.rows import Row, ordered
from aprof_show.table import NAMED, Choice, share_text
from aprof_show.terminal import cut, factor_text, plural
from aprof_show.words import listed


def above(rows: Sequence[Row], limit: float, named: Collection[Routine], choice: Choice) -> list[Row]:
    """The rows whose growth is above a limit, or rises above it, in the order of the table. With names only those routines are
    looked at; without, those that the table would tell of, and none whose growth is uncertain."""
    found = steeper(rows, limit, choice)
    if named:
        return [row for row in found if row.routine in named]
    least = choice.least or 0.0
    return [row for row in found if not row.uncertain and row.share >= least and (choice.library or not row.library)]


def steeper(rows: Sequence[Row], limit: float, choice: Choice) -> list[Row]:
    return [row for row in ordered(rows, choice.by) if row.growth and factor_of(row.growth.ahead) > limit]


def above_text(rows: Sequence[Row], limit: float) -> list[str]:
    return [
        f"{row.routine.label} grows {above_limit(row.growth, limit)} ({share_text(row)} of all instructions with its callees)"
        for row in rows
        if row.growth
    ]


def above_limit(growth: Growth, limit: float) -> str:
    """With as many digits as tell both apart."""
    rises = growth.factor <= limit
    factor, digits = factor_of(growth.ahead) if rises else growth.factor, 1
    while digits < 6 and factor_text(factor, digits) == factor_text(limit, digits):
        digits += 1
    before = f"{factor_text(growth.factor)}, rising to " if rises else ""
    return f"{before}{factor_text(factor, digits)}{'~' * (growth.weak is not None)}, above {factor_text(limit, digits)}"


def not_judged(rows: Sequence[Row], limit: float, named: Collection[Routine], choice: Choice) -> list[str]:
    """What is said of routines whose growth is above the limit, where they don't count: those of a library, and those whose
    growth is uncertain, if they are not cheap."""
    if named:
        return []
    certain = above(rows, limit, named, replace(choice, library=True))
    library = [row for row in certain if row.library and not choice.library]
    loose = [row for row in steeper(rows, limit, choice) if row.uncertain and not row.library and is_dear(row, choice)]
    of_library = f"{library_text(row.routine for row in library)} routine"
    over = f"above {factor_text(limit)} not counted"
    texts = (
        f"{plural(len(library), of_library)} {over}: --library" if library else "",
        f"{plural(len(loose), 'routine')} of uncertain growth {over}: give more sizes, or name them" if loose else "",
    )
    return [text for text in texts if text]


def is_dear(row: Row, choice: Choice) -> bool:
    """Whether its share is such that the table lists it."""
    return row.share >= (0.01 if choice.least is None else choice.least)


def cut_short(profile: Profile) -> Iterator[str]:
    """A warning about runs that did not end as one wants them to: the calls that matter may be missing."""
    ends = [f"{report.path} ({report.end})" for report in profile.reports if report.end != "exit 0"]
    if ends:
        yield f"{first_of(ends)} did not end with exit code 0: what is missing there is not judged"


def first_of(texts: Sequence[str]) -> str:
    """The first ones of many, and how many more there are."""
    return listed([*texts[:NAMED], *[f"{len(texts) - NAMED} more"] * (len(texts) > NAMED)])


def of_one_input(profile: Profile, rows: Sequence[Row], named: Collection[Routine], choice: Choice) -> Iterator[str]:
    """A warning where a single report is judged, in which many a routine has one size."""
    if named or len(profile.reports) > 1:
        return
    unknown = [row for row in ordered(rows, "share") if row.growth is None and not row.library and is_dear(row, choice)]
    if unknown:
        names, has = first_of([cut(row.routine.label, 50) for row in unknown]), "has" if len(unknown) == 1 else "have"
        yield f"{names} {has} at most one size other than 0, so not judged: give reports of several inputs"


def unjudged(rows: Sequence[Row], named: Collection[Routine]) -> Iterator[str]:
    """Warnings about named routines of which no growth is known, so that nothing is judged."""
    for row in rows:
        if row.routine in named and row.growth is None and row.routine.points:
            yield f"{row.routine.label} has at most one size other than 0, so its growth is not known, and not judged"
    there = {row.routine.name for row in rows}
    for name in sorted({routine.label for routine in named if routine.name not in there}):
        yield f"{name} is in none of the new reports, so it is not judged"


def unreturned(profile: Profile, named: Collection[Routine]) -> Iterator[str]:
    """Warnings about named routines that had not returned in a report, so that nothing is known of what they cost there."""
    for report in (report for report in profile.reports if named and report.still_open):
        costs = None if report.roots is None else costs_of(report.roots)
        for routine in (routine for routine in profile.routines if routine in named):
            yield from unreturned_in(report, routine, costs)


def unreturned_in(report: Report, routine: Routine, costs: Mapping[Context, Cost] | None) -> Iterator[str]:
    def is_it(other: Routine) -> bool:
        return other.name == routine.name if routine.name else other.entry == routine.entry

    if costs is not None:
        if any(cost.open and is_it(context.routine) for context, cost in costs.items()):
            yield f"{routine.label} had not returned at the end of {report.path}, so that call is not judged"
    elif not any(map(is_it, report.routines)):
        calls = plural(report.still_open, "call")
        yield f"{report.path} has no call of {routine.label} that returned, and {calls} that had not: what they cost is not judged"
