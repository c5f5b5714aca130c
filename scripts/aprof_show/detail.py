"""One routine by doublings of its size."""
from __future__ import annotations

import math
from collections.abc import Iterable, Sequence
from itertools import groupby

from aprof_show.bends import slope_between
from aprof_show.causes import Cause
from aprof_show.growth import Growth, factor_of
from aprof_show.heading import wrapped
from aprof_show.marks import growth_text
from aprof_show.model import Point, sum_of_parts
from aprof_show.rows import Row
from aprof_show.table import projected, share_text, short_ratio, sizes_text, way_text
from aprof_show.terminal import Column, about, factor_text, percent, plural, short, table


WRITTEN_BY = ("PLAIN", "THREAD", "KERNEL")
"""Headings: who wrote the input, as the report has it."""


def detail(row: Row, room: int, place: str | None = None) -> list[str]:
    """The growth of a routine in words, and a line for each doubling. `place` is its file and line."""
    routine = row.routine
    lines = [f"{routine.label} at {routine.entry:08x}{f' in {place}' if place else ''}"]
    if routine.brief:
        lines.append(f"in full {routine.shown}")
    calls = f"{plural(routine.calls, 'call')}, {plural(len(routine.points), 'size')}"
    own = f", {percent(row.own)} its own" if row.own is not None else ""
    lines.append(f"{calls}, {share_text(row)} of all instructions with its callees{own}")
    if row.cause:
        lines += wrapped(cause_sentence(row, row.cause), room)
    elif row.superlinear and row.own is None:
        lines.append("`aprof contexts` in place of `aprof run` stores where that comes from")
    if not routine.points:
        return [*lines, "no call of it had returned at the end"]
    other = "" if len(routine.points) == 1 else " other than 0"
    nothing = f"only one input size{other}, so its growth is unknown; `show` joins reports of several inputs"
    told = growth_lines(row, row.growth) if row.growth else [nothing]
    lines += [part for line in told for part in wrapped(line, room)]
    return lines + table(columns_of(routine.points), room)


def cause_sentence(row: Row, cause: Cause) -> str:
    """Where most of its cost comes from, and why that grows faster than its input."""
    so_far = "" if row.routine.points else " so far"
    where = f"{percent(cause.part)} of its cost{so_far} is in {cause.routine.label} with its callees"
    way = way_text(cause)
    how = f",{'' if cause.is_direct else ' indirectly'}{way}" if way else ""
    calls = f"called {plural(cause.calls, 'time')}" if cause.calls else "still open"
    return f"{where}, {calls}{how}" + (f"; {row.reason.text}" if row.reason else "")


def growth_lines(row: Row, growth: Growth) -> list[str]:
    """The verdict, what it comes from, and what calls of larger sizes would cost."""
    weak = f", uncertain: {growth.weak}" if growth.weak else ""
    factor = growth_text(growth).rstrip(" ^")
    verdict = f"growth {factor}, {growth.guess}{weak}"
    if growth.rising is not None:
        verdict = f"growth {factor}, rising to {factor_text(factor_of(growth.rising))}: {growth.guess}, watch it"
    bent = [
        f"by the mean, as costs at one size differ (up to x{short_ratio(row.spread)}): "
        f"the greatest cost grows {factor_text(factor_of(growth.bent))}"
    ] if growth.bent is not None else []
    return [verdict, *bent, estimates_text(growth), *beyond_lines(row)]


def beyond_lines(row: Row) -> list[str]:
    """What calls of larger sizes would cost."""
    most, at_twice, at_tenfold = row.routine.points[-1].size, projected(row, 2), projected(row, 10)
    if at_twice is None or at_tenfold is None:
        return []
    twice, tenfold = about(at_twice, at_tenfold)
    return [f"at this growth: {twice} for a call of size {short(2 * most)}, {tenfold} for one of {short(10 * most)}"]


def estimates_text(growth: Growth) -> str:
    """What the growth is the median of."""
    estimates = (
        (growth.top, "at the largest sizes"),
        (growth.net, "without the least call's size and cost"),
        (growth.fit, "by a line through all"),
    )
    known = [f"{factor_text(factor_of(exponent))} {what}" for exponent, what in estimates if exponent is not None]
    return f"{'the median of ' if len(known) > 1 else ''}{', '.join(known)}"


def columns_of(points: Sequence[Point]) -> list[Column]:
    groups = [list(group) for _, group in groupby(points, key=lambda point: point.size.bit_length())]
    greatest = [max(group, key=lambda point: point.most) for group in groups]
    columns = [
        Column("SIZES", [sizes_text(group) for group in groups]),
        Column("CALLS", [short(sum(point.calls for point in group)) for group in groups]),
        Column("LEAST", [short(min(point.least for point in group)) for group in groups]),
        Column("GREATEST", [short(point.most) for point in greatest]),
        Column("A WORD", [f"{point.most / point.size:.1f}" if point.size else "" for point in greatest]),
        Column("GROWTH", ["", *(slope_text(*pair) for pair in zip(greatest, greatest[1:]))]),
    ]
    if sum_of_parts(points):
        parts = [parts_of(group) for group in groups] + [parts_of(points)] * (len(groups) > 1)
        columns += [Column(heading, [row[place] for row in parts]) for place, heading in enumerate(WRITTEN_BY)]
        if len(groups) > 1:
            add_totals(columns, points)
    return columns


def add_totals(columns: Sequence[Column], points: Sequence[Point]) -> None:
    """The line below all others, in the columns before those that have it."""
    totals = ["all", short(sum(point.calls for point in points)), "", "", "", ""]
    for column, total in zip(columns, totals):
        column.cells.append(total)


def notes(rows: Iterable[Row], room: int) -> list[str]:
    """What is said under the last table."""
    routines = [row.routine for row in rows if row.routine.points]
    if not routines:
        return []
    plain = "the thread itself had read or written those words since anyone else wrote them, or no one wrote them"
    writers = f". PLAIN: {plain}; THREAD: another thread wrote them; KERNEL: the kernel did"
    known = any(routine.parts for routine in routines)
    return wrapped("A WORD is the greatest cost by word of the size" + writers * known, room)


def slope_text(before: Point, after: Point) -> str:
    """The growth from one line to the next, where the sizes are far enough apart to tell."""
    if not before.size or not before.most or 2 * after.size < 3 * before.size:
        return ""
    return factor_text(factor_of(slope_between((before.size, before.most), (after.size, max(after.most, 1)))))


def parts_of(group: Sequence[Point]) -> tuple[str, str, str]:
    """Who wrote the input: the thread itself or no one, another thread, the kernel."""
    parts = sum_of_parts(group)
    sums = [parts.own, parts.thread, parts.kernel] if parts else [0, 0, 0]
    whole = sum(sums)
    own, thread, kernel = (f"{math.floor(100 * part / whole + 0.5)}%" if whole else "" for part in sums)
    return own, thread, kernel
