"""A profile as JSON and as CSV. docs/aprof-show.1 says what the keys and columns mean; they keep their names and meanings, and new
ones may be added. The format is "aprof-show 2"; in 1, `plain` was called `own`."""
from __future__ import annotations

import csv
import io
import json
from collections.abc import Collection, Sequence

from aprof_show.causes import Cause
from aprof_show.costs import contexts_of, costs_of
from aprof_show.growth import Growth
from aprof_show.model import Context, Point, Profile, Routine
from aprof_show.reasons import Reason
from aprof_show.rows import Row

POINT_KEYS = ("size", "calls", "least", "most", "cost", "plain", "thread", "kernel", "bare")


def json_text(profile: Profile, rows: Sequence[Row], named: Collection[Routine] = ()) -> str:
    """Of the named routines alone, then without contexts, or of all."""
    reports = [
        {"path": report.path, "end": report.end, "steps": report.steps, "open": report.still_open}
        for report in profile.reports
    ]
    routines = [routine_values(row) for row in rows if not named or row.routine in named]
    roots = None if named else profile.roots
    contexts = context_values(roots, [row.routine for row in rows]) if roots is not None else None
    value = {"format": "aprof-show 2", "reports": reports, "routines": routines, "contexts": contexts}
    return json.dumps(value, indent=1, allow_nan=False)


def routine_values(row: Row) -> dict[str, object]:
    routine = row.routine
    return {
        "entry": f"{routine.entry:08x}",
        "name": routine.name,
        "label": routine.label,
        "library": row.library,
        "calls": routine.calls,
        "cost": routine.cost,
        "share": row.share,
        "self_share": row.own,
        "growth": growth_values(row.growth) if row.growth else None,
        "cause": cause_values(row.cause, row.reason) if row.cause else None,
        "points": [dict(zip(POINT_KEYS, point_values(point))) for point in routine.points],
    }


def cause_values(cause: Cause, reason: Reason | None) -> dict[str, object]:
    return {
        "entry": f"{cause.routine.entry:08x}",
        "label": cause.routine.label,
        "share": cause.part,
        "calls": cause.calls,
        "direct": cause.is_direct,
        "why": reason.text if reason else None,
    }


def growth_values(growth: Growth) -> dict[str, object]:
    return {
        "factor": growth.factor,
        "exponent": growth.exponent,
        "whole": growth.whole,
        "top": growth.top,
        "net": growth.net,
        "fit": growth.fit,
        "rising": growth.rising,
        "bent": growth.bent,
        "weak": growth.weak,
    }


def point_values(point: Point) -> list[int | None]:
    parts = point.parts
    foreign: list[int | None] = [None] * 4
    if parts:
        foreign = [parts.own, parts.thread, parts.kernel, parts.bare]
    return [point.size, point.calls, point.least, point.most, point.cost, *foreign]


def context_values(roots: Sequence[Context], routines: Sequence[Routine]) -> list[dict[str, object]]:
    costs = costs_of(roots)
    places = {routine: place for place, routine in enumerate(routines)}
    numbers: dict[Context, int] = {}
    values: list[dict[str, object]] = []
    for context in contexts_of(roots):
        numbers[context] = len(numbers)
        values.append(
            {
                "routine": places[context.routine],
                "caller": numbers[context.caller] if context.caller else None,
                "calls": context.calls,
                "total": costs[context].total,
                "self": costs[context].own,
                "open": costs[context].open,
                "points": [dict(zip(POINT_KEYS, point_values(point))) for point in context.points],
            }
        )
    return values


def csv_text(profile: Profile, named: Collection[Routine] = ()) -> str:
    """A line for each point of each routine, or of the named ones, under a line of headings."""
    text = io.StringIO()
    writer = csv.writer(text, lineterminator="\n")
    writer.writerow(("routine", "entry", *POINT_KEYS))
    for routine in profile.routines:
        if named and routine not in named:
            continue
        for point in routine.points:
            writer.writerow((routine.label, f"{routine.entry:08x}", *point_values(point)))
    return text.getvalue().rstrip("\n")
