"""One HTML file of a profile that needs no network: the routines, the charts of one of them, and the calling contexts.

The sources are in page/, and the chart library is read from its Debian package.
"""
from __future__ import annotations

import json
import re
from collections import Counter
from collections.abc import Mapping, Sequence
from pathlib import Path
from typing import Any

from aprof_show.costs import Cost, chain_texts, contexts_of, costs_of, open_ends
from aprof_show.ends import ended
from aprof_show.growth import Growth, factor_of, growth_of
from aprof_show.heading import unplaced_text
from aprof_show.joining import points_of
from aprof_show.library import library_text
from aprof_show.marks import MANY, MEANINGS, RISING, STEEP, WEAK
from aprof_show.model import Context, Point, Profile, Report, Routine
from aprof_show.output import write_text
from aprof_show.rows import Row, ordered
from aprof_show.table import greatest_cost, is_named, projected

LIBRARY = Path("/usr/share/javascript/chart.js/chart.min.js")
SOURCES = Path(__file__).parent / "page"
SCRIPTS = ("format.js", "data.js", "points.js", "axes.js", "charts.js", "pointer.js", "detail.js", "badges.js",
           "table.js", "contexts.js", "callees.js", "tree.js", "main.js")
CHEAP = 0.01

Json = dict[str, Any]
Places = dict[Routine, int]
"""Where the routines stand in the page's table."""


class MissingPackage(Exception):
    """A Debian package that the page is made of is not installed."""


def write_page(path: str, profile: Profile, rows: Sequence[Row], lines: Mapping[int, str]) -> None:
    """Writes the page; `lines` has the source line of a routine's entry where it is known."""
    parts = {
        "style": source_of("page.css"),
        "library": library(),
        # a name may have the end of a script in it
        "profile": json.dumps(json_of(profile, ordered(rows, None), lines), separators=(",", ":")).replace("<", "\\u003c"),
        "script": "".join(source_of(name) for name in SCRIPTS),
    }
    # in one pass, as what is set in may have such a mark itself
    text = re.sub(r"@(style|library|profile|script)@", lambda found: parts[found[1]], source_of("page.html"))
    write_text(path, text)


def source_of(name: str) -> str:
    return (SOURCES / name).read_text(encoding="utf-8")


def library() -> str:
    try:
        return LIBRARY.read_text(encoding="utf-8").replace("</script", "<\\/script")
    except OSError as error:
        raise MissingPackage(f"{LIBRARY} is missing, which is in the Debian package libjs-chart.js") from error


def json_of(profile: Profile, rows: Sequence[Row], lines: Mapping[int, str]) -> Json:
    places = {row.routine: place for place, row in enumerate(rows)}
    costs = costs_of(profile.roots or [])
    return {
        "reports": [report_json(report) for report in profile.reports],
        "steps": profile.steps,
        "open": profile.still_open,
        "meanings": {"steep": MEANINGS[STEEP], "weak": MEANINGS[WEAK], "many": MEANINGS[MANY], "rising": MEANINGS[RISING]},
        "routines": [row_json(row, lines.get(row.routine.entry), places) for row in rows],
        "library": library_text(row.routine for row in rows if row.library),
        "unplaced": unplaced_text(profile, costs) if profile.roots else "",
        "chains": [chain_texts(context) for context in open_ends(profile.roots or [], costs)],
        "contexts": None if profile.roots is None else contexts_json(profile.roots, costs, rows, places),
        "callers": callers_json(profile.roots or [], places),
    }


def report_json(report: Report) -> Json:
    return {"path": report.path, "end": ended(report.end), "steps": report.steps, "open": report.still_open}


def row_json(row: Row, line: str | None, places: Places) -> Json:
    routine, growth = row.routine, row.growth
    return {
        "name": routine.label,
        "entry": f"{routine.entry:08x}",
        "line": line,
        "growth": growth_json(growth),
        "top": factor_json(growth.top if growth else None),
        "rising": factor_json(growth.rising if growth else None),
        "bent": factor_json(growth.bent if growth else None),
        "guess": growth.guess if growth else None,
        "weak": growth.weak if growth else None,
        "steep": row.superlinear,
        "many": row.many,
        "named": is_named(routine),
        "greatest": greatest_cost(routine),
        "twice": rounded(projected(row, 2)),
        "share": row.share,
        # at least so much where calls were open, at most where nested calls were counted each
        "bound": "≥" if row.open else "" if row.exact else "≤",
        "self": row.own,
        "cause": cause_json(row, places),
        "cheap": row.share < CHEAP and not row.superlinear and not row.open,
        "library": row.library,
        "calls": routine.calls,
        "points": columns_of(routine.points),
    }


def cause_json(row: Row, places: Places) -> Json | None:
    """What it calls that has most of its cost, by which way, and why that grows."""
    cause = row.cause
    if cause is None:
        return None
    return {
        "routine": places[cause.routine],
        "part": round(cause.part, 4),
        "calls": cause.calls,
        "way": places[cause.dearest_way],
        "direct": cause.is_direct,
        "through": places[cause.through] if cause.through else None,
        "more": cause.more,
        "why": row.reason.text if row.reason else None,
    }


def rounded(cost: float | None) -> float | None:
    return None if cost is None else float(f"{cost:.2g}")


def growth_json(growth: Growth | None) -> float | None:
    return factor_json(growth.exponent if growth else None)


def factor_json(exponent: float | None) -> float | None:
    return None if exponent is None else round(factor_of(exponent), 6)


def columns_of(points: Sequence[Point]) -> list[Any]:
    """Sizes, calls, costs, least, most, thread's and kernel's words: a list each, a number where all are the same, or null."""
    alone = all(point.calls == 1 for point in points)
    parts = [point.parts for point in points if point.parts]
    whole = len(parts) == len(points)
    columns = [
        [point.calls for point in points],
        [point.cost for point in points],
        None if alone else [point.least for point in points],
        None if alone else [point.most for point in points],
        [part.thread for part in parts] if whole else None,
        [part.kernel for part in parts] if whole else None,
    ]
    packed = [column[0] if column and len(set(column)) == 1 else column for column in columns]
    return [[point.size for point in points], *packed]


def contexts_json(roots: Sequence[Context], costs: Mapping[Context, Cost], rows: Sequence[Row], places: Places) -> Json:
    """A column for each fact, each context before those under it, and which of them were open at the end."""
    contexts = list(contexts_of(roots))
    numbers = {context: number for number, context in enumerate(contexts)}
    times = Counter(context.routine for context in contexts)

    def growth(context: Context) -> Growth | None:
        known = times[context.routine] == 1
        return rows[places[context.routine]].growth if known else growth_of(context.points)

    return {
        "routine": [places[context.routine] for context in contexts],
        "caller": [numbers[context.caller] if context.caller else -1 for context in contexts],
        "calls": [context.calls for context in contexts],
        "cost": [costs[context].total for context in contexts],
        "self": [costs[context].own for context in contexts],
        "growth": [growth_json(growth(context)) for context in contexts],
        "open": [number for number, context in enumerate(contexts) if costs[context].open],
    }


def callers_json(roots: Sequence[Context], places: Places) -> list[list[Any]]:
    """How a routine's cost grows in its calls from a caller that has several contexts: the routine, the caller and the growth."""
    pairs: dict[tuple[int, int], list[Context]] = {}
    for context in contexts_of(roots):
        if context.caller:
            pairs.setdefault((places[context.routine], places[context.caller.routine]), []).append(context)
    return [[*pair, growth_json(growth_of(points_of(contexts)))] for pair, contexts in pairs.items() if len(contexts) > 1]
