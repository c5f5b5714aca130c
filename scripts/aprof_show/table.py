"""The table of routines, what to look at first, and the lines about a run above and below it."""
from __future__ import annotations

from collections.abc import Sequence
from dataclasses import dataclass

from aprof_show.causes import Cause
from aprof_show.heading import head, open_lines, wrapped
from aprof_show.library import library_text
from aprof_show.marks import legend, marked
from aprof_show.model import Point, Profile, Routine
from aprof_show.reasons import Reason
from aprof_show.rows import WRITERS, Row, ordered, written_part
from aprof_show.terminal import Column, cut, percent, plural, short, table, with_remarks

WIDE = 112
"""From so many columns on the table has the greatest cost and what it would be at larger sizes."""

WITH_CALLEES, ITS_OWN, GREATEST_COST = "WITH\nCALLEES", "ITS\nOWN", "GREATEST\nCOST"
"""Headings. A percentage is of all instructions, with what the routine calls, where nothing else is said."""

MUCH = 0.25
"""From this part on it is said that another thread wrote the input of a routine."""

NAMED = 3
"""So many of the marked routines that are left out are named."""


@dataclass(frozen=True)
class Choice:
    """Which rows to list: at least `least` of all instructions, or superlinear; at most `top`."""

    least: float | None = None
    all: bool = False
    library: bool = False
    top: int | None = None
    by: str | None = None

    def has(self, row: Row) -> bool:
        if self.all:
            return True
        least = 0.01 if self.least is None else self.least
        surely = row.superlinear and not row.uncertain
        possibly = row.superlinear and row.projected_share >= least
        return row.share >= least or self.least is None and (surely or possibly or self.asks_for(row))

    def asks_for(self, row: Row) -> bool:
        """Whether most of its input is by those whose part is the order."""
        return self.by in WRITERS and written_part(row.routine, self.by, 0.0) > 0.5

    @property
    def for_cheaper(self) -> str:
        """The option that lists cheaper routines."""
        return "--all" if self.least is None else "a smaller --min"


def summary(profile: Profile, rows: Sequence[Row], choice: Choice, room: int) -> list[str]:
    """All that `show REPORT...` prints."""
    folded = [row for row in rows if row.library and not choice.library]
    others = [row for row in rows if not row.library or choice.library]
    listed = ordered([row for row in others if choice.has(row)], choice.by)[: choice.top]
    shown = set(listed)
    hidden = [row for row in others if row not in shown]
    lines = head(profile) + open_lines(profile, room)
    if listed:
        lines += with_causes(table(columns_of(listed, room, choice.by), room), listed, room)
    lines += legend(signs_of([*listed, *marked_of(sure_of(folded))[:NAMED], *marked_of(hidden)[:NAMED]]))
    lines += folded_lines(folded, room) if folded else []
    lines += hidden_lines(hidden, choice, room) if hidden else []
    return lines + one_call_lines(rows, listed, room) + writers_lines(listed, choice.by) + nameless_lines(profile, listed)


def with_causes(lines: Sequence[str], rows: Sequence[Row], room: int) -> list[str]:
    """The lines of a table of rows, with the causes of the first one and of superlinear ones: behind the name, or below."""
    remarks = [
        f"({cause_text(row.cause, row.reason)})" if row.cause and (not number or row.superlinear and not row.uncertain) else ""
        for number, row in enumerate(rows)
    ]
    head = len(lines) - len(rows)
    return with_remarks(lines, remarks, lines[head - 1].index(" ROUTINE") + 3, room)


def cause_text(cause: Cause, reason: Reason | None) -> str:
    """The part is of the calling routine's cost."""
    each = f", {reason.brief}" if reason else ""
    calls = plural(cause.calls, "call") if cause.calls else "still open"
    return f"{100 * cause.part:.0f}% in {cut(cause.routine.label, 50)}{way_text(cause)}, {calls}{each}"


def way_text(cause: Cause) -> str:
    """How the routine comes to call it, where that isn't directly."""
    if cause.through is None:
        return ""
    more = f" and {plural(cause.more, 'other')}" if cause.more else ""
    return f"{' directly and' if cause.is_direct else ''} through {cut(cause.through.label, 50)}{more}"


def columns_of(rows: Sequence[Row], room: int, by: str | None = None) -> list[Column]:
    columns = [
        Column("GROWTH", signs_of(rows)),
        Column(WITH_CALLEES, [share_text(row) for row in rows]),
    ]
    if rows[0].own is not None:
        columns.append(Column(ITS_OWN, [percent(row.own or 0.0) + "+" * row.open for row in rows]))
    if by and by in WRITERS:
        columns.append(Column(f"INPUT BY\n{by.upper()}", [written_text(row.routine, by) for row in rows]))
    if room >= WIDE:
        columns += projected_columns(rows)
    columns += [
        Column("SPREAD", [short_ratio(row.spread) for row in rows]),
        Column("CALLS", [short(row.routine.calls) for row in rows]),
        Column("POINTS", [str(len(row.routine.points)) for row in rows]),
        Column("SIZES", [sizes_text(row.routine.points) for row in rows]),
    ]
    return columns + [Column(" ROUTINE", [f" {row.routine.label}" for row in rows], left=True, tails=[mark(row) for row in rows])]


def written_text(routine: Routine, by: str) -> str:
    part = written_part(routine, by, -1.0)
    return "-" if part < 0 else percent(part)


def projected_columns(rows: Sequence[Row]) -> list[Column]:
    """The greatest cost, and an estimate of it at twice and at ten times the largest size."""
    return [
        Column(GREATEST_COST, [short(greatest_cost(row.routine)) for row in rows]),
        Column("ESTIMATE\nAT 2x", [estimate_text(row, 2) for row in rows]),
        Column("ESTIMATE\nAT 10x", [estimate_text(row, 10) for row in rows]),
    ]


def estimate_text(row: Row, times: int) -> str:
    estimate = projected(row, times)
    return "-" if estimate is None else short(estimate)


def greatest_cost(routine: Routine) -> int:
    return max((point.most for point in routine.points), default=0)


def projected(row: Row, times: int) -> float | None:
    """The greatest cost at so many times the largest size, if it goes on to grow as it did; None where that isn't known."""
    if row.growth is None or not row.growth.foretells:
        return None
    return float(greatest_cost(row.routine) * times ** min(row.growth.ahead, 20.0))


def share_text(row: Row) -> str:
    """With a `+` where a call was open at the end, whose cost isn't known; `<=100%` where the calls nested in one another,
    which a plain report doesn't tell apart, pass all instructions."""
    return percent(row.share) + "+" * row.open if row.exact else "<=100%"


def short_ratio(ratio: float) -> str:
    return f"{ratio:.1f}" if ratio < 10_000 else short(ratio)


def sizes_text(points: Sequence[Point]) -> str:
    """The least and the greatest size."""
    if not points:
        return "-"
    least, most = points[0].size, points[-1].size
    return str(least) if least == most else f"{short(least)}-{short(most)}"


def mark(row: Row) -> str:
    if not row.routine.points:
        return "  (open)"
    return "" if row.growth else "  (one size)"


def folded_lines(rows: Sequence[Row], room: int) -> list[str]:
    """What was left out of the libraries. Own costs add up; costs with callees don't, so the largest is told."""
    library = library_text(row.routine for row in rows)
    if rows[0].own is not None:
        share = f"their own: {percent(sum(row.own or 0.0 for row in rows))}"
    else:
        inner = [row for row in rows if row.routine.name and "start" not in row.routine.name]
        most = max(inner or rows, key=lambda row: row.share)
        share = f"largest with callees: {cut(most.routine.label, 24)} {percent(most.share)}"
    text = f"and {plural(len(rows), f'{library} routine')} ({share}): --library"
    return [*wrapped(text, room), *marked_lines(sure_of(rows), f"in the {library}", "--library", room)]


def sure_of(rows: Sequence[Row]) -> list[Row]:
    """Those whose growth is not uncertain, and those that are marked for their many calls, whatever their growth."""
    return [row for row in rows if row.many or not row.uncertain]


def hidden_lines(rows: Sequence[Row], choice: Choice, room: int) -> list[str]:
    """What is left out, and how it is listed: it is cheap, or behind the first ones."""
    most = percent(max(row.share for row in rows))
    behind = [row for row in rows if choice.has(row)]
    ways = " and ".join(["a greater --top"] * bool(behind) + [choice.for_cheaper] * (len(behind) < len(rows)))
    text = f"and {plural(len(rows), 'routine')} of at most {most} with callees: {ways}"
    return [*wrapped(text, room), *marked_lines(rows, "among them", ways, room)]


def signs_of(rows: Sequence[Row]) -> list[str]:
    return [marked(row.growth, row.many) for row in rows]


def marked_of(rows: Sequence[Row]) -> list[Row]:
    """Those with a sign before their growth. What is marked for its many calls comes first, as no other line has it."""
    return sorted(ordered([row for row in rows if row.superlinear or row.many], None), key=lambda row: not row.many)


def marked_lines(rows: Sequence[Row], where: str, ways: str, room: int) -> list[str]:
    """The marked ones of some routines that are left out, and how they are listed."""
    found = marked_of(rows)
    if not found:
        return []
    names = [f"{cut(row.routine.label, 30)} {marked(row.growth, row.many).strip()}" for row in found[:NAMED]]
    names += [f"{len(found) - NAMED} more"] * (len(found) > NAMED)
    return wrapped(f"marked {where}: {', '.join(names)} ({ways})", room)


def writers_lines(rows: Sequence[Row], by: str | None) -> list[str]:
    """The first routine that reads much of what another thread wrote, where no column has that part."""
    if by in WRITERS:
        return []
    for row in rows:
        part = written_part(row.routine, "thread", 0.0)
        if part >= MUCH:
            name = cut(row.routine.label, 40)
            return [f"another thread wrote {percent(part)} of the input of {name}: --by thread shows this part"]
    return []


def one_call_lines(rows: Sequence[Row], listed: Sequence[Row], room: int) -> list[str]:
    """Where nothing is marked, and a routine that was called once has most of the cost, that several runs tell more."""
    most = [row for row in listed if row.share > 0.5 and not row.routine.label.startswith("_")]
    if not most or any(row.growth for row in most) or most[0].routine.calls != 1 or marked_of(rows):
        return []
    name = cut(most[0].routine.label, 40)
    return wrapped(f"{name} has one call: the reports of several inputs, shown together, tell how it grows", room)


def nameless_lines(profile: Profile, listed: Sequence[Row]) -> list[str]:
    """How routines without a name are named, where there are any."""
    if profile.routines and not any(is_named(routine) for routine in profile.routines):
        return ["no routine has a name: the image has no symbols (stripped?); build without -s, or name them by --image IMAGE"]
    if any(not is_named(row.routine) for row in listed):
        return ["a routine without a name is shown by its address: --image IMAGE says where it lies"]
    return []


def is_named(routine: Routine) -> bool:
    return bool(routine.name or routine.shown)
