"""The lines about a run above its routines: its instructions, how it ended, and what was open at the end."""
from __future__ import annotations

from collections import Counter
from collections.abc import Mapping
from textwrap import wrap

from aprof_show.costs import Cost, chain_of, chain_text, costs_of, open_ends, rest_of
from aprof_show.ends import FAULTS
from aprof_show.model import Context, Profile, Report
from aprof_show.terminal import percent, plural

MOST = 8
"""So many ends, faults and chains of open calls are told of many reports."""

MUCH = 0.05
"""From this part of all instructions on it is said that calls that had not returned spent it."""


def head(profile: Profile) -> list[str]:
    ends = Counter(report.end for report in profile.reports)
    texts = [f"end {end}" + (f" ({count})" if len(ends) > 1 else "") for end, count in ends.most_common(MOST)]
    texts += [f"{plural(len(ends) - MOST, 'other end')}"] * (len(ends) > MOST)
    reports = f"{len(profile.reports)} reports, " if len(profile.reports) > 1 else ""
    still_open = f"{profile.still_open} still open"
    rare = [f"end {end}: {paths_text(profile, end)}" for end, _ in ends.most_common(MOST)[1:]]
    return [f"{reports}{profile.steps} instructions, {', '.join(texts)}, {still_open}", *rare, *fault_lines(profile)]


def paths_text(profile: Profile, end: str) -> str:
    """The reports that ended so, or the first ones of many."""
    paths = [report.path for report in profile.reports if report.end == end]
    return ", ".join(paths[:3]) + (f" and {len(paths) - 3} more" if len(paths) > 3 else "")


def fault_lines(profile: Profile) -> list[str]:
    """A line for each fault: `open_lines` may not have the routine where it was."""
    lines = list(dict.fromkeys(fault_line(report) for report in profile.reports if report.end.startswith("fault")))
    return lines[:MOST] + [f"and {plural(len(lines) - MOST, 'more fault')}"] * (len(lines) > MOST)


def fault_line(report: Report) -> str:
    """In words what `fault KIND THREAD ADDRESS` says."""
    _, kind, thread, address = report.end.split()
    return f"the fault: {FAULTS[int(kind) - 1]}, thread {thread}, {report.place or f'at {address}'}"


def open_lines(profile: Profile, room: int) -> list[str]:
    """Where the program was as the run ended."""
    if not profile.still_open:
        return []
    if profile.roots is None:
        calls = f"{plural(profile.still_open, 'call')} had not returned, whose own cost is in no row"
        return wrapped(f"{calls}; `aprof contexts` stores which", room)
    costs = costs_of(profile.roots)
    ends = open_ends(profile.roots, costs)
    chains = list(dict.fromkeys(chain_text(context) for context in ends))
    lines = [line for chain in chains[:MOST] for line in wrapped(f"open at the end: {chain}", room)]
    if len(chains) > MOST:
        lines.append(f"and {plural(len(chains) - MOST, 'more chain')}")
    lines += wrapped(spent_text(rest_of(profile.steps, costs) / max(profile.steps, 1), len(ends)), room)
    if any(not link.routine.name and not link.routine.shown for context in ends for link in chain_of(context)):
        lines.append("--image IMAGE names the routines that never returned")
    return lines + wrapped(unplaced_text(profile, costs), room)


def spent_text(part: float, ends: int) -> str:
    """Where the instructions went that no row tells of, if they are many."""
    if part < MUCH:
        return ""
    where = "under this stack" if ends == 1 else "as [open_at_the_end]"
    return f"{percent(part)} of all instructions are of calls that had not returned, and are in no row; --folded has them {where}"


def wrapped(text: str, room: int) -> list[str]:
    return wrap(text, room, subsequent_indent="    ", break_long_words=False)


def unplaced_text(profile: Profile, costs: Mapping[Context, Cost]) -> str:
    """What is said of open calls that no chain has: their context has a point of another call, or another thread's open one."""
    more = profile.still_open - sum(cost.opens for cost in costs.values())
    if more <= 0:
        return ""
    if more == 1:
        return "1 more open call is in no stack: its routine had returned there before, or another thread has the same stack"
    return f"{more} more open calls are in no stack: their routines had returned there before, or other threads have the same stacks"
