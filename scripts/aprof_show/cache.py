"""The table of what `aprof cache` stores."""
from __future__ import annotations

from collections.abc import Mapping

from aprof_show.model import CacheReport, CacheRoutine
from aprof_show.table import Choice
from aprof_show.terminal import Column, percent, plural, table


def cache_text(report: CacheReport, choice: Choice, room: int, labels: Mapping[CacheRoutine, str]) -> list[str]:
    """Accesses, misses, and the rate of both, by misses. An access is the innermost routine's own. `labels` are the names."""
    accesses = sum(routine.accesses for routine in report.routines)
    misses = sum(routine.misses for routine in report.routines)
    least = 0.01 if choice.least is None else choice.least
    chosen = [
        routine
        for routine in sorted(report.routines, key=lambda routine: (-routine.misses, -routine.accesses))
        if choice.all or max(routine.misses / max(misses, 1), routine.accesses / max(accesses, 1)) >= least
    ]
    listed = chosen[: choice.top]
    rate = percent(misses / accesses) if accesses else "-"
    lines = [f"{report.steps} instructions, end {report.end}, {accesses} accesses, {misses} misses ({rate})"]
    if listed:
        lines += table(columns_of(listed, misses, labels), room)
    if len(listed) < len(chosen):
        lines.append(f"and {plural(len(chosen) - len(listed), 'more routine')}: a greater --top")
    if len(chosen) < len(report.routines):
        lines.append(f"and {plural(len(report.routines) - len(chosen), 'routine')} below {percent(least)}: {choice.for_cheaper}")
    return lines


def columns_of(routines: list[CacheRoutine], misses: int, labels: Mapping[CacheRoutine, str]) -> list[Column]:
    return [
        Column("ITS OWN\nMISSES", [str(routine.misses) for routine in routines]),
        Column("OF ALL\nMISSES", [percent(routine.misses / max(misses, 1)) for routine in routines]),
        Column("ITS OWN\nACCESSES", [str(routine.accesses) for routine in routines]),
        Column("RATE", [percent(routine.misses / routine.accesses) for routine in routines]),
        Column(" ROUTINE", [f" {labels[routine]}" for routine in routines], left=True),
    ]
