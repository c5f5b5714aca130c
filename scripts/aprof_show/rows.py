"""A profile routine by routine: growth, share and self cost, and the order in which they are worth looking at."""
from __future__ import annotations

import math
from collections.abc import Sequence
from dataclasses import dataclass, field, replace
from itertools import islice, takewhile

from aprof_show.bends import spread_of
from aprof_show.causes import Cause, causes_of
from aprof_show.costs import RoutineCost, costs_by_routine, costs_of
from aprof_show.growth import SUPERLINEAR, Growth, GrowthOf, growths
from aprof_show.library import library_routines
from aprof_show.model import Profile, Routine
from aprof_show.reasons import Reason, reason_of

WRITERS = ("thread", "kernel")
ORDERS = ("growth", "share", "self", "name", *WRITERS)


@dataclass(frozen=True, eq=False)
class Row:
    """`share` is the part of all instructions with its callees, and `own` its own. `exact` is false where calls nested in one
    another may have been counted each. `cause` is what it calls that has most of its cost, where its own part is small and there
    are contexts; `reason` is why that makes it superlinear. `many` says that it is such a cause itself, by its many
    calls."""

    routine: Routine
    growth: Growth | None
    share: float
    exact: bool
    own: float | None
    open: bool
    spread: float
    library: bool = False
    cause: Cause | None = None
    reason: Reason | None = None
    many: bool = False

    @property
    def weight(self) -> float:
        """What to look at first: about what it will cost beyond n log n at ten times the size, as a part of all instructions, and
        a little of its share today. What is uncertain counts a tenth, and the less the closer its sizes are."""
        if self.growth is None:
            return 0.0
        excess = max(min(self.growth.ahead, 6.0) - math.log2(SUPERLINEAR), 0.0)
        if self.growth.weak:
            excess = min(excess * min(1.0, math.log2(self.growth.size_ratio) / 2) ** 2, 0.5)
        beyond = (10**excess - 1) * (0.1 if self.growth.weak else 1.0)
        return float(self.share * (beyond + 0.02))

    @property
    def projected_share(self) -> float:
        """The share at ten times the size, were all else linear."""
        return float(self.share * 10 ** (min(self.growth.ahead, 6.0) - 1)) if self.growth else self.share

    @property
    def uncertain(self) -> bool:
        return self.growth is None or self.growth.weak is not None

    @property
    def superlinear(self) -> bool:
        return self.growth is not None and self.growth.superlinear


@dataclass
class Explained:
    """What the contexts tell of the routines: their costs, and where these come from and why. All is empty without contexts."""

    costs: dict[Routine, RoutineCost] | None = None
    causes: dict[Routine, Cause] = field(default_factory=dict)
    reasons: dict[Routine, Reason] = field(default_factory=dict)

    def many(self) -> set[Routine]:
        """The causes whose many calls together are what grows."""
        return {self.causes[routine].routine for routine, reason in self.reasons.items() if reason.is_of_number}


def explained(profile: Profile, growth_of: GrowthOf, library: set[Routine]) -> Explained:
    if profile.roots is None:
        return Explained()
    by_context = costs_of(profile.roots)
    costs = costs_by_routine(profile.roots, by_context)
    callers = {routine: cost.total for routine, cost in costs.items() if 2 * cost.own < cost.total}
    causes = causes_of(profile.roots, by_context, callers, growth_of, library)
    reasons = {routine: reason_of(routine, growth_of(routine), cause, costs[routine].nested) for routine, cause in causes.items()}
    return Explained(costs, causes, {routine: reason for routine, reason in reasons.items() if reason})


def rows_of(profile: Profile) -> list[Row]:
    growth_of = growths()
    library = library_routines(profile.reports, profile.routines)
    known = explained(profile, growth_of, library)
    many = known.many()
    return [
        replace(
            row_of(routine, growth_of(routine), profile.steps, known.costs),
            library=routine in library,
            cause=known.causes.get(routine),
            reason=known.reasons.get(routine),
            many=routine in many,
        )
        for routine in profile.routines
    ]


def row_of(routine: Routine, growth: Growth | None, steps: int, costs: dict[Routine, RoutineCost] | None) -> Row:
    """By the routine's own points, and by the costs of its contexts where these are known."""
    cost = costs.get(routine, RoutineCost()) if costs is not None else None
    total = cost.total if cost else routine.cost
    return Row(
        routine=routine,
        growth=growth,
        share=min(total / steps, 1.0) if steps else 0.0,
        exact=total <= steps,
        own=(cost.own / steps if steps else 0.0) if cost else None,
        open=cost is not None and cost.open,
        spread=spread_of(routine.points),
    )


def ordered(rows: Sequence[Row], by: str | None) -> list[Row]:
    """By `by`, or else what to look at first."""
    if by == "name":
        return sorted(rows, key=lambda row: (row.routine.label.lower(), row.routine.entry))
    if by == "growth":
        return sorted(rows, key=lambda row: (-(row.growth.ahead if row.growth else -math.inf), -row.share))
    if by == "self":
        return sorted(rows, key=lambda row: (-(row.own or 0.0), -row.share))
    if by == "share":
        return sorted(rows, key=lambda row: -row.share)
    if by in WRITERS:
        return sorted(rows, key=lambda row: (-written_part(row.routine, by, -1.0), -row.share))
    return by_weight(rows)


def written_part(routine: Routine, by: str | None, unknown: float) -> float:
    """The part of the words of all sizes that other threads (`thread`) or the kernel wrote."""
    parts = routine.parts
    whole = parts.own + parts.thread + parts.kernel if parts else 0
    if not parts or not whole:
        return unknown
    return (parts.thread if by == "thread" else parts.kernel) / whole


def by_weight(rows: Sequence[Row]) -> list[Row]:
    """By weight; of those near the first the innermost before its callers: the one with the most self cost, or, where that
    isn't known, with the least cost. Routines of one size are last."""
    left = sorted(((row.weight, row) for row in rows if row.growth), key=lambda pair: -pair[0])
    order: list[Row] = []
    while len(order) < len(left):
        weight, first = left[len(order)]
        near = 0.9 if not first.superlinear else 2 / 3 if first.own is None else 1 / 4
        group = [row for _, row in takewhile(lambda pair: pair[0] >= weight * near, islice(left, len(order), None))]
        order += sorted(group, key=lambda row: (row.uncertain, -(row.own or 0.0), row.share, -row.routine.entry))
    return order + sorted((row for row in rows if not row.growth), key=lambda row: (-row.share, row.routine.entry))
