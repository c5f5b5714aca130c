"""Where the cost of a routine comes from: the routine below it that has the greatest own cost there.

What is called with a size or two (`strcmp` of short words) doesn't grow by itself: its cost is counted with the next caller that
has a growth, and it is named only where there is no such caller below the routine. What a library's routines cost is counted
so too, or else with the program's routine that calls them, as that is what can be mended. What is told of the one that is found is
its cost with its callees, as everywhere.
"""
from __future__ import annotations

from collections import Counter
from collections.abc import Collection, Iterator, Mapping, Sequence
from dataclasses import dataclass, field

from aprof_show.costs import Cost, Way, ways_of
from aprof_show.growth import GrowthOf
from aprof_show.joining import add_points, points_of
from aprof_show.model import Context, Measured, Point, Routine

LEAST = 0.25
"""A smaller part of the cost explains nothing."""


@dataclass(eq=False)
class Cause(Measured):
    """What a routine's cost comes from. `total` is the cost of the cause's calls below the routine, with their callees, and
    `part` is that as a part of the routine's. `by` has the same by the routines that the first one calls directly: by the cause
    itself, where it is one of them. `points` are of these calls."""

    routine: Routine
    total: int = 0
    part: float = 0.0
    by: Counter[Routine] = field(default_factory=Counter)
    points: list[Point] = field(default_factory=list)
    contexts: list[Context] = field(default_factory=list)

    @property
    def dearest_way(self) -> Routine:
        """What the first routine calls directly and by which most of the cost comes."""
        return self.by.most_common(1)[0][0]

    @property
    def is_direct(self) -> bool:
        """Whether the first routine calls it directly, at least at times."""
        return self.routine in self.by

    @property
    def through(self) -> Routine | None:
        """The dearest other routine that the first one calls and that leads there."""
        return next((routine for routine, _ in self.by.most_common() if routine is not self.routine), None)

    @property
    def more(self) -> int:
        """How many others there are."""
        return len(self.by) - self.is_direct - (self.through is not None)

    def add(self, way: Way, below: Routine, cost: Cost) -> None:
        """Counts the context at the end of the way, which is below a routine."""
        context, depths = way.path[-1], way.depths[below]
        others = way.depths[context.routine][:-1]
        is_outermost = not others or others[-1] < depths[0]
        self.total += cost.total if is_outermost else 0
        self.by[way.path[depths[-1] + 1].routine] += cost.total if is_outermost else 0
        self.contexts.append(context)

    def close(self, whole: int) -> None:
        """Sums up what was counted, where the routine's cost is the whole."""
        self.part = min(self.total / whole, 1.0)
        self.points = points_of(self.contexts)


def causes_of(
    roots: Sequence[Context],
    costs: Mapping[Context, Cost],
    totals: Mapping[Routine, int],
    growth_of: GrowthOf,
    library: Collection[Routine] = frozenset(),
) -> dict[Routine, Cause]:
    """The cause of each routine of `totals` that has one; these are the routines' costs, calls nested in one another once.
    `library` has the libraries' routines."""
    causes = {routine: Cause(found) for routine, found in dearest_below(roots, costs, totals, Bearers(growth_of, library))}
    callers: dict[Routine, set[Routine]] = {}
    for routine, cause in causes.items():
        callers.setdefault(cause.routine, set()).add(routine)
    for way in ways_of(roots):
        context = way.path[-1]
        for routine in way.depths.keys() & callers.get(context.routine, set()):
            causes[routine].add(way, routine, costs[context])
    for routine, cause in causes.items():
        cause.close(totals[routine])
    return causes


class Bearers:
    """Along a way, whose cost a context's own counts as."""

    def __init__(self, growth_of: GrowthOf, library: Collection[Routine]) -> None:
        self.growth_of, self.library = growth_of, library
        self.kinds: tuple[list[int], list[int], list[int]] = [], [], []

    def enter(self, depth: int, routine: Routine) -> None:
        """The context at this depth; what was at it and below is left."""
        for depths in self.kinds:
            while depths and depths[-1] >= depth:
                depths.pop()
        grows, is_own = is_growing(routine, self.growth_of), routine not in self.library
        for depths, is_kind in zip(self.kinds, (grows and is_own, is_own, grows)):
            if is_kind:
                depths.append(depth)

    def below(self, depth: int) -> int | None:
        """The depth of the one that bears it, seen from a routine at this depth: of the program and with a growth, or else of the
        program, or else with a growth."""
        for depths in self.kinds:
            if depths and depths[-1] > depth:
                return depths[-1]
        return None


def dearest_below(
    roots: Sequence[Context], costs: Mapping[Context, Cost], totals: Mapping[Routine, int], bearers: Bearers
) -> Iterator[tuple[Routine, Routine]]:
    """Routines, each with the one below it that bears the most cost, where that explains anything."""
    borne: dict[Routine, Counter[Routine]] = {routine: Counter() for routine in totals}
    for way in ways_of(roots):
        context = way.path[-1]
        bearers.enter(len(way.path) - 1, context.routine)
        for routine, depths in way.depths.items():
            if routine in borne and routine is not context.routine:
                place = bearers.below(depths[-1])
                borne[routine][context.routine if place is None else way.path[place].routine] += costs[context].own
    for routine, parts in borne.items():
        [(dearest, cost)] = parts.most_common(1) or [(routine, 0)]
        if cost and cost >= LEAST * totals[routine]:
            yield routine, dearest


def is_growing(routine: Routine, growth_of: GrowthOf) -> bool:
    """Whether there are sizes enough to tell of its growth."""
    growth = growth_of(routine)
    return growth is not None and growth.weak is None


def totals_by_size(routine: Routine, cause: Cause) -> list[Point]:
    """What all calls of the cause below a call of the routine cost together, by the size of that one: where it is the only one of
    its context in a report."""
    totals: Counter[Context] = Counter()
    for context in cause.contexts:
        levels = levels_below(context, routine)
        for part in (context.joined or [context]) if levels else []:
            totals[caller_of(part, levels)] += part.cost
    alone = [(context, total) for context, total in totals.items() if context.calls == 1 and total <= context.cost]
    return add_points([], (Point(context.points[0].size, 1, total, total, total, None) for context, total in alone))


def levels_below(context: Context, routine: Routine) -> int:
    """How many calls lead to it from the routine; 0 where a call of its own routine is between."""
    levels, caller = 1, context.caller
    while caller and caller.routine is not routine:
        if caller.routine is context.routine:
            return 0
        levels, caller = levels + 1, caller.caller
    return levels if caller else 0


def caller_of(context: Context, levels: int) -> Context:
    for _ in range(levels):
        assert context.caller
        context = context.caller
    return context
