"""Why a routine is superlinear whose cost is spread over many calls of another one, each of which looks harmless.

It is told only where the points show it. That the calls of the cause cost too much by their number has to follow: each of them
is at most n log n in its own input (or all cost about the same), none reads more than the routine itself at its most, and
together they grow faster than the routine's input. For the last, suppose that they grew with it, beside a fixed cost: then there
would be small sizes at which they cost more than the routine does with all that it calls. That their number alone does so is told
where the same holds even if each of them cost the least of all. Where the routine is called once in each of several reports,
their whole cost by its size tells directly.
"""
from __future__ import annotations

from collections.abc import Sequence
from dataclasses import dataclass
from enum import Enum

from aprof_show.bends import spread_between
from aprof_show.causes import Cause, totals_by_size
from aprof_show.growth import Growth, growth_of
from aprof_show.model import Point, Routine
from aprof_show.terminal import plural

ALIKE = 2.0
"""Costs that differ by at most this ratio are about the same."""

CLEARLY = 1.5
"""So many times too dear for a size a cost has to be."""


class Kind(Enum):
    """What grows where a routine's input does."""

    NUMBER = "so it is the number of calls that grows"
    NUMBER_AND_SIZE = "so it is their number, and perhaps what each of them reads, that grows"
    NUMBER_OR_SIZE = "so it is the number of calls, or what each of them reads, that grows"
    SIZE = "so it is what each of them reads that grows"
    EACH = "so look there first"


@dataclass(frozen=True)
class Reason:
    """What each call of the cause is like, by its input where it is a growth, and what follows."""

    each: str
    kind: Kind
    is_growth: bool = True

    @property
    def text(self) -> str:
        itself = "is itself " if self.kind is Kind.EACH else "is " if self.is_growth else ""
        return f"each of those calls {itself}{self.each}{' in its own input' if self.is_growth else ''}, {self.kind.value}"

    @property
    def brief(self) -> str:
        return f"each {self.each}"

    @property
    def is_of_number(self) -> bool:
        return self.kind in (Kind.NUMBER, Kind.NUMBER_AND_SIZE, Kind.NUMBER_OR_SIZE)


def reason_of(routine: Routine, growth: Growth | None, cause: Cause, nested: bool) -> Reason | None:
    """None where the routine is not surely superlinear, or where nothing is shown. `nested` says that calls of the routine lie in
    one another."""
    if growth is None or growth.weak or not growth.superlinear:
        return None
    each = growth_of(cause.points)
    if each and is_superlinear(cause.points):
        return Reason(each.guess, Kind.EACH)
    if nested or not (grows_faster(cause.total, routine.points) or is_superlinear(totals_by_size(routine, cause))):
        return None
    if not cause.points or spread_between(cause.points) <= ALIKE:
        most = max((point.most for point in cause.points), default=0)
        return Reason(f"costs at most {plural(most, 'instruction')}", Kind.NUMBER, False) if most else None
    if each is None or each.weak:
        return None
    is_within = cause.points[-1].size <= routine.points[-1].size
    if cause.calls <= routine.calls:
        return None if is_within else Reason(each.guess, Kind.SIZE)
    least = min(point.least for point in cause.points)
    if grows_faster(least * cause.calls, routine.points):
        return Reason(each.guess, Kind.NUMBER)
    return Reason(each.guess, Kind.NUMBER_AND_SIZE if is_within else Kind.NUMBER_OR_SIZE)


def grows_faster(total: int, points: Sequence[Point]) -> bool:
    """Whether a cost that is a part of all these calls can't be a fixed one and one for each word of their sizes: at a size up
    to the average that would be more than the calls cost."""
    calls, words = sum(point.calls for point in points), sum(point.size * point.calls for point in points)
    small = [point for point in points if 0 < point.size * calls <= words]
    return any(total / words * point.size > CLEARLY * point.mean for point in small)


def is_superlinear(points: Sequence[Point]) -> bool:
    growth = growth_of(points)
    return growth is not None and not growth.weak and growth.superlinear
