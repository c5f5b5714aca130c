"""Where a curve bends in log-log: slopes that rise from doubling to doubling, and costs that differ at one size."""
from __future__ import annotations

import math
from collections.abc import Sequence

from aprof_show.model import Point

Spot = tuple[float, float]
"""A size and the greatest cost at it, less what was taken off."""

STEPS = 3
"""So many slopes have to rise."""

LEAST_RISE, MOST_RISE = 0.03, 0.5
"""From slope to slope: less is no rise, and more is a jump or noise."""

ABOVE_LINEAR = 1.1
"""Up to this exponent a slope that rises comes from a fixed cost, which matters less and less."""


def slope_between(first: Spot, last: Spot) -> float:
    return math.log(last[1] / first[1]) / math.log(last[0] / first[0])


def spread_of(points: Sequence[Point]) -> float:
    """The greatest ratio of two costs at one size."""
    return max((point.most / point.least for point in points if point.least), default=1.0)


def spread_between(points: Sequence[Point]) -> float:
    """The ratio of the greatest of all costs to the least."""
    least = min((point.least for point in points), default=1)
    return max((point.most for point in points), default=1) / max(least, 1)


def by_doublings(spots: Sequence[Spot], amount: int) -> list[Spot]:
    """The largest size, and from each on the dearest spot about a doubling below, sizes rising."""
    found = [spots[-1]]
    while len(found) < amount:
        size = found[0][0]
        below = [spot for spot in spots if size / 3 <= spot[0] <= size / 1.6]
        if not below:
            break
        found.insert(0, max(below, key=lambda spot: spot[1]))
    return found


def rising_slope(spots: Sequence[Spot], verdict: float) -> float | None:
    """The last slope, where the last ones rise steadily, and above the verdict."""
    ends = by_doublings(spots, STEPS + 1)
    if len(ends) <= STEPS:
        return None
    slopes = [slope_between(first, last) for first, last in zip(ends, ends[1:])]
    rises = [after - before for before, after in zip(slopes, slopes[1:])]
    steady = all(LEAST_RISE <= rise <= MOST_RISE for rise in rises)
    return slopes[-1] if steady and slopes[-1] > max(verdict + LEAST_RISE, ABOVE_LINEAR) else None
