"""How the cost of a routine grows with the size of its input: the exponent `e` of `cost ~ size ** e`, from its points.

Three estimates are made, of the greatest cost at each size, and the growth is the one in the middle:

- `top`: the slope between two points of the largest sizes, a factor of four apart;
- `net`: the same after the size and the cost of the least call are taken off all others, so that what every call reads
  (256 slots of a table) and what every call costs fall out. It is a little too close to linear where there is no fixed part;
- `fit`: the straight line in log-log that lies closest to the points, after a fixed part of the size or of the cost is taken
  off. None is taken off where a line without it lies nearly as close.

Two things are told besides. Where the slopes rise from doubling to doubling, a part is still small that will be all of the cost:
`rising` is the last slope (bends.py). And where a few costly calls of middle sizes make the greatest cost seem to grow less than
linearly, the mean tells more, and the estimates are of that.
"""
from __future__ import annotations

import math
from collections.abc import Callable, Sequence
from dataclasses import dataclass, replace
from functools import cache
from statistics import median

from aprof_show.bends import Spot, rising_slope, slope_between, spread_of
from aprof_show.fits import fitted_slope, greatest_by_window
from aprof_show.model import Point, Routine

SUPERLINEAR = 2.3
"""Above this factor a growth counts as superlinear. n log n grows by 2.5 at 16 words, by 2.4 at 32, and by this at 102."""

LEAST_LARGEST = 16
"""Below this largest size a growth is uncertain, and none is superlinear: it is mostly one from case to case."""

LEAST_RATIO = 2
"""No estimate is made from sizes within this factor."""

ENOUGH_SIZES = 4
"""A growth of fewer sizes is uncertain."""

FAR_APART = 4
"""A growth of sizes within this factor is uncertain, and the slope at the largest sizes is one between sizes this far apart."""

LINEAR = 0.85
"""From this exponent on a growth counts as linear."""


@dataclass(frozen=True)
class Growth:
    """Exponents: `exponent` is the verdict, `whole` is the slope over all sizes. `weak` says why it isn't to be relied on, and
    `largest` is the largest size.
    `rising` is the last slope where the slopes rise above the verdict; `bent` is the verdict by the greatest cost, where the
    mean was judged."""

    exponent: float
    whole: float
    top: float
    net: float | None
    fit: float | None
    size_ratio: float
    largest: float
    weak: str | None
    rising: float | None = None
    bent: float | None = None

    @property
    def factor(self) -> float:
        """How many times the cost grows where the size doubles."""
        return factor_of(self.exponent)

    @property
    def ahead(self) -> float:
        """The exponent beyond the largest size."""
        return max(self.exponent, self.rising or 0.0)

    @property
    def superlinear(self) -> bool:
        return self.is_steep and self.largest >= LEAST_LARGEST

    @property
    def is_steep(self) -> bool:
        """Whether it is superlinear by its factor, whatever its sizes."""
        return factor_of(self.ahead) > SUPERLINEAR

    @property
    def foretells(self) -> bool:
        """Whether its sizes are far enough apart for an estimate beyond them."""
        return self.size_ratio >= LEAST_RATIO

    @property
    def guess(self) -> str:
        """In words; of what rises by what it comes to at the largest sizes."""
        return next((text for bound, text in GUESSES if self.ahead < bound), "steeper than n^3")


GUESSES = (
    (0.2, "about constant"),
    (LINEAR, "less than linear"),
    (1.1, "about linear"),
    (math.log2(SUPERLINEAR), "about n log n"),
    (1.75, "between n log n and n^2"),
    (2.25, "about n^2"),
    (2.75, "between n^2 and n^3"),
    (3.3, "about n^3"),
)
"""Words for exponents up to these. What counts as superlinear is never told as n log n."""


def factor_of(exponent: float) -> float:
    return float(2 ** min(exponent, 60))


SMALL_SPREAD, LARGE_SPREAD, CLEARLY = 1.5, 2.0, 0.15


def growth_of(points: Sequence[Point]) -> Growth | None:
    """None where there is at most one size other than 0."""
    growth = growth_of_some_cost(points)
    if growth and growth.largest < LEAST_LARGEST:
        return replace(growth, weak=growth.weak or f"sizes below {LEAST_LARGEST}")
    return growth


def growth_of_some_cost(points: Sequence[Point]) -> Growth | None:
    """The growth of the greatest cost, or of the mean where the greatest misleads."""
    spread = spread_of(points)
    growth = growth_by(spots_of(points, lambda point: point.most), spread < SMALL_SPREAD)
    if growth is None or growth.weak or growth.exponent >= LINEAR or spread < LARGE_SPREAD:
        return growth
    mean = growth_by(spots_of(points, lambda point: point.mean), False)
    if mean is None or mean.exponent < growth.exponent + CLEARLY:
        return growth
    return replace(mean, bent=growth.exponent)


def spots_of(points: Sequence[Point], cost_of: Callable[[Point], float]) -> list[Spot]:
    """Each size other than 0 with its cost, which is at least 1. Sizes that are the same as floats are one."""
    costs: dict[float, float] = {}
    for point in points:
        if point.size > 0:
            costs[float(point.size)] = max(costs.get(float(point.size), 1.0), float(cost_of(point)))
    return list(costs.items())


GrowthOf = Callable[[Routine], Growth | None]


def growths() -> GrowthOf:
    """The growth of a routine, each found once."""
    return cache(lambda routine: growth_of(routine.points))


def growth_by(spots: list[Spot], smooth: bool) -> Growth | None:
    """`smooth` says that costs at one size hardly differ, so that a bend of the curve is one."""
    if len(spots) < 2:
        return None
    used = without_smallest(spots)
    top = top_slope(used)
    net = net_slope(used)
    fit = fitted_slope(used)
    whole = greatest_by_window(used, 1)
    ratio = used[-1][0] / used[0][0]
    exponent = median(slope for slope in (top, net, fit) if slope is not None)
    growth = Growth(
        exponent=exponent,
        whole=slope_between(whole[0], whole[-1]) if len(whole) > 1 else top,
        top=top,
        net=net,
        fit=fit,
        size_ratio=ratio,
        largest=used[-1][0],
        weak=weakness(len(spots), ratio),
        rising=rising_slope(used, exponent) if smooth else None,
    )
    if growth.is_steep and flattens(used):
        return replace(growth, weak=growth.weak or "less steep at the largest sizes")
    return growth


def weakness(sizes: int, ratio: float) -> str | None:
    if sizes < ENOUGH_SIZES:
        return f"{sizes} sizes"
    if ratio < FAR_APART:
        return f"sizes within a factor of {FAR_APART}"
    return None


def without_smallest(spots: list[Spot]) -> list[Spot]:
    """The sizes above 3, where these are enough: below, a word more or less is a doubling."""
    large = [spot for spot in spots if spot[0] >= 4]
    return large if len(large) >= 3 and large[-1][0] >= FAR_APART * large[0][0] else spots


def top_slope(spots: Sequence[Spot]) -> float:
    """The slope from the nearest window that is a factor of four below the last one, or from the first one."""
    windows = greatest_by_window(spots, 1)
    if len(windows) == 1:
        return slope_between(spots[0], spots[-1])
    last = windows[-1]
    far = [spot for spot in windows if FAR_APART * spot[0] <= last[0]]
    return slope_between(far[-1] if far else windows[0], last)


def net_slope(spots: Sequence[Spot]) -> float | None:
    """The top slope after the size and the cost of the least spot are taken off the others."""
    net = net_spots(spots)
    return top_slope(net) if len(net) > 1 else None


def net_spots(spots: Sequence[Spot]) -> list[Spot]:
    least_size, least_cost = spots[0]
    return [(size - least_size, cost - least_cost) for size, cost in spots[1:] if cost > least_cost]


def flattens(spots: Sequence[Spot]) -> bool:
    """Whether a steep growth isn't one at its end: its last doubling is no steeper than n log n, or its words are dearer below the
    largest sizes than at them. A few costly calls of middle sizes, as of malloc's slow path, look so."""
    net = net_spots(spots)
    if len(net) < 2:
        return False
    largest = net[-1][0]
    windows = greatest_by_window(net, 1)
    before = [spot for spot in windows if 1.8 * spot[0] <= windows[-1][0]]
    if before and factor_of(slope_between(before[-1], windows[-1])) <= SUPERLINEAR:
        return True
    of_a_word = [(size, cost / size) for size, cost in net if 4 * size >= largest]
    at_the_end = max(cost for size, cost in of_a_word if size * math.sqrt(2) >= largest)
    return at_the_end < 0.8 * max(cost for _, cost in of_a_word)
