"""The straight line in log-log that lies closest to the points of a routine, and which points it is laid through."""
from __future__ import annotations

import math
from collections.abc import Iterator, Sequence

from aprof_show.bends import Spot

FIXED_PARTS = (0.0, 0.1, 0.2, 0.3, 0.4, 0.5, 0.6, 0.7, 0.8, 0.9, 0.95, 0.97, 0.98, 0.99)


def greatest_by_window(spots: Sequence[Spot], a_doubling: int) -> list[Spot]:
    """The spot of the greatest cost of each window, sizes rising. Windows are counted down from the largest size, `a_doubling`
    in a doubling."""
    largest = max(size for size, _ in spots)
    windows: dict[int, Spot] = {}
    for spot in spots:
        window = math.floor(a_doubling * math.log2(largest / spot[0]) + 1e-9)
        if window not in windows or spot[1] >= windows[window][1]:
            windows[window] = spot
    return sorted(windows.values())


def fitted_slope(spots: Sequence[Spot]) -> float | None:
    """The slope of the line closest to the points, with the least fixed part that brings a line about as close as any."""
    windows = spread_spots(spots)
    if len(windows) < 3:
        return None
    fits = [line_through(shifted) for shifted in with_fixed_parts(windows)]
    best = min(error for error, _ in fits)
    return next(slope for error, slope in fits if error <= 1.05 * best + 0.005)


def spread_spots(spots: Sequence[Spot]) -> list[Spot]:
    """Some points of great cost, spread over the sizes: by halves of a doubling, or finer where sizes are close together."""
    windows: list[Spot] = []
    for a_doubling in (2, 4, 8, 16, 32, 64):
        windows = greatest_by_window(spots, a_doubling)
        if len(windows) >= min(5, len(spots)):
            break
    return windows


def with_fixed_parts(spots: Sequence[Spot]) -> Iterator[list[Spot]]:
    """The points in logarithms, less a fixed part: a part of the least size, or of the least cost."""
    least_cost = min(cost for _, cost in spots)
    for part in FIXED_PARTS:
        yield [(math.log(size - part * spots[0][0]), math.log(cost)) for size, cost in spots]
        if part:
            yield [(math.log(size), math.log(cost - part * least_cost)) for size, cost in spots]


def line_through(spots: Sequence[Spot]) -> tuple[float, float]:
    """The root mean square error and the slope of the regression line."""
    count = len(spots)
    middle = sum(x for x, _ in spots) / count
    height = sum(y for _, y in spots) / count
    width = sum((x - middle) ** 2 for x, _ in spots)
    slope = sum((x - middle) * (y - height) for x, y in spots) / width if width else 0.0
    error = sum((y - height - slope * (x - middle)) ** 2 for x, y in spots) / count
    return math.sqrt(error), slope
