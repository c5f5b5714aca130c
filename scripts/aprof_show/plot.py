"""A small chart for a terminal: the greatest cost of a routine against its size, both by powers of ten."""
from __future__ import annotations

import math
from collections.abc import Callable

from aprof_show.model import Routine
from aprof_show.terminal import can_print, short

ROWS = 16
DOTS = ((0x01, 0x08), (0x02, 0x10), (0x04, 0x20), (0x40, 0x80))
"""The bits of the eight dots of a braille character, by row and column."""


class Canvas:
    """A raster of dots, 2 by 4 a character in braille, else one; and characters over it."""

    def __init__(self, columns: int, rows: int, braille: bool) -> None:
        self.columns, self.rows, self.braille = columns, rows, braille
        self.across, self.down = (2, 4) if braille else (1, 1)
        self.dots: set[tuple[int, int]] = set()
        self.marks: dict[tuple[int, int], str] = {}

    def dot(self, x: float, y: float) -> None:
        """A dot at parts of the width and of the height, from below."""
        if 0 <= x <= 1 and 0 <= y <= 1:
            self.dots.add((round(x * (self.columns * self.across - 1)), round(y * (self.rows * self.down - 1))))

    def mark(self, x: float, y: float, text: str) -> None:
        """A character over the dots."""
        if 0 <= x <= 1 and 0 <= y <= 1:
            self.marks[round(x * (self.columns - 1)), round(y * (self.rows - 1))] = text

    def lines(self) -> list[str]:
        return ["".join(self.cell(x, y) for x in range(self.columns)).rstrip() for y in reversed(range(self.rows))]

    def cell(self, x: int, y: int) -> str:
        if (x, y) in self.marks:
            return self.marks[x, y]
        if not self.braille:
            return "." if (x, y) in self.dots else " "
        bits = 0
        for row, pair in enumerate(DOTS):
            for column, bit in enumerate(pair):
                bits |= bit if (2 * x + column, 4 * y + 3 - row) in self.dots else 0
        return chr(0x2800 + bits) if bits else " "


def plot(routine: Routine, room: int) -> list[str]:
    """The chart, with lines for n and n² from the least point on."""
    points = [(point.size, max(point.most, 1)) for point in routine.points if point.size]
    if len(points) < 2:
        return [f"{routine.label}: at most one size other than 0, nothing to draw"]
    braille = can_print("⣿²")
    left = math.log(points[0][0])
    right = max(math.log(points[-1][0]), left + 1e-9)
    low = math.log(min(cost for _, cost in points))
    high = max(math.log(max(cost for _, cost in points)), low + 0.1)
    axis = max(len(short(math.exp(high))), len(short(math.exp(low))))
    canvas = Canvas(min(room, 100) - axis - 3, ROWS, braille)
    across: Callable[[float], float] = lambda x: (x - left) / (right - left)
    up: Callable[[float], float] = lambda y: (y - low) / (high - low)
    draw_guides(canvas, math.log(points[0][1]), (left, right), up)
    for size, cost in points:
        canvas.mark(across(math.log(size)), up(math.log(cost)), "●" if can_print("●") else "o")
    return framed(canvas, routine, (points[0][0], points[-1][0]), (math.exp(low), math.exp(high)), axis)


def draw_guides(canvas: Canvas, base: float, ends: tuple[float, float], up: Callable[[float], float]) -> None:
    """Lines for n and n² through the least point, each with its name where it leaves the chart."""
    left, right = ends
    for power, name in ((1, "n"), (2, "n²" if can_print("²") else "n^2")):
        steps = canvas.columns * canvas.across * 2
        inside = (0.0, 0.0)
        for step in range(0, steps + 1, 3 if canvas.braille else 2):
            spot = step / steps, up(base + power * (right - left) * step / steps)
            canvas.dot(*spot)
            inside = spot if spot[1] <= 1 else inside
        a_column = 1 / (canvas.columns - 1)
        for place, letter in enumerate(name):
            canvas.mark(min(inside[0], 1 - a_column) + place * a_column, inside[1], letter)


def framed(
    canvas: Canvas, routine: Routine, sizes: tuple[int, int], costs: tuple[float, float], axis: int
) -> list[str]:
    """The chart with its scales: costs at the left, sizes below."""
    lines = canvas.lines()
    scales = {0: short(costs[1]), len(lines) - 1: short(costs[0])}
    bar, corner, dash = ("│", "└", "─") if can_print("│") else ("|", "+", "-")
    framed_lines = [f"{scales.get(row, ''):>{axis}} {bar}{line}" for row, line in enumerate(lines)]
    least, most = short(sizes[0]), short(sizes[1])
    return [
        f"{routine.label}: greatest cost by size, on logarithmic scales",
        *framed_lines,
        " " * axis + " " + corner + dash * canvas.columns,
        " " * (axis + 2) + least + most.rjust(canvas.columns - len(least)),
    ]
