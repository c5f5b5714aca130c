"""Growth of known curves: with noise, with a fixed part in the size, in the cost and in both, and from few points."""
from __future__ import annotations

import math
import unittest
from collections.abc import Callable

from aprof_show.detail import detail
from aprof_show.growth import factor_of, growth_of
from aprof_show.model import Point, Routine
from aprof_show.rows import row_of
from aprof_show.table import projected
from tests.samples import points_of, stored

DOUBLED = [60, 120, 240, 480, 960]
MANY = list(range(10, 400, 3))
FAR = [40, 4000]
SMALL = [4, 8, 16, 32, 64]

Curve = Callable[[int], float]
LINEAR: Curve = lambda n: 10.0 * n
LOG_LINEAR: Curve = lambda n: 5.0 * n * math.log2(n)
SQUARE: Curve = lambda n: 3.0 * n * n
CUBE: Curve = lambda n: float(n**3)
EMERGING: Curve = lambda n: 200.0 * n + n * n
TWO_POWER: Curve = lambda n: float(2.0 ** (n / 8))

# curve, sizes, fixed size, fixed cost, and the least and the greatest factor that is right, without noise and with 20 %
CURVES = [
    ("n", LINEAR, DOUBLED, 0, 0, (1.98, 2.02), (1.7, 2.4)),
    ("n", LINEAR, MANY, 0, 0, (1.98, 2.02), (1.7, 2.4)),
    ("n", LINEAR, DOUBLED, 256, 0, (1.95, 2.05), (1.7, 4.0)),
    ("n", LINEAR, DOUBLED, 0, 5000, (1.6, 2.05), (1.2, 2.1)),
    ("n", LINEAR, DOUBLED, 256, 5000, (1.6, 2.05), (1.2, 2.2)),
    ("n", LINEAR, FAR, 0, 0, (1.98, 2.02), (1.8, 2.2)),
    ("n log n", LOG_LINEAR, DOUBLED, 0, 0, (2.15, 2.3), (1.8, 2.7)),
    ("n log n", LOG_LINEAR, DOUBLED, 256, 0, (2.15, 2.35), (1.8, 3.5)),
    ("n log n", LOG_LINEAR, DOUBLED, 0, 5000, (2.05, 2.3), (1.6, 2.4)),
    ("n²", SQUARE, SMALL, 0, 0, (3.9, 4.1), (3.3, 4.5)),
    ("n²", SQUARE, DOUBLED, 0, 0, (3.9, 4.1), (3.3, 4.5)),
    ("n²", SQUARE, MANY, 0, 0, (3.9, 4.1), (3.3, 4.5)),
    ("n²", SQUARE, DOUBLED, 256, 0, (3.7, 4.3), (3.0, 6.5)),
    ("n²", SQUARE, DOUBLED, 0, 5000, (3.7, 4.1), (3.2, 4.3)),
    ("n²", SQUARE, DOUBLED, 256, 5000, (3.7, 4.8), (3.0, 8.0)),
    ("n²", SQUARE, FAR, 0, 0, (3.95, 4.05), (3.7, 4.3)),
    ("n³", CUBE, DOUBLED, 0, 0, (7.8, 8.2), (6.5, 9.5)),
    ("n³", CUBE, DOUBLED, 256, 5000, (7.4, 8.6), (6.5, 12.0)),
    ("n + n²", EMERGING, DOUBLED, 0, 0, (2.9, 3.4), (2.5, 3.7)),
    ("2^n", TWO_POWER, [20, 40, 80, 160], 0, 0, (30, 1e9), (30, 1e9)),
]


class KnownCurves(unittest.TestCase):
    def test_curves(self) -> None:
        for name, curve, sizes, fixed_size, fixed_cost, exact, noisy in CURVES:
            spots = [(size + fixed_size, fixed_cost + curve(size)) for size in sizes]
            for noise, bounds in ((0.0, exact), (0.2, noisy)):
                for seed in range(1 if noise == 0 else 20):
                    with self.subTest(name, sizes=sizes[:3], size=fixed_size, cost=fixed_cost, noise=noise, seed=seed):
                        growth = growth_of(points_of(spots, noise, seed))
                        assert growth
                        self.assertGreaterEqual(growth.factor, bounds[0])
                        self.assertLessEqual(growth.factor, bounds[1])

    def test_words(self) -> None:
        """sort_words is n log n, and its 256 fixed slots made it x3.7; free_words is linear, and was x2.5."""
        routines = {routine.name: growth_of(routine.points) for routine in stored("examples/words/report.txt").routines}
        for name, least, most in (("sort_words", 2.1, 2.3), ("free_words", 1.9, 2.3), ("qsort", 2.1, 2.3)):
            growth = routines[name]
            assert growth
            self.assertTrue(least <= growth.factor <= most, f"{name} {growth}")

    def test_rising_slope(self) -> None:
        """A caller whose helper's calls become longer shows it at the top first."""
        growth = growth_of(points_of([(n, 40 * n + n * n / 100) for n in (256, 512, 1024, 2048, 4096, 8192, 16384)]))
        assert growth
        self.assertGreater(growth.top, growth.whole + 0.2)
        self.assertGreater(growth.factor, 3.0)


def spiky(spots: list[tuple[int, float]], dear: dict[int, int], calls: int = 4) -> list[Point]:
    """Calls of one cost at each size, and one of so many times that cost at the sizes of `dear`."""
    points = []
    for size, cost in spots:
        least, most = round(cost), round(cost * dear.get(size, 1))
        points.append(Point(size, calls, least, most, least * (calls - 1) + most, None))
    return points


POSTINGS = [(863, 321242), (1496, 648933), (2908, 1361459), (5572, 3054867), (10982, 7465981)]
"""A routine with a linear part and one that grows: x2.2, x2.4, x2.5."""

# the points, the last factor where the slopes rise, and whether it is superlinear
RISING: list[tuple[str, list[tuple[int, float]], float | None, bool]] = [
    ("two parts", [(size, float(cost)) for size, cost in POSTINGS], 2.49, True),
    ("n + n²", [(n, EMERGING(n)) for n in DOUBLED], 3.42, True),
    ("n + a little n²", [(n, 2000.0 * n + n * n) for n in DOUBLED], 2.39, True),
    ("n", [(n, LINEAR(n)) for n in DOUBLED], None, False),
    ("a fixed cost and n", [(n, 5000 + LINEAR(n)) for n in DOUBLED], None, False),
    ("n log n", [(n, LOG_LINEAR(n)) for n in DOUBLED], None, False),
    ("n²", [(n, SQUARE(n)) for n in DOUBLED], None, True),
    ("three sizes", [(n, EMERGING(n)) for n in DOUBLED[:3]], None, True),
    ("a jump", [(100, 100.0), (200, 190.0), (400, 400.0), (800, 4000.0)], None, True),
]

# the points, whether the mean is judged, and bounds of the factor
SPREAD: list[tuple[str, list[Point], bool, float, float]] = [
    ("dear at middle sizes", spiky([(n, LINEAR(n)) for n in DOUBLED], {60: 8, 120: 5, 240: 3}), True, 1.6, 2.0),
    ("dear everywhere", spiky([(n, LINEAR(n)) for n in DOUBLED], dict.fromkeys(DOUBLED, 6)), False, 1.95, 2.05),
    ("dear at large sizes", spiky([(n, LINEAR(n)) for n in DOUBLED], {480: 3, 960: 6}), False, 2.5, 5.0),
    ("few calls", spiky([(n, n**0.5) for n in (4000, 16000, 64000, 256000)], {}), False, 1.35, 1.5),
    ("three sizes", spiky([(n, LINEAR(n)) for n in (60, 240, 960)], {60: 8}), False, 1.0, 1.7),
]


class Bends(unittest.TestCase):
    def test_rising(self) -> None:
        for name, spots, last, steep in RISING:
            with self.subTest(name):
                growth = growth_of(points_of(spots))
                assert growth
                self.assertEqual(growth.superlinear, steep)
                if last is None:
                    self.assertIsNone(growth.rising)
                    continue
                assert growth.rising is not None
                self.assertAlmostEqual(factor_of(growth.rising), last, delta=0.01)
                self.assertEqual(growth.ahead, growth.rising)

    def test_noise_seldom_rises(self) -> None:
        found = [growth_of(points_of([(n, LINEAR(n)) for n in DOUBLED], 0.2, seed)) for seed in range(200)]
        self.assertLess(sum(growth is not None and growth.rising is not None for growth in found), 20)

    def test_spread(self) -> None:
        for name, points, by_mean, least, most in SPREAD:
            with self.subTest(name):
                growth = growth_of(points)
                assert growth
                self.assertEqual(growth.bent is not None, by_mean)
                self.assertTrue(least <= growth.factor <= most, growth)
                self.assertIsNone(growth.rising)

    def test_words_of_it(self) -> None:
        cases = [
            (points_of([(size, float(cost)) for size, cost in POSTINGS]), "growth x2.3, rising to x2.5: between n log n and n^2, watch it"),
            (SPREAD[0][1], "by the mean, as costs at one size differ (up to x8.0): the greatest cost grows x"),
            (points_of([(n, 10.0 * n) for n in (40_000, 80_000, 160_000, 320_000)]), "at this growth: 6.4M for a call of size 640000, 32M for one of 3200000"),
        ]
        for points, part in cases:
            with self.subTest(part):
                row = row_of(Routine(0x10000, "parse", points), growth_of(points), 10**9, None)
                lines = detail(row, 80)
                self.assertIn(part, " ".join(map(str.strip, lines)))
                self.assertLessEqual(max(map(len, lines)), 80)

    def test_no_estimate_from_sizes_that_hardly_differ(self) -> None:
        for sizes, known in ((range(9, 11), False), (range(10, 20), False), (range(10, 21), True)):
            with self.subTest(sizes=sizes):
                points = points_of([(size, float(size * size)) for size in sizes])
                row = row_of(Routine(0x10000, "parse", points), growth_of(points), 10**9, None)
                self.assertEqual((projected(row, 2) is not None, "at this growth" in "".join(detail(row, 80))), (known, known))


class FewPoints(unittest.TestCase):
    def test_one_size(self) -> None:
        self.assertIsNone(growth_of([]))
        self.assertIsNone(growth_of(points_of([(0, 9), (7, 9)])))
        self.assertIsNone(growth_of(points_of([(2**60, 9), (2**60 + 1, 10)])), "the same size as a float")

    def test_weak(self) -> None:
        cases = [
            ([(7, 10), (8, 12)], "2 sizes"),
            ([(1, 10), (1000, 12000)], "2 sizes"),
            ([(31, 100), (40, 300), (65, 9000)], "3 sizes"),
            ([(100, 1), (200, 2), (300, 3), (399, 4)], "sizes within a factor of 4"),
            ([(5, 92), (9, 188), (15, 231), (21, 530), (30, 589), (42, 1255), (53, 2352), (62, 2133), (85, 1390)], "less steep at the largest sizes"),
            ([(8, 64), (16, 256), (32, 1024), (64, 4096), (128, 8300)], "less steep at the largest sizes"),
            ([(8, 64), (16, 256), (32, 1024), (64, 4096), (128, 16384)], None),
            ([(100, 1), (200, 2), (300, 3), (400, 4)], None),
            ([(0, 5), (100, 1), (200, 2), (400, 4)], "3 sizes"),
        ]
        for spots, weak in cases:
            with self.subTest(spots=spots):
                growth = growth_of(points_of(spots))
                assert growth
                self.assertEqual(growth.weak, weak)

    def test_small_sizes(self) -> None:
        """From case to case a cost may jump: below 16 words no growth is superlinear, and each is uncertain."""
        for most, curve, weak, superlinear in ((15, SQUARE, "sizes below 16", False), (16, SQUARE, None, True), (15, LINEAR, "sizes below 16", False)):
            with self.subTest(most=most, weak=weak):
                growth = growth_of(points_of([(size, curve(size)) for size in range(2, most + 1)]))
                assert growth
                self.assertEqual((growth.weak, growth.superlinear), (weak, superlinear))

    def test_odd_costs(self) -> None:
        """Costs that fall, that are all the same or that jump give a number all the same."""
        falling, level = [(1, 9), (2, 8), (3, 1)], [(5, 7), (50, 7), (500, 7), (5000, 7)]
        close = [(2**60 + 1000 * n, n + 1) for n in range(6)]
        for spots in (falling, level, close, [(1, 0), (2, 0)], [(2**63, 1), (2**64 - 1, 2**64)]):
            with self.subTest(spots=spots):
                growth = growth_of([Point(size, 1, cost, cost, cost, None) for size, cost in spots])
                assert growth
                self.assertTrue(math.isfinite(growth.factor))
