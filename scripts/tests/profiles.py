"""Profiles whose curves are known, to try the page with."""
from __future__ import annotations

import math
import random
from collections.abc import Callable, Iterable

from aprof_show.model import Context, Parts, Point, Profile, Report, Routine

Cost = Callable[[float], float]
NOISE = random.Random(61)


def points_of(
    sizes: Iterable[int], cost: Cost, calls: int = 3, noise: float = 0.05, thread: float = 0, kernel: float = 0
) -> list[Point]:
    """Points of a known curve, with calls that differ by `noise`, and parts of the input by other threads and the kernel."""
    points = []
    for size in sorted(set(sizes)):
        costs = [max(1, round(cost(size) * (1 + NOISE.uniform(-noise, noise)))) for _ in range(calls)]
        words = size * calls
        by_thread, by_kernel = round(words * thread), round(words * kernel)
        parts = Parts(words - by_thread - by_kernel, by_thread, by_kernel, words - by_thread - by_kernel)
        points.append(Point(size, calls, min(costs), max(costs), sum(costs), parts))
    return points


def over(first: int, last: int, amount: int) -> list[int]:
    """Sizes at equal ratios."""
    return [round(first * (last / first) ** (i / (amount - 1))) for i in range(amount)]


def known_cost(context: Context) -> int:
    """Of a context that returned its cost, else that of those under it."""
    return context.cost or sum(known_cost(callee) for callee in context.callees)


class Made:
    """A profile in the making: routines, and contexts that have their points."""

    def __init__(self) -> None:
        self.routines: list[Routine] = []
        self.roots: list[Context] = []

    def routine(self, name: str | None) -> Routine:
        for routine in self.routines:
            if routine.name == name and name is not None:
                return routine
        self.routines.append(Routine(0x10000 + 0x40 * len(self.routines), name))
        return self.routines[-1]

    def context(self, name: str | None, caller: Context | None, points: list[Point]) -> Context:
        context = Context(self.routine(name), caller, points)
        (caller.callees if caller else self.roots).append(context)
        there = {point.size for point in context.routine.points}
        context.routine.points.extend(point for point in points if point.size not in there)
        context.routine.points.sort(key=lambda point: point.size)
        return context

    def profile(self, *paths: str, end: str = "exit 0", still_open: int = 0, contexts: bool = True) -> Profile:
        steps = sum(known_cost(root) for root in self.roots)
        reports = [Report(path, end, steps // len(paths), still_open, self.routines, None) for path in paths]
        return Profile(reports, self.routines, self.roots if contexts else None)


def sample(end: str = "exit 0", contexts: bool = True) -> Profile:
    """A program with a quadratic routine, an n log n one, threads and the kernel; with `end` not exit 0, calls are open."""
    NOISE.seed(61)
    made = Made()
    whole = end == "exit 0"
    sizes = over(16, 4096, 60)
    quadratic = points_of(sizes, lambda n: 0.4 * n * n + 40 * n, calls=2, noise=0.2)
    indexed = points_of(over(40, 9000, 12), lambda n: 1.1 * n * n + 300 * n, calls=1)
    start = made.context("_start", None, points_of([12000], lambda n: 5.5e8, calls=1, noise=0) if whole else [])
    main = made.context("main", start, points_of([11990], lambda n: 5.49e8, calls=1, noise=0) if whole else [])
    index = made.context("build_index", main, indexed)
    made.context("add_posting", index, quadratic)
    words = made.context("sort_words", main, points_of(over(8, 9000, 80), lambda n: 24 * n * math.log2(n), calls=2, noise=0.2))
    made.context("compare", words, points_of(range(2, 12), lambda n: 9 * n, calls=20000, noise=0.4))
    load = made.context("load", main, points_of(over(64, 16384, 30), lambda n: 7 * n + 90, kernel=0.8))
    made.context("read_block", load, points_of(over(64, 4096, 14), lambda n: 3 * n + 60, kernel=0.95))
    made.context("strlen", load, points_of(range(1, 40), lambda n: 4 * n + 6, calls=300))
    parse = made.context("parse", main, points_of(over(4, 2000, 40), lambda n: 50 * n))
    for depth in range(4):
        parse = made.context("parse", parse, points_of(over(4, 400 >> depth, 10), lambda n: 45 * n))
    made.context("few", main, points_of([40, 60, 90], lambda n: n**3))
    made.context("put_line", main, points_of([5], lambda n: 60, calls=120, noise=0.3))
    if not whole:
        made.context("spin", main, [])
    thread = made.context("start", None, points_of([900], lambda n: 9.2e6, calls=1, noise=0))
    made.context("square_block", thread, points_of(over(32, 2048, 25), lambda n: 11 * n, thread=0.7, kernel=0.1))
    return made.profile("out/a", "out/b", end=end, still_open=0 if whole else 3, contexts=contexts)


HOSTILE = [
    "<script>document.title='caught'</script>", "</script><img/src=x/onerror=document.title='caught'>", "<b>bold</b>", "@profile@",
    "__proto__", "constructor", "&lt;&amp;\"'`${1}", "%41%", "a" * 1000, "operator<<(std::ostream&,int)", "\\u003c",
]


def hostile() -> Profile:
    made = Made()
    root = made.context("<!--<script>", None, points_of([100], lambda n: 1e6, calls=1))
    for name in HOSTILE:
        made.context(name, root, points_of(over(4, 64, 5), lambda n: 100 * n))
    return made.profile("a<b>&.report", end="exit 1")


def deep(depth: int) -> Profile:
    """A routine that calls itself."""
    made = Made()
    context = made.context("main", None, points_of([4], lambda n: 1e7, calls=1))
    descend = made.routine("descend")
    for level in range(depth):
        callee = Context(descend, context, points_of([depth - level], lambda n: 10 * n, calls=1, noise=0))
        context.callees.append(callee)
        context = callee
        descend.points[:0] = callee.points
    return made.profile("deep.report")


def large(amount: int) -> Profile:
    """One routine with a great many sizes."""
    made = Made()
    root = made.context("main", None, points_of([amount * 8], lambda n: 1e12, calls=1))
    made.context("scan", root, points_of(range(1, 5 * amount + 1, 5), lambda n: n * math.log2(n + 1), calls=2, noise=0.4, kernel=0.3))
    return made.profile("large.report")


def many(amount: int) -> Profile:
    """A great many routines, each with some sizes."""
    made = Made()
    root = made.context("main", None, points_of([9000], lambda n: 1e9, calls=1))
    for i in range(amount):
        routine = Routine(0x20000 + 16 * i, f"routine_{i}", points_of(over(4, 900, 8), lambda n: math.pow(n, 1 + i % 5 / 4), calls=1))
        made.routines.append(routine)
        root.callees.append(Context(routine, root, routine.points))
    return made.profile("many.report")
