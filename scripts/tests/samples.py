"""Runs for the tests: calls with given sizes and costs, and the texts that aprof would store of them."""
from __future__ import annotations

import random
import tempfile
import unittest
from collections.abc import Iterable, Sequence
from dataclasses import dataclass, field
from pathlib import Path

from aprof_show import page
from aprof_show.model import CacheReport, Point, Report
from aprof_show.reading import read_file

ROOT = Path(__file__).resolve().parents[2]
NEEDS_CHARTS = unittest.skipUnless(page.LIBRARY.exists(), "left out, as this package is missing: libjs-chart.js")


@dataclass
class Call:
    """A call with its own cost; one that is open never returned, and nor did those above it."""

    name: str
    size: int = 0
    own: int = 1
    calls: Sequence[Call] = field(default_factory=list)
    open: bool = False

    @property
    def cost(self) -> int:
        return self.own + sum(call.cost for call in self.calls)

    @property
    def is_open(self) -> bool:
        return self.open or any(call.is_open for call in self.calls)


Costs = dict[int, list[int]]


@dataclass
class Run:
    """Threads, each the call of its first routine, with the addresses of the routines. `names` False is a stripped image."""

    threads: Sequence[Call]
    addresses: dict[str, int]
    names: bool = True
    end: str = "exit 0"

    def text(self, contexts: bool = False, version: int = 2) -> str:
        routines: dict[int, tuple[str, Costs]] = {}
        chains: dict[tuple[str, ...], Costs] = {}
        still_open = 0
        below = [((), thread) for thread in reversed(self.threads)]  # type: list[tuple[tuple[str, ...], Call]]
        while below:
            above, call = below.pop()
            chain = (*above, call.name)
            points = chains.setdefault(chain, {})
            if call.is_open:
                still_open += 1
            else:
                points.setdefault(call.size, []).append(call.cost)
                entry = self.addresses[call.name]
                routines.setdefault(entry, (call.name, {}))[1].setdefault(call.size, []).append(call.cost)
            below.extend((chain, inner) for inner in reversed(call.calls))
        steps = sum(thread.cost for thread in self.threads)
        lines = [f"aprof {version}", f"end {self.end}", f"steps {steps}", f"open {still_open}"]
        for entry, (name, points) in sorted(routines.items()):
            lines += [f"routine {entry:08x} {name.split('@')[0] if self.names else '-'}", *point_lines(points, version)]
        lines.append(f"done {len(routines)}")
        if contexts:
            lines.append("contexts 1")
            for chain in depth_first(chains):
                lines += [f"context {len(chain) - 1} {self.addresses[chain[-1]]:08x}", *point_lines(chains[chain], 2)]
            lines.append(f"done {len(chains)}")
        return "\n".join(lines) + "\n"


def depth_first(chains: Iterable[tuple[str, ...]]) -> list[tuple[str, ...]]:
    """Each chain before those under it, these in order of their first begin."""
    order = {chain: number for number, chain in enumerate(chains)}
    return sorted(order, key=lambda chain: [order[chain[: end + 1]] for end in range(len(chain))])


def point_lines(points: Costs, version: int) -> list[str]:
    lines = []
    for size, costs in sorted(points.items()):
        words = size * len(costs)
        parts = f" {words} 0 0 {words}" if version == 2 else ""
        lines.append(f"{size} {len(costs)} {min(costs)} {max(costs)} {sum(costs)}{parts}")
    return lines


def read_text(text: str, name: str = "report") -> Report | CacheReport:
    with tempfile.TemporaryDirectory() as folder:
        path = Path(folder, name)
        path.write_text(text, encoding="latin-1")
        return read_file(str(path))


def report_of(text: str, name: str = "report") -> Report:
    report = read_text(text, name)
    assert isinstance(report, Report)
    return report


def stored(path: str) -> Report:
    report = read_file(str(ROOT / path))
    assert isinstance(report, Report)
    return report


def points_of(curve: Iterable[tuple[int, float]], noise: float = 0.0, seed: int = 0) -> list[Point]:
    """A call at each size, with costs that are off by up to `noise`."""
    chance = random.Random(seed)
    points = []
    for size, cost in curve:
        most = max(1, round(cost * (1 + noise * (2 * chance.random() - 1))))
        points.append(Point(size, 1, most, most, most, None))
    return points


ADDRESSES = {name: 0x10000 + 0x40 * place for place, name in enumerate(
    ("main", "parse", "look_up", "compare", "leaf", "spin", "helper@1", "helper@2", "_start")
)}


def random_call(chance: random.Random, depth: int = 0) -> Call:
    names = [name for name in ADDRESSES if name not in ("main", "_start")]
    inner = [random_call(chance, depth + 1) for _ in range(chance.randrange(4) if depth < 4 else 0)]
    if depth == 0:
        inner = [Call(name) for name in ("parse", "look_up", "compare", "leaf")] + inner
    return Call("main" if depth == 0 else chance.choice(names), chance.randrange(6), chance.randrange(1, 50), inner)
