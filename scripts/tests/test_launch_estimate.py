"""What the launcher says of the time that is left."""
from __future__ import annotations

import tempfile
import unittest
from pathlib import Path

from aprof_launch.crates import LINK, START, Plan
from aprof_launch.telling import BYTES_A_SECOND, LONE, Estimate

CHAIN = ("low", "middle", "high")
"""Crates that wait for one another, and so does the program for them all."""
OTHERS = tuple(f"other{number}" for number in range(8))
SIZES = {"low": 24_000, "middle": 12_000, "high": 48_000, "aprof": 1_000} | dict.fromkeys(OTHERS, 20_000)
WEIGHTS = {name: START + size + (LINK if name == "aprof" else 0) for name, size in SIZES.items()}


def plan(top: Path) -> Plan:
    """A plan of crates with so much code."""
    words = {"low": (), "middle": ("low",), "high": ("middle", "thiserror"), "aprof": ("high", *OTHERS)} | dict.fromkeys(OTHERS, ())
    (top / "crates.txt").write_text("".join(f"{name}: {' '.join(of)}\n" for name, of in words.items()))
    for name, size in SIZES.items():
        source = top / "crates" / name / "src"
        source.mkdir(parents=True)
        (source / "lib.rt").write_text("x" * size)
    return Plan(top)


class Estimates(unittest.TestCase):
    def setUp(self) -> None:
        folder = tempfile.TemporaryDirectory()
        self.addCleanup(folder.cleanup)
        self.plan = plan(Path(folder.name))

    def left(self, cores: int, proved: set[str]) -> float:
        """The seconds left right at the begin, where earlier builds have proved these crates."""
        return Estimate(self.plan, cores).left(set(), proved)

    def test_all_cores(self) -> None:
        """Where there is enough for all cores to do, they share it."""
        for cores in (1, 2):
            self.assertAlmostEqual(self.left(cores, set()), sum(WEIGHTS.values()) / (BYTES_A_SECOND * cores), delta=1)

    def test_a_chain(self) -> None:
        """More cores than that don't prove crates sooner that wait for one another."""
        chain = sum(WEIGHTS[name] for name in (*CHAIN, "aprof")) / (BYTES_A_SECOND * LONE)
        self.assertAlmostEqual(self.left(8, set()), chain, delta=1)
        self.assertAlmostEqual(self.left(16, set()), chain, delta=1)

    def test_the_rest_of_a_chain(self) -> None:
        rest = (WEIGHTS["high"] + WEIGHTS["aprof"]) / (BYTES_A_SECOND * LONE)
        self.assertAlmostEqual(self.left(4, {"low", "middle", *OTHERS}), rest, delta=1)

    def test_nothing_left(self) -> None:
        self.assertEqual(self.left(4, set(SIZES)), 0)
