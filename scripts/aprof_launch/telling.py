"""How far a build is, and how long it may still take."""
from __future__ import annotations

import os
import sys
import time
from collections.abc import Set

from aprof_launch.crates import Plan

BYTES_A_SECOND = 240.0
"""Of code that one core proves, from which an estimate begins."""

TRUST_SECONDS = 300.0
"""How long that guess weighs, beside what is measured."""

SECONDS_ON_TERMINAL, SECONDS_ELSEWHERE = 1.0, 25.0
ERASE = "\r\033[K"


LONE = 1.3
"""How many times as fast a crate is proved where others leave cores to it."""


class Estimate:
    """The time left, where what is left goes as fast as what was proved."""

    def __init__(self, plan: Plan, cores: int) -> None:
        self.crates, self.cores = plan.crates, cores
        self.guess, self.began = BYTES_A_SECOND * cores, time.monotonic()

    def left(self, proved: Set[str], kept: Set[str]) -> float:
        """Seconds until the end: those of all that is left by all cores, or of the longest chain of crates that wait for one another,
        whichever are more. What an earlier build proved says nothing of the speed."""
        seconds = time.monotonic() - self.began
        speed = (self.guess * TRUST_SECONDS + self.weight(proved)) / (TRUST_SECONDS + seconds)
        names = self.crates.keys() - proved - kept
        lone = speed / self.cores * min(LONE, self.cores)
        return max(self.weight(names) / speed, self.longest_chain(names) / lone)

    def weight(self, names: Set[str]) -> int:
        return sum(self.crates[name].weight for name in names)

    def longest_chain(self, names: Set[str]) -> int:
        """What the crates of these names weigh that wait for one another, at the most."""
        chains = dict.fromkeys(self.crates, 0)
        for crate in reversed(self.crates.values()):
            chains[crate.name] += crate.weight if crate.name in names else 0
            for below in chains.keys() & crate.words:
                chains[below] = max(chains[below], chains[crate.name])
        return max(chains.values())


def duration(seconds: float) -> str:
    """About so long."""
    minutes = round(seconds / 60)
    return "less than a minute" if seconds < 50 else f"about {max(minutes, 1)} minute{'s' if minutes > 1 else ''}"


class Teller:
    """Says on standard error how far the build is: on a terminal in one line, else in a line now and then."""

    def __init__(self, total: int) -> None:
        self.total, self.is_terminal = total, sys.stderr.isatty()
        elsewhere = float(os.environ.get("APROF_BUILD_SECONDS", SECONDS_ELSEWHERE))
        self.seconds = SECONDS_ON_TERMINAL if self.is_terminal else elsewhere

    def say(self, text: str) -> None:
        print(f"aprof: {text}", file=sys.stderr, flush=True)

    def tell(self, done: int, left: float) -> None:
        """Is called each `seconds`."""
        text = f"aprof: {done} of {self.total} crates, {duration(left)} left"
        sys.stderr.write(f"{ERASE}{text}" if self.is_terminal else f"{text}\n")
        sys.stderr.flush()

    def erase(self) -> None:
        if self.is_terminal:
            sys.stderr.write(ERASE)
            sys.stderr.flush()
