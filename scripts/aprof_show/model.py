"""What the stored texts say, as values: points, routines, calling contexts, reports, and several reports as one profile."""
from __future__ import annotations

import re
from collections.abc import Sequence
from dataclasses import dataclass, field


@dataclass(frozen=True)
class Parts:
    """Who last wrote the words that a point's calls read, summed over its calls. `own + thread + kernel` is size times calls."""

    own: int
    thread: int
    kernel: int
    bare: int


@dataclass(frozen=True)
class Point:
    """The calls of one size: how many, and the least, the greatest and the summed cost, in instructions."""

    size: int
    calls: int
    least: int
    most: int
    cost: int
    parts: Parts | None

    @property
    def mean(self) -> float:
        return self.cost / self.calls


def sum_of_parts(points: Sequence[Point]) -> Parts | None:
    """None where one of the points has none."""
    parts = [point.parts for point in points if point.parts]
    if not points or len(parts) < len(points):
        return None
    return Parts(
        sum(part.own for part in parts),
        sum(part.thread for part in parts),
        sum(part.kernel for part in parts),
        sum(part.bare for part in parts),
    )


class Measured:
    """What has points, sizes rising: one whose calls had all not returned has none."""

    points: list[Point]

    @property
    def calls(self) -> int:
        return sum(point.calls for point in self.points)

    @property
    def cost(self) -> int:
        """Summed over all calls that returned, with what they call; those nested in a call of the same routine too."""
        return sum(point.cost for point in self.points)

    @property
    def parts(self) -> Parts | None:
        """Summed over all calls; None where the report doesn't tell, or there is no call."""
        return sum_of_parts(self.points)


@dataclass(eq=False)
class Routine(Measured):
    """A routine of a report, or of several that are joined.

    `shown` is the name as people write it (demangled, or from `--image`), and `brief` a shorter one where that is enough.
    `apart` tells apart what has the same label: the address of a static function, or the report of a routine without a name.
    """

    entry: int
    name: str | None
    points: list[Point] = field(default_factory=list)
    shown: str | None = None
    brief: str | None = None
    apart: str | None = None

    @property
    def label(self) -> str:
        label = self.brief or self.shown or self.name or f"{self.entry:08x}"
        return f"{label} ({self.apart})" if self.apart else label

    def is_called(self, word: str) -> bool:
        """Whether a person may mean this routine by `word`: its name in any spelling."""
        return word in (self.name, self.shown, self.brief, self.label)

    def is_at(self, word: str) -> bool:
        """Whether `word` is its address: `12784`, `0x12784` or `00012784`."""
        found = re.fullmatch(r"(0x)?([0-9a-f]{1,8})", word.lower())
        return found is not None and int(found[2], 16) == self.entry


@dataclass(eq=False)
class Context(Measured):
    """A chain of routines that call one another: the innermost one, its caller's context, and the points of its calls. `joined`
    are those of several reports that it stands for, one of each report that has it."""

    routine: Routine
    caller: Context | None = field(repr=False)
    points: list[Point] = field(default_factory=list)
    callees: list[Context] = field(default_factory=list)
    joined: list[Context] = field(default_factory=list, repr=False)


@dataclass
class Report:
    """What `run`, `replay` or `contexts` stored. `roots` is None where the text has no contexts. `place` is where the fault that
    ended the run is in the source, as the image tells."""

    path: str
    end: str
    steps: int
    still_open: int
    routines: list[Routine]
    roots: list[Context] | None
    place: str | None = None


@dataclass(frozen=True)
class CacheRoutine:
    """`apart` is the report of one without a name, where several reports of different images are joined."""

    entry: int
    name: str | None
    accesses: int
    misses: int
    apart: str | None = None


@dataclass
class CacheReport:
    """What `cache` stored."""

    path: str
    end: str
    steps: int
    routines: list[CacheRoutine]


@dataclass
class Profile:
    """One or several reports, as one longer run would have given them."""

    reports: list[Report]
    routines: list[Routine]
    roots: list[Context] | None

    @property
    def steps(self) -> int:
        return sum(report.steps for report in self.reports)

    @property
    def still_open(self) -> int:
        return sum(report.still_open for report in self.reports)
