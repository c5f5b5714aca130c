#!/usr/bin/env python3
"""bench/gate.py [COMMAND]: runs the gate (`rt ci`, or another command) at the top of the repository and prints what it cost:
minutes by the clock, processor minutes in all, and processor minutes by crate, of its proof, of the proof of its tests, of
the check that its must-fail edits begin with, and of the edits. The sum is the system's own count of all that the gate
started. What is told by crate comes from a look at the processes twice a second, so that up to half a second of each is
missing. docs/PERFORMANCE.md has some of these figures."""
from __future__ import annotations

import argparse
import os
import resource
import subprocess
import sys
import time
from collections import defaultdict
from collections.abc import Callable, Iterator, Sequence, Set
from dataclasses import dataclass, field
from pathlib import Path

import host
from host import TOP

TICKS = os.sysconf("SC_CLK_TCK")
KINDS = ("proof", "tests", "first", "edits", "built")
STARTED = 19
"""The index in `fields` of a process's start time. Process numbers are reused; number and start time together name a process."""


@dataclass(frozen=True)
class Work:
    """What a process of the checker is at work on: a crate, and what of it, one of KINDS."""

    crate: str
    kind: str


def read(path: str) -> str:
    """A file of /proc, or nothing where its process has ended."""
    try:
        return Path(path).read_text(errors="replace")
    except OSError:
        return ""


def fields(pid: str) -> list[str]:
    """The fields of a process behind its name: its state, its parent, and so on; or none where it has ended."""
    return read(f"/proc/{pid}/stat").rpartition(")")[2].split()


def seconds(found: Sequence[str]) -> float:
    """The processor seconds of a process so far, by its fields."""
    return (int(found[11]) + int(found[12])) / TICKS


def is_below(pid: str, gate: int) -> bool:
    """Whether a process was started by the gate, by its parents."""
    while pid not in ("", "0", "1", str(gate)):
        found = fields(pid)
        pid = found[1] if len(found) > 1 else ""
    return pid == str(gate)


def kind_of(words: Sequence[str], begun: Set[str]) -> Work:
    """The work of a process of the checker, by its words and the crates whose edits have begun."""
    crate = words[words.index("--crate-name") + 1]
    if "--incremental" in words and "rt-edits-" in words[words.index("--incremental") + 1]:
        return Work(crate, "edits" if crate in begun else "first")
    if words[1] == "build" and "--crate-checked" in words:
        return Work(crate, "built")
    return Work(crate, "tests" if "--test" in words else "proof")


def is_checker(words: Sequence[str]) -> bool:
    """Whether a process of these words is of the checker, at work on a crate."""
    return Path(words[0]).name == "rattle" and "--crate-name" in words


@dataclass
class Watched:
    """What was seen of the checker: the work of each process, the crates whose edits have begun, and the processor seconds by
    work and process."""

    works: dict[str, Work] = field(default_factory=dict)
    begun: set[str] = field(default_factory=set)
    spent: dict[tuple[Work, str], float] = field(default_factory=dict)

    def look(self, pid: str, found: Sequence[str], words_of: Callable[[str], Sequence[str]]) -> None:
        """Counts a process of these fields. `words_of` gives the words of a checker's process below the gate, of others none."""
        process = f"{pid} {found[STARTED]}"
        if process not in self.works and (words := words_of(pid)):
            self.works[process] = kind_of(words, self.begun)
            if self.works[process].kind == "first":
                self.begun.add(self.works[process].crate)
        if process in self.works:
            key = self.works[process], process
            self.spent[key] = max(self.spent.get(key, 0.0), seconds(found))


def watch(gate: subprocess.Popen[bytes]) -> dict[tuple[Work, str], float]:
    """Looks at the processes of the checker until the gate has ended: their processor seconds, by work and process."""

    def words_of(pid: str) -> Sequence[str]:
        words = read(f"/proc/{pid}/cmdline").split("\0")
        return words if is_checker(words) and is_below(pid, gate.pid) else []

    watched = Watched()
    while gate.poll() is None:
        for pid in filter(str.isdigit, os.listdir("/proc")):
            if len(found := fields(pid)) > STARTED:
                watched.look(pid, found, words_of)
        time.sleep(0.5)
    return watched.spent


def minutes_of(spent: dict[tuple[Work, str], float]) -> dict[str, dict[str, float]]:
    """Processor minutes by crate and kind."""
    rows: dict[str, dict[str, float]] = defaultdict(lambda: dict.fromkeys(KINDS, 0.0))
    for (work, _), took in spent.items():
        rows[work.crate][work.kind] += took / 60
    return rows


def table(rows: dict[str, dict[str, float]]) -> Iterator[str]:
    """The lines of the table; what is less than 0.05 of a crate is left blank."""
    yield "| Crate | Proof | Tests | First check of the edits | Edits | Two builds |"
    yield "|---|---|---|---|---|---|"
    for crate, row in rows.items():
        yield f"| {crate} | " + " | ".join(f"{row[kind]:.1f}" if row[kind] >= 0.05 else "" for kind in KINDS) + " |"
    yield "| in all | " + " | ".join(f"{sum(row[kind] for row in rows.values()):.1f}" for kind in KINDS) + " |"


def main() -> int:
    """The status is the gate's."""
    parser = host.parser(__doc__)
    parser.add_argument("command", metavar="COMMAND", nargs=argparse.REMAINDER, help="`rt ci` unless given")
    command = parser.parse_args().command or ["rt", "ci"]
    began = time.monotonic()
    gate = subprocess.Popen(command, cwd=TOP)
    print("\n".join(table(minutes_of(watch(gate)))))
    used = resource.getrusage(resource.RUSAGE_CHILDREN)
    print(f"{(time.monotonic() - began) / 60:.1f} minutes on {len(os.sched_getaffinity(0))} processors,", end=" ")
    print(f"{(used.ru_utime + used.ru_stime) / 60:.1f} processor minutes; status {gate.returncode}")
    return gate.returncode


if __name__ == "__main__":
    sys.exit(main())
