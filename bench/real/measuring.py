"""Runs aprof on a guest: steps, seconds, memory, the host's instructions, and what the reports hold."""
from __future__ import annotations

import subprocess
import sys
from collections.abc import Sequence
from dataclasses import dataclass
from pathlib import Path

import host
from host import TOP, Word
from real.building import LeftOut
from real.recipes import Recipe


@dataclass(frozen=True)
class Report:
    """What a report tells in numbers."""

    end: str
    steps: int
    points: int
    contexts: int


@dataclass(frozen=True)
class Run:
    """A run at one scale: what was stored, the processor's seconds and the most memory in MiB."""

    report: Report
    path: Path
    seconds: float
    memory: float


def read_report(text: str) -> Report:
    """Counts the points and the contexts of a report: the lines that begin with a number are points of routines, as far as
    the first context."""
    lines = text.splitlines()
    told = dict(line.split(" ", 1) for line in lines[1:4] if " " in line)
    contexts = sum(line.startswith("context ") for line in lines)
    routines = lines[: next((k for k, line in enumerate(lines) if line.startswith("context ")), len(lines))]
    points = sum(line[:1].isdigit() for line in routines)
    return Report(told["end"], int(told["steps"]), points, contexts)


class GuestBench:
    """A guest with its inputs in a folder of its own, under one program."""

    def __init__(self, program: Path, recipe: Recipe, guest: Path, folder: Path) -> None:
        self.program, self.recipe, self.guest, self.folder = program, recipe, guest, folder
        self.made: set[str] = set()
        folder.mkdir(parents=True, exist_ok=True)

    def words(self, command: str, scale: int, report: str,
              image: Path | None = None, behind: Sequence[str] = ()) -> list[Word]:
        """The command line of a run, of the recipe's guest and words unless others are given."""
        name = f"in-{scale}"
        if name not in self.made:
            (self.folder / name).write_bytes(self.recipe.maker(scale))
            self.made.add(name)
        behind = behind or self.recipe.words
        stdin = [] if "INPUT" in behind else ["--stdin", name]
        behind = [name if word == "INPUT" else word for word in behind]
        return [self.program, command, *stdin, "-o", report, image or self.guest, *behind]

    def run(self, command: str, scale: int) -> Run:
        """Profiles the guest; it must end with the status that its recipe tells."""
        path = self.folder / f"{command}-{scale}"
        path.unlink(missing_ok=True)
        with (self.folder / "said").open("wb") as log:
            ended = host.run(self.words(command, scale, path.name), folder=self.folder, stderr=log, every=0.005)
        if ended.status or not path.exists():
            said = (self.folder / "said").read_text(errors="replace").strip().splitlines()
            raise LeftOut(f"aprof {command} at {scale} ended with {ended.status}: {said[-1] if said else 'it said nothing'}")
        report = read_report(path.read_text())
        if report.end != f"exit {self.recipe.status}":
            raise LeftOut(f"aprof {command} at {scale}: the guest ended with {report.end}")
        return Run(report, path, ended.processor, ended.memory / 1024)

    def host_instructions(self, scale: int) -> int:
        """The host's instructions of a run, by callgrind."""
        try:
            return host.instructions(self.words("run", scale, "counted"), self.folder)
        except host.NotCounted:
            raise LeftOut(f"valgrind on aprof run at {scale} counted nothing") from None
        except subprocess.CalledProcessError as error:
            raise LeftOut(f"aprof run at {scale} ended with {error.returncode} under valgrind") from None


def first_routine(paths: Sequence[Path]) -> str:
    """The first routine that `show` names for these reports as one run, with its growth and its part of all instructions."""
    command = [sys.executable, str(TOP / "show"), "--top", "1", *map(str, paths)]
    said = subprocess.run(command, capture_output=True, text=True).stdout.splitlines()
    return routine_of(said)


def routine_of(said: Sequence[str]) -> str:
    """The first row behind the heading of what `show` says: its name, growth and part with callees."""
    heading = next((k for k, line in enumerate(said) if line.startswith("GROWTH")), None)
    if heading is None or heading + 1 >= len(said):
        return "none"
    growth, share, *_ = said[heading + 1].split()
    column = said[heading].index("ROUTINE")
    return f"{said[heading + 1][column:].split('  (')[0].strip()} {growth.strip()}, {share}"
