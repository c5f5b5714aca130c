"""The crates that the program is built of, each with how long its proof may take, and a sum of all that they are made from."""
from __future__ import annotations

import hashlib
import subprocess
from collections.abc import Iterator
from dataclasses import dataclass
from functools import cached_property
from pathlib import Path

PARTS = ("src", "specs", "proofs")
"""The folders of a crate that its proof reads."""

PROGRAM = "aprof"

START = 4_000
"""How many bytes of code are proved in the time in which `rt` and the prover start on a crate."""

LINK = 29_000
"""And in that in which the program is compiled twice and linked."""


@dataclass(frozen=True)
class Crate:
    """A crate, and the words of its line in crates.txt."""

    name: str
    folder: Path
    words: tuple[str, ...]

    @property
    def line(self) -> str:
        return f"{self.name}: {' '.join(self.words)}\n"

    def files(self) -> Iterator[Path]:
        for part in PARTS:
            yield from sorted(path for path in (self.folder / part).rglob("*") if path.is_file())

    @cached_property
    def weight(self) -> int:
        """Bytes of code, which the time of its proof goes by (those of specs/ and proofs/ take a fiftieth of the time), with those
        that would be proved in the time of its start."""
        code = sum(path.stat().st_size for path in self.files() if path.suffix == ".rt")
        return START + code + (LINK if self.name == PROGRAM else 0)


class Plan:
    """The program's crates, each behind those that it stands on."""

    def __init__(self, top: Path) -> None:
        self.top = top
        self.crates: dict[str, Crate] = {}
        self.add(PROGRAM, dict(read_list(top / "crates.txt")))

    def add(self, name: str, listed: dict[str, tuple[str, ...]]) -> None:
        for dep in listed[name]:
            if dep in listed and dep not in self.crates:
                self.add(dep, listed)
        self.crates[name] = Crate(name, self.top / "crates" / name, listed[name])

    @property
    def handles(self) -> Path:
        """The file with what the program may reach of the system."""
        return self.top / "HANDLES"

    def sum(self) -> str:
        """A sum of all that the program is made from: the kit too."""
        total = hashlib.sha256(f"{kit()}\n{self.handles.read_text() if self.handles.is_file() else ''}\n".encode())
        for crate in self.crates.values():
            total.update(crate.line.encode())
            for path in crate.files():
                total.update(f"{path.relative_to(crate.folder)}\n{path.stat().st_size}\n".encode() + path.read_bytes())
        return total.hexdigest()


def read_list(path: Path) -> Iterator[tuple[str, tuple[str, ...]]]:
    """The crates and the words behind each."""
    for line in path.read_text().splitlines():
        name, colon, words = line.partition("#")[0].partition(":")
        if colon:
            yield name.strip(), tuple(words.split())


def kit() -> str:
    """The line that names the kit."""
    return subprocess.run(["rt", "version"], capture_output=True, text=True).stdout.strip()
