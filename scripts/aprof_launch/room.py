"""The room: a checkout of the program's crates alone, in which the kit's gate proves nothing else and has no edits to try.

It is removed once it is done with: `rt ci` in the clone wants no other crates.txt. What the kit keeps of a build stands beside
the kit, so that nothing in a room is missed."""
from __future__ import annotations

import shutil
from pathlib import Path

from aprof_launch.crates import PROGRAM, Crate, Plan

LEFT_OUT = ("out", "must-fail")


class Room:
    def __init__(self, folder: Path) -> None:
        self.folder = folder

    @property
    def program(self) -> Path:
        """The program, where the gate has built it."""
        return self.folder / "crates" / PROGRAM / "out" / PROGRAM

    def fill(self, plan: Plan) -> None:
        # The gate runs at the top of a repository only.
        (self.folder / ".git").mkdir(parents=True)
        (self.folder / "crates.txt").write_text("".join(crate.line for crate in plan.crates.values()))
        if plan.handles.is_file():
            shutil.copyfile(plan.handles, self.folder / plan.handles.name)
        for crate in plan.crates.values():
            self.copy(crate)

    def copy(self, crate: Crate) -> None:
        for part in crate.folder.iterdir():
            for path in [part, *part.rglob("*")] if part.name not in LEFT_OUT else []:
                if path.is_file():
                    to = self.folder / "crates" / crate.name / path.relative_to(crate.folder)
                    to.parent.mkdir(parents=True, exist_ok=True)
                    shutil.copyfile(path, to)

    def remove(self) -> None:
        shutil.rmtree(self.folder, ignore_errors=True)
