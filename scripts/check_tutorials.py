#!/usr/bin/env python3
"""Runs the commands of the tutorials in examples/tutorials, and compares what they print with the pages.

    scripts/check_tutorials.py [--fresh] [PROGRAM] [TUTORIAL ...]

In a block ```console of a page a line `$ COMMAND` is run by bash, in a copy of the page's folder, with `> ` before its
further lines; the lines after it are what it prints, and a line `...` is any lines. A command has status 0, or its next one
is `echo $?`. A block ```console needs TOOL ... is left out, with a word about it, where a tool is missing. What a page
builds has to be the executable that is stored beside it. PROGRAM is the built program, crates/aprof/out/aprof without it.
--fresh writes what is printed into the pages. Status 0 where all that ran was as the pages have it.
"""
from __future__ import annotations

import argparse
import contextlib
import difflib
import os
import re
import shutil
import signal
import subprocess
import sys
import tempfile
import time
from collections.abc import Iterator
from dataclasses import dataclass, field
from pathlib import Path

from aprof_show.page import LIBRARY as CHART
from musl_library import MUSL, library

TOP = Path(__file__).resolve().parent.parent
TUTORIALS = TOP / "examples" / "tutorials"
FENCE = "```"
LONGEST = 60
"""Seconds that a command may take."""


@dataclass
class Command:
    """A command of a page, and what the page says that it prints."""

    line: int
    text: str
    printed: list[str] = field(default_factory=list)


@dataclass
class Block:
    needs: list[str]
    commands: list[Command] = field(default_factory=list)


class BadPage(Exception):
    """A block that has no form."""


def blocks_of(lines: list[str]) -> Iterator[Block]:
    """The blocks of a page that are to be run."""
    block: Block | None = None
    in_other = False
    for number, line in enumerate(lines, 1):
        if line.startswith(FENCE) and block:
            yield block
            block = None
        elif line.startswith(FENCE) and not in_other:
            words = line.removeprefix(FENCE).split()
            if words[:1] == ["console"]:
                block = Block(words[2:] if words[1:2] == ["needs"] else [])
            else:
                in_other = True
        elif line.startswith(FENCE):
            in_other = False
        elif block:
            add_line(block, number, line)
    if block or in_other:
        raise BadPage("the last block has no end")


def add_line(block: Block, number: int, line: str) -> None:
    if line.startswith("$ "):
        block.commands.append(Command(number, line[2:]))
    elif not block.commands:
        raise BadPage(f"{number}: a block begins with a command")
    elif line.startswith("> ") and not block.commands[-1].printed:
        block.commands[-1].text += "\n" + line[2:]
    else:
        block.commands[-1].printed.append(line)


def fits(pattern: list[str], lines: list[str]) -> bool:
    """Whether the lines are as the page has them, where `...` stands for any."""
    text = "".join(line + "\n" for line in lines)
    parts = [r"(.*\n)*" if line == "..." else re.escape(line) + r"\n" for line in pattern]
    return re.fullmatch("".join(parts), text) is not None


def missing(tool: str) -> str:
    """Why the tool can't be used, or nothing."""
    if tool == "musl":
        return "" if (library() / "lib" / "libc.a").exists() else "no C library (examples/musl/setup.sh)"
    if tool == "chart.js":
        return "" if CHART.exists() else "no Chart.js (Debian's package libjs-chart.js)"
    name = re.sub("-[0-9.]+$", "", tool)
    version = tool[len(name) + 1 :]
    if shutil.which(name) is None:
        return f"no {name}"
    if version:
        found = subprocess.run([name, "--version"], capture_output=True, text=True).stdout.split("\n")[0]
        return "" if f"version {version}" in found else f"{name} is not of version {version}"
    return ""


def commands_folder(folder: Path, program: Path) -> Path:
    """A folder of the commands of an installed package that the pages use."""
    folder.mkdir()
    show, cc = TOP / "show", MUSL / "cc"
    texts = {
        "aprof": f'if [ "${{1-}}" = show ]; then shift; exec "{show}" "$@"; fi\nexec "{program}" "$@"',
        "aprof-cc": f'exec "{cc}" "$@"',
    }
    for name, text in texts.items():
        (folder / name).write_text(f"#!/bin/sh\n{text}\n")
        (folder / name).chmod(0o755)
    return folder


def run_in(folder: Path, text: str, environment: dict[str, str]) -> tuple[int, bytes]:
    """The status of a text that bash runs, and what it prints. At a timeout all that it has started is killed."""
    with subprocess.Popen(["bash", "-c", text], cwd=folder, env=environment, stdin=subprocess.DEVNULL,
                          stdout=subprocess.PIPE, stderr=subprocess.STDOUT, start_new_session=True) as bash:
        try:
            printed, _ = bash.communicate(timeout=LONGEST)
        except BaseException:
            with contextlib.suppress(ProcessLookupError):
                os.killpg(bash.pid, signal.SIGKILL)
            raise
    return bash.returncode, printed


class Page:
    """A tutorial's page in a copy of its folder."""

    def __init__(self, folder: Path, commands: Path, scratch: Path) -> None:
        self.source = folder / "README.md"
        self.name = f"{folder.name}/README.md"
        self.lines = self.source.read_text(encoding="utf-8").splitlines()
        self.copy = scratch / folder.name
        shutil.copytree(folder, self.copy)
        self.environment = {name: value for name, value in os.environ.items() if name not in ("COLUMNS", "PARALLEL")}
        self.environment |= {"PATH": f"{commands}:{os.environ['PATH']}", "APROF_MUSL": str(library()),
                             "LC_ALL": "C.UTF-8", "PYTHONDONTWRITEBYTECODE": "1"}
        self.status = 0
        self.faults: list[str] = []
        self.left_out: list[str] = []
        self.fresh: list[tuple[Command, list[str]]] = []

    def check(self) -> None:
        for block in blocks_of(self.lines):
            reasons = [reason for reason in map(missing, block.needs) if reason]
            if reasons:
                self.left_out.append(f"line {block.commands[0].line}: {', '.join(reasons)}")
                continue
            for command in block.commands:
                self.run(command)
        if self.status:
            self.faults.append(f"the last command has status {self.status}")
        self.compare_executables()

    def run(self, command: Command) -> None:
        asks_status = command.text == "echo $?"
        if self.status and not asks_status:
            self.faults.append(f"before line {command.line}: status {self.status}")
        try:
            self.status, printed = run_in(self.copy, f"(exit {self.status})\n{command.text}", self.environment)
        except subprocess.TimeoutExpired:
            self.faults.append(f"line {command.line}: more than {LONGEST} seconds")
            return
        lines = printed.decode("utf-8", "replace").splitlines()
        self.fresh.append((command, lines))
        if not fits(command.printed, lines):
            self.faults.append(f"line {command.line}: $ {command.text}")
            self.faults += list(difflib.unified_diff(command.printed, lines, "the page", "printed", lineterm=""))

    def compare_executables(self) -> None:
        for stored in sorted(self.source.parent.iterdir()):
            copy = self.copy / stored.name
            if stored.is_file() and stored.read_bytes()[:4] == b"\x7fELF" and stored.read_bytes() != copy.read_bytes():
                self.faults.append(f"{stored.name} is not what the page builds")

    def write_fresh(self) -> None:
        """Puts what was printed into the page, and leaves the outputs that are cut as they are where they fit."""
        for command, lines in reversed(self.fresh):
            if not fits(command.printed, lines):
                begin = command.line + command.text.count("\n")
                self.lines[begin : begin + len(command.printed)] = lines
        self.source.write_text("\n".join(self.lines) + "\n", encoding="utf-8")


def check(folder: Path, commands: Path, scratch: Path, fresh: bool) -> bool:
    began = time.monotonic()
    page = Page(folder, commands, scratch)
    try:
        page.check()
    except BadPage as error:
        page.faults.append(str(error))
    for reason in page.left_out:
        print(f"check_tutorials: left out: {page.name}, {reason}")
    if page.faults:
        print(f"check_tutorials: {page.name} is wrong", *page.faults, sep="\n")
    if fresh:
        page.write_fresh()
    print(f"check_tutorials: {page.name}: {len(page.fresh)} commands ran, in {time.monotonic() - began:.1f} s")
    return not page.faults


def main() -> int:
    parser = argparse.ArgumentParser(description=__doc__, formatter_class=argparse.RawDescriptionHelpFormatter)
    parser.add_argument("program", metavar="PROGRAM", nargs="?", default=str(TOP / "crates" / "aprof" / "out" / "aprof"))
    parser.add_argument("tutorials", metavar="TUTORIAL", nargs="*", help="those of this name alone")
    parser.add_argument("--fresh", action="store_true", help="write what is printed into the pages")
    options = parser.parse_args()
    program = Path(options.program).resolve()
    if not os.access(program, os.X_OK):
        sys.exit(f"check_tutorials: {program} is not built")
    folders = [path.parent for path in sorted(TUTORIALS.glob("*/README.md"))]
    chosen = [folder for folder in folders if folder.name in options.tutorials or not options.tutorials]
    unknown = set(options.tutorials) - {folder.name for folder in chosen}
    if unknown:
        sys.exit(f"check_tutorials: no tutorial {min(unknown)}")
    with tempfile.TemporaryDirectory() as scratch:
        commands = commands_folder(Path(scratch, "commands"), program)
        results = [check(folder, commands, Path(scratch), options.fresh) for folder in chosen]
    return 0 if results and all(results) else 1


if __name__ == "__main__":
    sys.exit(main())
