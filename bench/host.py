"""What several scripts of bench/ measure: the host's instructions of a command, by callgrind; the seconds and the memory of
a child; and both for runs of guests under the built program."""
from __future__ import annotations

import argparse
import os
import re
import resource
import signal
import subprocess
import sys
import time
from collections.abc import Callable, Container, Sequence
from dataclasses import dataclass
from math import inf
from pathlib import Path
from typing import IO

from guests import EXIT, image

TOP = Path(__file__).resolve().parent.parent
PROGRAM = TOP / "crates/aprof/out/aprof"

# For musl_library, which is with the other scripts.
sys.path.append(str(TOP / "scripts"))

Word = str | Path


def script() -> str:
    """The name of the script that runs, for what it says."""
    return f"bench/{Path(sys.argv[0]).name}"


def parser(description: str | None) -> argparse.ArgumentParser:
    """The parser of a script's words, whose help is the script's own text."""
    shape = argparse.RawDescriptionHelpFormatter
    return argparse.ArgumentParser(prog=script(), description=description, formatter_class=shape)


def program(word: str) -> Path:
    """The program of a word, for a parser."""
    path = Path(word).resolve()
    if not path.exists():
        raise argparse.ArgumentTypeError(f"there is no {path}{'; ./aprof builds it' if path == PROGRAM else ''}")
    return path


def positive(word: str) -> int:
    """A number that is at least 1, for a parser."""
    if int(word) < 1:
        raise argparse.ArgumentTypeError(f"{word} is less than 1")
    return int(word)


def add_program(to: argparse.ArgumentParser) -> None:
    """Adds the word PROGRAM, which may be left out."""
    text = "the built aprof; unless given, the one of this checkout"
    to.add_argument("program", metavar="PROGRAM", nargs="?", type=program, default=str(PROGRAM), help=text)


class NotCounted(Exception):
    """callgrind told no number."""


def instructions(command: Sequence[Word], folder: Path | None = None, statuses: Container[int] = (0,)) -> int:
    """The host's instructions of a command, without what it prints. Its status has to be one of these."""
    counting = ["valgrind", "--tool=callgrind", "--callgrind-out-file=/dev/null", *command]
    done = subprocess.run(counting, cwd=folder, stdout=subprocess.DEVNULL, stderr=subprocess.PIPE)
    found = re.search(rb"Collected : (\d+)", done.stderr)
    if found is None:
        raise NotCounted(done.stderr.decode(errors="replace"))
    if done.returncode not in statuses:
        raise subprocess.CalledProcessError(done.returncode, counting, stderr=done.stderr)
    return int(found[1])


@dataclass(frozen=True)
class Ended:
    """How a child ended: its status, or less than 0 by a signal; the seconds of the clock and of the processor; and its most
    memory in KiB."""

    status: int
    clock: float
    processor: float
    memory: int


def memory(pid: int) -> int:
    """The most memory of a process so far, in KiB, or 0 where it has ended."""
    try:
        found = re.search(r"VmHWM:\s+(\d+)", Path(f"/proc/{pid}/status").read_text())
    except OSError:
        return 0
    return int(found[1]) if found else 0


def watch(child: subprocess.Popen[bytes], every: float, longest: float) -> tuple[resource.struct_rusage, int]:
    """Waits for a child, and looks at its memory at this interval; with 0, the memory is what the kernel tells at the end. A
    child that still runs after `longest` seconds is killed at the next look."""
    most, last = 0, time.monotonic() + longest
    while True:
        pid, status, usage = os.wait4(child.pid, os.WNOHANG if every else 0)
        if pid:
            child.returncode = os.waitstatus_to_exitcode(status)
            return usage, most if every else usage.ru_maxrss
        most = max(most, memory(child.pid))
        if time.monotonic() > last:
            os.kill(child.pid, signal.SIGKILL)
        time.sleep(every)


def run(
    command: Sequence[Word], *, folder: Path | None = None, stderr: int | IO[bytes] | None = None, every: float = 0.0,
    before: Callable[[], object] | None = None, longest: float = inf,
) -> Ended:
    """Runs a command without its standard output, after the child has called `before`. Its memory is read every `every`
    seconds, and it is killed after `longest` seconds. With `every` 0 neither is done, and the memory is the kernel's figure,
    which also counts what this script had when it started the command."""
    began = time.monotonic()
    child = subprocess.Popen(command, cwd=folder, stdout=subprocess.DEVNULL, stderr=stderr, preexec_fn=before)
    usage, most = watch(child, every, longest)
    return Ended(child.returncode, time.monotonic() - began, usage.ru_utime + usage.ru_stime, most)


def seconds(command: Sequence[Word], folder: Path | None = None, stderr: int | IO[bytes] | None = None) -> float:
    """The clock's seconds of a command that ends with status 0."""
    ended = run(command, folder=folder, stderr=stderr)
    if ended.status:
        raise subprocess.CalledProcessError(ended.status, list(command))
    return ended.clock


@dataclass(frozen=True)
class Cost:
    """The steps of a guest, and the host's instructions that they took."""

    steps: int
    host: int

    def beyond(self, less: Cost) -> Cost:
        """What this run has more than another one."""
        return Cost(self.steps - less.steps, self.host - less.host)

    @property
    def a_step(self) -> float:
        """The host's instructions for one of the guest's."""
        return self.host / self.steps


def steps_of(report: str) -> int:
    """The steps that a report tells, of a guest that has to have ended with status 0."""
    lines = report.splitlines()
    if lines[1] != "end exit 0":
        raise SystemExit(f"a guest ended with: {lines[1]}")
    return int(lines[2].split()[1])


RUN = ("run",)
CONTEXTS = ("contexts",)
CACHE = ("cache", "--sets", "64", "--ways", "8", "--line", "64")


@dataclass(frozen=True)
class Bench:
    """Runs of guests by a command of the program, in a folder of their own."""

    program: Path
    folder: Path
    command: Sequence[str] = RUN

    def prepared(self, guest: bytes, options: Sequence[str] = ()) -> list[Word]:
        """Prepares a run, without an earlier report, and returns its command line. Its standard input is of 1 MiB, as much as
        any guest reads."""
        stdin, report, file = (self.folder / name for name in ("stdin", "report", "guest"))
        report.unlink(missing_ok=True)
        file.write_bytes(guest)
        if not stdin.exists():
            stdin.write_bytes(bytes(1 << 20))
        return [self.program, *self.command, *options, "--stdin", stdin, "-o", report, file]

    def steps(self) -> int:
        """The steps that the last report tells."""
        report = self.folder / "report"
        if not report.exists():
            raise SystemExit(f"{self.program} {' '.join(self.command)} stored no report")
        return steps_of(report.read_text())

    def refuses(self, options: Sequence[str]) -> bool:
        """Whether the program refuses these options, for a guest that ends at once."""
        return subprocess.run(self.prepared(image(EXIT), options), capture_output=True).returncode != 0

    def seconds(self, guest: bytes) -> float:
        """The clock's seconds of a run."""
        return seconds(self.prepared(guest))

    def cost(self, guest: bytes, options: Sequence[str] = ()) -> Cost:
        """The cost of a run, with the program's start."""
        host = instructions(self.prepared(guest, options))
        return Cost(self.steps(), host)
