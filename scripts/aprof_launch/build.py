"""Proves and builds the program: one build at a time, and what is said of it."""
from __future__ import annotations

import contextlib
import fcntl
import hashlib
import os
import shutil
import signal
import subprocess
import sys
import time
from collections.abc import Iterator
from pathlib import Path
from types import FrameType

from aprof_launch.crates import PROGRAM, Plan
from aprof_launch.gate import Log, has_ended, jobs, started
from aprof_launch.room import Room
from aprof_launch.telling import Estimate, Teller, duration

FAILED = 70
SIGNALS = (signal.SIGTERM, signal.SIGHUP, signal.SIGINT)


def end(number: int, _frame: FrameType | None) -> None:
    """Ends the build, which clears up meanwhile."""
    for other in SIGNALS:
        signal.signal(other, signal.SIG_IGN)
    raise SystemExit(128 + number)


def build_program(top: Path) -> int:
    """The status: 0 where the program is there. A signal ends it in the same order, and what was proved is kept."""
    for number in SIGNALS:
        if signal.getsignal(number) is not signal.SIG_IGN:
            signal.signal(number, end)
    try:
        with locked(top / "build" / "lock") as held:
            return Build(top).run(held)
    except SystemExit:
        print("aprof: the build was stopped; the next one goes on from here", file=sys.stderr)
        raise
    except OSError as error:
        print("aprof: the build failed: " + ": ".join(filter(None, (error.filename, error.strerror))), file=sys.stderr)
    return FAILED


@contextlib.contextmanager
def locked(folder: Path) -> Iterator[int]:
    """Waits while another build goes on, and keeps others out."""
    folder.mkdir(parents=True, exist_ok=True)
    held = os.open(folder, os.O_RDONLY)
    try:
        try:
            fcntl.flock(held, fcntl.LOCK_EX | fcntl.LOCK_NB)
        except BlockingIOError:
            print("aprof: another ./aprof builds the program; waiting for it", file=sys.stderr)
            fcntl.flock(held, fcntl.LOCK_EX)
        except OSError:
            # Some file systems have no locks.
            pass
        yield held
    finally:
        os.close(held)


class Build:
    """The build of a clone's program. Beside the program stand a stamp, as old as the sources that were read, and a key: a sum of
    these sources, and one of the program, which `rt run` in its crate may replace."""

    def __init__(self, top: Path) -> None:
        self.began, self.plan = time.time(), Plan(top)
        self.room = Room(top / "build" / "room")
        self.out = top / "crates" / PROGRAM / "out"
        self.program, self.key, self.log = self.out / PROGRAM, self.out / "launcher.key", self.out / "build.log"

    def run(self, held: int) -> int:
        self.out.mkdir(parents=True, exist_ok=True)
        self.room.remove()
        # Earlier versions had more than one.
        shutil.rmtree(self.room.folder.with_name("rooms"), ignore_errors=True)
        if not self.is_built():
            try:
                status = self.build(held)
            finally:
                self.room.remove()
            if status:
                self.tell_failure(status)
                return FAILED
        stamp = self.out / "launcher.stamp"
        stamp.touch()
        os.utime(stamp, (self.began, self.began))
        return 0

    def is_built(self) -> bool:
        """Whether the program is there that was built from just these sources."""
        return self.program.is_file() and self.key.is_file() and self.key.read_text() == self.key_of(self.plan)

    def key_of(self, plan: Plan) -> str:
        return f"{plan.sum()} {hashlib.sha256(self.program.read_bytes()).hexdigest()}\n"

    def build(self, held: int) -> int:
        """The gate's status. The room has what the program is made from, whatever changes in the clone meanwhile."""
        self.room.fill(self.plan)
        with started(self.room.folder, self.log, held) as process:
            self.follow(process)
        if process.returncode == 0:
            os.replace(self.room.program, self.program)
            self.key.write_text(self.key_of(Plan(self.room.folder)))
        return process.returncode

    def follow(self, process: subprocess.Popen[bytes]) -> None:
        """Tells how far the gate is, until it ends."""
        teller, estimate = Teller(len(self.plan.crates)), Estimate(self.plan, cores())
        whole = f"from nothing that takes {duration(estimate.left(set(), set()))} on {cores()} core{'s' if cores() > 1 else ''}"
        teller.say(f"proving and building the program ({whole}); the log is {self.log}")
        try:
            while not has_ended(process, teller.seconds):
                log = Log(self.log)
                teller.tell(len(log.proved | log.kept), estimate.left(log.proved, log.kept))
        finally:
            teller.erase()

    def tell_failure(self, status: int) -> None:
        log = Log(self.log)
        what = f"the build failed at {log.failed()}, status {status}; the end of what it said, all of which is in {self.log}:"
        print(f"aprof: {what}", *log.last_lines(), sep="\n", file=sys.stderr)


def cores() -> int:
    return int(jobs() or 0) or len(os.sched_getaffinity(0))
