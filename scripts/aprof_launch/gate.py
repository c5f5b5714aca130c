"""The kit's own gate, `rt ci`: how it is started and ended, and what its log tells.

It keeps each crate that it has proved, by the checksums of all that was read, in a folder beside the kit: so a build that was
stopped, or a developer's gate, is taken over. Where that folder can't be written, which the log then says, each build begins
from nothing."""
from __future__ import annotations

import contextlib
import os
import re
import signal
import subprocess
from collections.abc import Iterator
from pathlib import Path
from types import FrameType

PROVED = re.compile(r"^rt: (\w+) proved$", re.MULTILINE)
KEPT = re.compile(r"^rt: (\w+) is kept: ", re.MULTILINE)
REFUSED = re.compile(r"^rt: (\w+) NOT PROVED$", re.MULTILINE)
FAILED = re.compile(r"^rt: FAILED: (.+)$", re.MULTILINE)

LINES_TOLD = 8


class Log:
    """What the gate has said."""

    def __init__(self, path: Path) -> None:
        self.text = path.read_text(errors="replace")
        self.proved, self.kept = set(PROVED.findall(self.text)), set(KEPT.findall(self.text))

    def failed(self) -> str:
        """The crates that were refused, without those that only stand on them; or else what the gate says has failed."""
        return " ".join(REFUSED.findall(self.text) or FAILED.findall(self.text)[-1:] or ["rt ci"])

    def last_lines(self) -> list[str]:
        """The last lines on the first crate that was refused, or else of all."""
        refused = REFUSED.search(self.text)
        text = self.text[: refused.end()].rpartition(f"== {refused[1]}\n")[2] if refused else self.text
        return text.splitlines()[-LINES_TOLD:]


def jobs() -> str:
    """How many crates are proved at one time, where the user says that."""
    number = os.environ.get("APROF_JOBS", "")
    return number if number.isascii() and number.isdigit() else ""


@contextlib.contextmanager
def started(folder: Path, log: Path, held: int) -> Iterator[subprocess.Popen[bytes]]:
    """Starts the gate in a session of its own, and ends it with all that it has started. It holds the lock of the builds too, so
    that the next build waits for it where the launcher was killed."""
    environment = os.environ | ({"RT_JOBS": jobs()} if jobs() else {})
    with log.open("wb") as file:
        process = subprocess.Popen(
            ["rt", "ci"], cwd=folder, env=environment, stdin=subprocess.DEVNULL, stdout=file, stderr=subprocess.STDOUT,
            start_new_session=True, pass_fds=[held],
        )  # fmt: skip
    try:
        with paused_too(process):
            yield process
    finally:
        end(process)


def end(process: subprocess.Popen[bytes]) -> None:
    """Ends the gate, also where it is paused. The provers, in groups of their own, end with it by the kit's guard."""
    if process.poll() is None:
        os.killpg(process.pid, signal.SIGTERM)
        os.killpg(process.pid, signal.SIGCONT)
        process.wait()


@contextlib.contextmanager
def paused_too(process: subprocess.Popen[bytes]) -> Iterator[None]:
    """Has Ctrl-Z, which reaches the launcher alone, pause the gate too."""

    def pause(_number: int, _frame: FrameType | None) -> None:
        process.send_signal(signal.SIGTSTP)
        os.kill(os.getpid(), signal.SIGSTOP)
        process.send_signal(signal.SIGCONT)

    before = signal.signal(signal.SIGTSTP, pause)
    try:
        yield
    finally:
        signal.signal(signal.SIGTSTP, before)


def has_ended(process: subprocess.Popen[bytes], seconds: float) -> bool:
    """Waits so long for the end."""
    with contextlib.suppress(subprocess.TimeoutExpired):
        process.wait(seconds)
    return process.returncode is not None
