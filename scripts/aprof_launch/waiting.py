"""Tells on standard error that a run goes on."""
from __future__ import annotations

import contextlib
import os
import signal
import sys
import time
from types import FrameType

SAVE, BACK, ERASE = "\0337", "\0338", "\033[K"
SECONDS_ON_TERMINAL, SECONDS_ELSEWHERE = 1.0, 5.0


class Ended(Exception):
    """The run has ended."""


def end(_signal: int, _frame: FrameType | None) -> None:
    raise Ended


def seconds_of(process: int) -> float:
    """How long the process has run."""
    with open(f"/proc/{process}/stat") as file:
        began = int(file.read().rsplit(")", 1)[1].split()[19])
    with open("/proc/uptime") as file:
        return float(file.read().split()[0]) - began / os.sysconf("SC_CLK_TCK")


def field(process: int, file: str, name: str) -> int:
    """A number of /proc."""
    with open(f"/proc/{process}/{file}") as lines:
        return next((int(line.split()[1]) for line in lines if line.startswith(name)), 0)


def amount(size: int) -> str:
    """Bytes for a person."""
    return f"{size} bytes" if size < 10_000 else f"{size >> 10} KiB" if size < 10_000_000 else f"{size >> 20} MiB"


def line_of(process: int) -> str:
    seconds = int(seconds_of(process))
    lasted = f"{seconds} s" if seconds < 60 else f"{seconds // 60} min {seconds % 60} s"
    memory = amount(field(process, "status", "VmRSS:") << 10)
    return f"aprof: running for {lasted}, {memory} of memory, {amount(field(process, 'io', 'wchar:'))} written"


def tell(process: int) -> int:
    """Tells of the process until a signal or its end. On a terminal the line stands behind the cursor, which stays where it is,
    and is erased at the end."""
    signal.signal(signal.SIGTERM, end)
    signal.signal(signal.SIGINT, signal.SIG_IGN)
    is_terminal, launcher = sys.stderr.isatty(), os.getppid()
    is_shown = False
    try:
        with contextlib.suppress(OSError, Ended):
            while os.getppid() == launcher:
                text = line_of(process)
                sys.stderr.write(f"{SAVE}{ERASE}{text}{BACK}" if is_terminal else f"{text}\n")
                sys.stderr.flush()
                is_shown = is_terminal
                time.sleep(SECONDS_ON_TERMINAL if is_terminal else SECONDS_ELSEWHERE)
    finally:
        if is_shown:
            sys.stderr.write(ERASE)
            sys.stderr.flush()
    return 0
