"""What is printed: help on standard output, and all else on standard error."""
from __future__ import annotations

import errno
import os
import re
import sys

UNWRITTEN = 4
"""The status where standard output can't be written."""


def plain(text: str) -> str:
    """The text with each byte that is not UTF-8 as a shell's escape."""
    return re.sub("[\udc80-\udcff]", lambda found: f"\\{ord(found[0]) - 0xDC00:03o}", text)


def say(line: str) -> None:
    """A line on standard error, where there is one."""
    if sys.stderr is None:
        return
    try:
        print(plain(line), file=sys.stderr, flush=True)
    except OSError:
        # The step's status is told all the same: that of `check` keeps a file from being overwritten.
        os.dup2(os.open(os.devnull, os.O_WRONLY), sys.stderr.fileno())


def print_out(text: str) -> int:
    """Prints the text, and tells where that can't be done: the status."""
    if sys.stdout is None:
        say("aprof: cannot write: standard output is closed")
        return UNWRITTEN
    try:
        print(plain(text), flush=True)
        return 0
    except OSError as error:
        # What is left is dropped, so that Python doesn't flush it again at its end.
        os.dup2(os.open(os.devnull, os.O_WRONLY), sys.stdout.fileno())
        if isinstance(error, BrokenPipeError):
            return 0  # Who reads it has enough, as `head`.
        why = "no space left" if error.errno == errno.ENOSPC else (error.strerror or "").lower()
        say(f"aprof: cannot write: standard output: {why}")
        return UNWRITTEN
