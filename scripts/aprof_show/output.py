"""Where output goes, and what is said where it can't be written."""
from __future__ import annotations

import os
import sys
from collections.abc import Iterable

from aprof_show import called

def print_lines(lines: Iterable[str]) -> None:
    """Where the reader has enough, as `head`, the rest is dropped, and the status is still told."""
    try:
        for line in lines:
            print(line)
        sys.stdout.flush()
    except BrokenPipeError:
        drop_output()


def say(text: str) -> None:
    """A line on standard error, where there is one that takes it."""
    if sys.stderr is None:
        return
    try:
        print(f"{called.command()}: {text}", file=sys.stderr, flush=True)
    except OSError:
        os.dup2(os.open(os.devnull, os.O_WRONLY), sys.stderr.fileno())


def write_text(path: str, text: str) -> None:
    """Writes a file, and leaves no half of it."""
    try:
        with open(path, "w", encoding="utf-8", newline="\n") as file:
            file.write(text)
    except OSError as error:
        if error.filename is None and os.path.isfile(path):
            os.remove(os.path.realpath(path))
        raise OSError(error.errno, error.strerror, path) from error


def error_text(error: OSError) -> str:
    """What went wrong with which file; what has no name was standard output."""
    reason = error.strerror or "can't be written"
    return f"{error.filename or 'standard output'}: {reason[0].lower()}{reason[1:]}"


def drop_output() -> None:
    """What was not written yet is given up: else the interpreter would try again at its end, and complain."""
    os.dup2(os.open(os.devnull, os.O_WRONLY), sys.stdout.fileno())
