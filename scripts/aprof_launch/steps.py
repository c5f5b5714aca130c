"""The steps that the launcher calls, one by one."""
from __future__ import annotations

import os
import signal
import sys
from pathlib import Path

from aprof_copy.called import launcher
from aprof_launch import outputs, usage
from aprof_launch.printing import print_out, say
from aprof_launch.words import not_utf8, read_words

HELP = 100
"""The status of `check` where the words ask for help, which then is printed."""


def asks_help(words: list[str]) -> bool:
    before = words[: words.index("--")] if "--" in words else words
    return "--help" in before or "-h" in before


def help_step(words: list[str]) -> int:
    complaint = usage.complaint(words)
    if complaint:
        say(f"aprof: {complaint}")
        say(f"`{launcher()} help` has the commands")
        return 1
    return print_out(usage.text_for(words))


def check_step(words: list[str]) -> int:
    """Before a run: 0 where it can begin."""
    if asks_help(words):
        return print_out(usage.text_for(words)) or HELP
    read = read_words(words)
    if read.complaint:
        return 0
    found = list(outputs.refusals(read))
    for line in found[:1] or outputs.notes(read):
        say(line)
    return 4 if found else 0


def hint_step(words: list[str]) -> int:
    """Behind a run: the program, its status and its words."""
    from aprof_launch.hints import Hints

    read, status = read_words(words[2:]), int(words[1])
    odd = not_utf8(words[2:]) if status == 1 else ""
    is_told = status == 1 or not read.complaint
    lines = [odd] if odd or not is_told else Hints(read, words[0]).lines(status)
    for number, line in enumerate(filter(None, lines)):
        is_first = number == 0 and not line.startswith("usage:")
        say(f"aprof: {line}" if is_first else line)
    return 0


def interrupted_step(words: list[str]) -> int:
    """Behind a run that a signal ended: the time at which it began, and its words."""
    read, began = read_words(words[1:]), float(words[0])
    for path in outputs.remove_halves(read, began):
        say(f"aprof: {path} was written in part, and is removed")
    unfinished = outputs.unfinished(read, began)
    if unfinished and os.environ.get("APROF_HINTS") != "0":
        say(f"aprof: {unfinished}")
    return 0


def build_step(words: list[str]) -> int:
    """The top of the repository, and the launcher with its words, which is started where the program is built."""
    from aprof_launch.build import build_program

    if sys.stderr is None:
        sys.stderr = open(os.devnull, "w")
    status = build_program(Path(words[0]))
    if status:
        return status
    for number in (signal.SIGPIPE, signal.SIGXFSZ):
        signal.signal(number, signal.SIG_DFL)
    script = words[1] if os.access(words[1], os.X_OK) else f"{words[0]}/aprof"
    os.execve(script, [script, *words[2:]], os.environ | {"APROF_BUILT": "1"})


def progress_step(words: list[str]) -> int:
    from aprof_launch.waiting import tell

    return tell(int(words[0]))


STEPS = {
    "help": help_step,
    "check": check_step,
    "hint": hint_step,
    "interrupted": interrupted_step,
    "build": build_step,
    "progress": progress_step,
}


def main(words: list[str]) -> int:
    return STEPS[words[0]](words[1:])
