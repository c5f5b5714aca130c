"""What the words of a command line have to do with one another: nothing that was given is left aside without a word."""
from __future__ import annotations

import argparse
import os
from collections.abc import Collection, Iterable, Sequence
from difflib import get_close_matches

from aprof_show import called
from aprof_show.model import Routine
from aprof_show.names import brief_of

CHOICE = frozenset({"--all", "--min", "--library", "--top", "--by"})

# what each kind of output takes besides its reports and --image
TAKES: dict[str, frozenset[str]] = {
    "--page": frozenset(),
    "--json": frozenset({"a routine"}),
    "--csv": frozenset({"a routine"}),
    "--open": frozenset(),
    "--folded": frozenset(),
    "--callgrind": frozenset(),
    "--tree": frozenset({"a routine", "--all", "--min"}),
    "--callers": frozenset({"--all", "--min"}),
    "--against": frozenset({"--all", "--min", "--library", "--top", "--fail-above", "a routine"}),
    "--fail-above": frozenset({"--min", "--library", "--by", "a routine"}),
    "a routine": frozenset({"--plot"}),
    "the table": CHOICE,
    "a report of `aprof cache`": frozenset({"--all", "--min", "--top"}),
}

REASONS = {
    "--page": "a page has all routines",
    "--open": "the calls that were open are of the whole run",
    "--folded": "stacks are of the whole run",
    "--callgrind": "the file is of the whole run",
    "--callers": "its routine goes directly behind it",
}

PAGE_WORDS = "--page FILE REPORT..."
PAGE_MARK = b'<meta name="generator" content="aprof show">'
"""By this in its head a page is known (page/page.html)."""
BEHIND_CALLERS = "the routine goes directly after --callers: --callers ROUTINE REPORT..."


MOST = 5
"""So many names are told that may have been meant."""


class Refused(Exception):
    """The command can't be carried out."""


def sort_words(options: argparse.Namespace) -> tuple[list[str], list[str]]:
    """The reports, and the names of routines."""
    refuse_empty(options)
    paths = [word for word in options.words if os.path.exists(word)]
    names = [word for word in options.words if not os.path.exists(word)] + options.routine
    if options.plot and not names:
        raise Refused(f"--plot wants a routine: {called.name()} REPORT... ROUTINE --plot")
    if not paths:
        raise Refused(missing_text(options, names))
    return paths, names


def refuse_empty(options: argparse.Namespace) -> None:
    if "" in options.words:
        raise Refused("an empty word")
    for option in ("--routine", "--callers", "--image", "--against", "--page"):
        value = getattr(options, attribute_of(option))
        if value == "" or "" in (value or ()) and option == "--routine":
            raise Refused(f"an empty word behind {option}")


def missing_text(options: argparse.Namespace, names: Sequence[str]) -> str:
    """What is said where no word is a report."""
    missing = f"no file {names[0]}" if names else "a report is wanted"
    if names[:1] == ["-"]:
        return f"{missing}: /dev/stdin is standard input"
    if options.callers and os.path.exists(options.callers):
        missing = f"{options.callers} is a file; {BEHIND_CALLERS}"
    elif options.against and not names:
        return f"--against OLD wants the new report too: {called.name()} --against {options.against} NEW"
    elif options.page and not names:
        return f"--page FILE wants a report too: {called.name()} --page FILE REPORT..."
    return f"{missing}; `{called.name()} --help` tells more"


def kind_of(options: argparse.Namespace, names: Sequence[str]) -> str:
    for kind in TAKES:
        if kind.startswith("--") and is_given(options, kind):
            return kind
    return "a routine" if names else "the table"


def attribute_of(option: str) -> str:
    return option.removeprefix("--").replace("-", "_")


def given(options: argparse.Namespace, names: Sequence[str]) -> list[str]:
    """What there is besides the reports."""
    words = [*sorted(CHOICE), "--plot", *(kind for kind in TAKES if kind.startswith("--"))]
    found = [word for word in words if is_given(options, word)]
    return (["a routine"] if names else []) + found


def is_given(options: argparse.Namespace, option: str) -> bool:
    """`--min 0` is given too, though 0 is equal to False."""
    value = getattr(options, attribute_of(option))
    return value is not None and value is not False


def check(options: argparse.Namespace, names: Sequence[str], kind: str) -> None:
    """Refuses what this kind of output has no use for."""
    for word in given(options, names):
        if word == kind or word in TAKES[kind]:
            continue
        if word == "a routine" and kind in REASONS:
            raise Refused(f"{kind} takes no routine ({names[0]}): {REASONS[kind]}")
        raise Refused(f"{kind} takes no {word.removeprefix('a ')}; {taken_by(kind)}")
    chosen = [word for word in given(options, names) if word in CHOICE]
    if names and chosen and kind != "--tree":
        raise Refused(f"{chosen[0]} chooses among all routines, and {names[0]} is one: give one of both")
    if options.all and options.min is not None:
        raise Refused("--all and --min exclude each other")


def taken_by(kind: str) -> str:
    """What a kind of output takes besides reports and --image."""
    return f"it takes {listed(sorted(TAKES[kind]))}" if TAKES[kind] else "it takes only reports and --image"


def check_page(path: str, inputs: Iterable[str], image: str | None) -> None:
    """A page is written over nothing but an older page."""
    if path == "-":
        raise Refused(f"--page wants a file: {PAGE_WORDS}; /dev/stdout is standard output")
    if not os.path.isfile(path):
        return
    if image and os.path.samefile(path, image):
        raise Refused(f"{path} is the image, and is not overwritten: {PAGE_WORDS}")
    with open(path, "rb") as file:
        head = file.read(256)
    if head.startswith(b"aprof ") or any(os.path.samefile(path, one) for one in inputs):
        raise Refused(f"{path} is a report, and is not overwritten: {PAGE_WORDS}")
    if head.strip() and PAGE_MARK not in head:
        raise Refused(f"{path} is no page of aprof, and is not overwritten: {PAGE_WORDS}")


def named(routines: Collection[Routine], name: str) -> list[Routine]:
    """By name, or else by address."""
    found = [routine for routine in routines if routine.is_called(name)]
    found = found or [routine for routine in routines if routine.is_at(name)]
    if not found:
        meant = [routine.label for routine in routines if routine.shown and brief_of(routine.shown) == name]
        near = meant[:MOST] or nearest(name, [routine.label for routine in routines])
        there = "; there " + ("is " if len(near) == 1 else "are ") + listed(near) if near else ""
        raise Refused(f"no file and no routine called {name}{there} (--all lists them)")
    return found


def nearest(name: str, labels: list[str]) -> list[str]:
    """The labels that may have been meant: the shortest ones that begin with the name, or have it, or else one that is spelled
    nearly alike."""
    having = {label for label in labels if name in label}
    if having:
        return sorted(having, key=lambda label: (not label.startswith(name), len(label), label))[:MOST]
    return get_close_matches(name, labels, 1)


def listed(words: Sequence[str]) -> str:
    return " and ".join([*([", ".join(words[:-1])] if len(words) > 1 else []), words[-1]])


def all_named(routines: Collection[Routine], names: Iterable[str]) -> set[Routine]:
    return {routine for name in names for routine in named(routines, name)}


def called_by(routines: Collection[Routine], name: str) -> list[Routine]:
    """The routine of --callers: what looks like none may be a report in its place."""
    try:
        return named(routines, name)
    except Refused as error:
        raise Refused(f"{str(error).replace('no file and no', 'no', 1)}; {BEHIND_CALLERS}") from error
