"""The words of the command line."""
from __future__ import annotations

import argparse
from collections.abc import Sequence
from difflib import get_close_matches
from typing import Any, NoReturn

from aprof_show import called
from aprof_show.marks import MEANINGS
from aprof_show.rows import ORDERS
from aprof_show.table import Choice
from aprof_show.words import Refused, is_given

HELP = """Shows what `aprof run`, `replay`, `contexts` and `cache` store, and several reports as
one longer run.

  show REPORT...                       the routines, what to look at first
  show REPORT... ROUTINE...            a routine by doublings of its size; --plot draws it
  show --tree REPORT...                who calls whom, with the cost of each part (of `aprof contexts`)
  show --against OLD NEW               what has changed, the largest change first
  show --fail-above 2.5 REPORT... ROUTINE...   status 1 where the growth of these is above 2.5
  show --page FILE REPORT...           a page for a browser
"""

NOTES = """GROWTH is how many times the greatest cost of a call grows where its size doubles:
near 2 is linear, near 4 quadratic; `-` where there is at most one size other than 0.
Where a few costly calls distort the greatest cost, it is that of the mean: the
routine's own lines tell. Beside it stand
"""

REST = """WITH CALLEES is the part of all instructions that is spent in the routine and in what
it calls; ITS OWN, the part in the routine alone. In a report of `run` nested calls of
a recursive routine are each counted in full, so there it is an upper bound (`<=100%`
if it would be more); `contexts` has the exact part. `+`: at least so much, as a call
had not returned.
`(62% in look_up, 2496 calls, each about linear)` says where most of a routine's cost
comes from: the routine below it with the greatest own cost, with the short calls and
library calls that it makes. The part is of the routine's cost, with look_up's callees;
`through X` where the routine calls X and that leads there. What each call is like is
told where the points show that it makes the routine superlinear.
ESTIMATE is the greatest cost at two and ten times the largest size, by the growth.
SPREAD is the greatest ratio of costs at one size. POINTS is the number of sizes: a
report has a point, with its costs, for each. A WORD is the greatest cost divided by
the size, which is in words of 4 bytes. PLAIN, THREAD and KERNEL are the parts of the
input that no one else, another thread, or the kernel wrote since the thread last read
or wrote it.
Status 0; 1 where --fail-above finds something (uncertain growths and library routines
count where they are named); 2 for a bad command line, report or image."""


def notes() -> str:
    """What stands below the options."""
    signs = [f"  {sign} {meaning}" for sign, meaning in MEANINGS.items()]
    return "\n".join([NOTES.rstrip(), *signs, REST])


OTHER_NAMES = {
    **dict.fromkeys(("--source", "--lines", "--line", "--binary", "--executable"), "--image"),
    **dict.fromkeys(("--sort", "--order"), "--by"),
    **dict.fromkeys(("--flame", "--flamegraph"), "--folded"),
    "--html": "--page",
}
"""What options are called elsewhere."""


class Once(argparse.Action):
    """Stores the word behind an option, which is refused where it stands a second time."""

    def __call__(self, parser: argparse.ArgumentParser, namespace: argparse.Namespace, value: Any, option: str | None = None) -> None:
        if is_given(namespace, self.dest):
            hint = ": several old reports go into a folder" if option == "--against" else ""
            raise Refused(f"{option} stands twice{hint}")
        setattr(namespace, self.dest, value)


class Flag(Once):
    """An option without a word behind it."""

    def __init__(self, option_strings: Sequence[str], dest: str, help: str | None = None) -> None:
        super().__init__(option_strings, dest, nargs=0, default=False, help=help)

    def __call__(self, parser: argparse.ArgumentParser, namespace: argparse.Namespace, value: Any, option: str | None = None) -> None:
        super().__call__(parser, namespace, True, option)


class Parser(argparse.ArgumentParser):
    """Says what is wrong in a line, as for all else that is refused, and doesn't hide that help can't be written."""

    def print_help(self, file: Any = None) -> None:
        print(self.format_help(), end="", file=file, flush=True)

    def error(self, message: str) -> NoReturn:
        what, _, words = message.removeprefix("argument ").partition(": ")
        if words == "expected one argument":
            wanted = self._option_string_actions[what].metavar or " | ".join(ORDERS)
            raise Refused(f"{what} wants a word behind it: {what} {wanted}")
        if what != "unrecognized arguments":
            raise Refused(message.removeprefix("argument "))
        option = words.split()[0].partition("=")[0]
        named = OTHER_NAMES.get(option)
        near = [named] if named else get_close_matches(option, self._option_string_actions, 1)
        raise Refused(f"no option {option}" + (f"; there is {near[0]}" if near else f"; `{called.name()} --help` lists them"))


def parser() -> argparse.ArgumentParser:
    name = called.name()
    result = Parser(
        prog="show",
        usage=f"{name} [options] REPORT... [ROUTINE...]",
        description=HELP.replace("  show ", f"  {name} "),
        epilog=notes(),
        formatter_class=argparse.RawDescriptionHelpFormatter,
        allow_abbrev=False,
    )
    add = result.add_argument
    add("words", metavar="REPORT | ROUTINE", nargs="*", help="a file, a folder of such files, or a routine's name or address")
    add_choices(result)
    add("--image", metavar="IMAGE", action=Once, help="the executable: for names, and the file and line where a routine begins")
    add("--against", metavar="OLD", action=Once, help="compare with this earlier report, or a folder of them")
    above = "status 1 if a growth, or what it rises to (^), exceeds FACTOR and is not marked ~; with --against that of now"
    add("--fail-above", metavar="FACTOR", type=factor, action=Once, help=above)
    add("--plot", action=Flag, help="a chart of the routine")
    add("--version", action=Flag, help="the version of aprof")
    add_kinds(result)
    return result


def add_choices(result: argparse.ArgumentParser) -> None:
    """The options that choose among routines."""
    add = result.add_argument
    least = (
        "only routines with at least PERCENT of all instructions with callees (1 without it, and each superlinear one that is "
        "certain or would reach 1 at ten times the size)"
    )
    order = "sorts by one of these; share: with its callees, self: its own; thread, kernel: the part of the input they wrote"
    add("--routine", metavar="NAME", action="append", default=[], help="this routine alone; may be repeated")
    add("--all", action=Flag, help="all routines")
    add("--min", metavar="PERCENT", type=share, action=Once, help=least)
    add("--top", metavar="N", type=number, action=Once, help="at most N routines")
    add("--by", choices=ORDERS, action=Once, help=order)
    add("--library", action=Flag, help="routines of the C and the C++ library too, each in its own line")


def add_kinds(result: argparse.ArgumentParser) -> None:
    """The options that ask for another kind of output, of which there is one at most."""
    kinds = result.add_mutually_exclusive_group()
    for option, text in (
        ("--tree", "the calling tree"),
        ("--open", "the calls that had not returned at the end"),
        ("--folded", "folded stacks, for flame graphs"),
        ("--callgrind", "Callgrind's format, for callgrind_annotate and KCachegrind"),
        ("--json", "all that is known, as JSON"),
        ("--csv", "all points, as CSV"),
    ):
        kinds.add_argument(option, action=Flag, help=text)
    kinds.add_argument("--callers", metavar="ROUTINE", action=Once, help="who calls it, and what that costs")
    kinds.add_argument("--page", metavar="FILE", action=Once, help="writes a page for a browser")


def share(text: str) -> float:
    return value_of(text.rstrip("%"), 0, 100, f"--min {text}: a percentage, 0 to 100") / 100


def factor(text: str) -> float:
    return value_of(text.lstrip("x"), 1e-9, 1e6, f"--fail-above {text}: a factor above 0, as 2.5")


def number(text: str) -> int:
    wanted = f"--top {text}: a whole number from 1 on"
    if not text.isdecimal():
        raise Refused(wanted)
    return int(value_of(text, 1, 1e18, wanted))


def value_of(text: str, least: float, most: float, wanted: str) -> float:
    """The number, or a refusal that says what is wanted."""
    try:
        value = float(text)
    except ValueError:
        raise Refused(wanted) from None
    if not least <= value <= most:
        raise Refused(wanted)
    return value


def choice_of(options: argparse.Namespace) -> Choice:
    return Choice(options.min, options.all, options.library, options.top, options.by)
