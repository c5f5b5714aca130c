"""bench/real.py [--only NAME ...] [--sizes 1,10,100] [--program PATH] [--folder PATH] [--no-host]: builds C programs that no
one here wrote from Debian's source packages, profiles each at some sizes of input, and prints a Markdown table. A program
that can't be fetched, built or run is left out with a line that says why.

Steps are the guest's instructions. Seconds are the processor's, of `aprof run` at the greatest size; beside it stand its
nanoseconds a step, most memory, and points. Host instructions a step are counted by callgrind, as the difference of the two
least sizes. Contexts are those of `aprof contexts` at the middle size. The routine is the one that `show` names first for
the reports of all sizes together, with its growth and its part of all instructions with what it calls. Refused are the calls
of the kernel that the guest made at the least size and that answer ENOSYS, see real/refused.py."""
from __future__ import annotations

import argparse
import shutil
import sys
from collections.abc import Sequence
from pathlib import Path

import host
from real import building, refused
from real.measuring import GuestBench, Run, first_routine
from real.recipes import RECIPES, Recipe

HEADING = ("Program", "Million steps at {sizes}", "Seconds", "ns a step", "Host instructions a step", "MiB", "Points",
           "Contexts", "First in `show`", "Refused")


def millions(steps: int) -> str:
    """Steps in millions, with two figures at least."""
    found = steps / 10**6
    return f"{found:.2f}" if found < 1 else f"{found:.1f}" if found < 10 else f"{found:.0f}"


def row(cells: Sequence[str]) -> str:
    """A row of a Markdown table."""
    return "| " + " | ".join(cell.replace("|", "\\|") for cell in cells) + " |"


def measure(bench: GuestBench, sizes: Sequence[int], with_host: bool) -> list[str]:
    """The cells of a program, after its name."""
    runs: list[Run] = [bench.run("run", size) for size in sizes]
    last, steps = runs[-1], [run.report.steps for run in runs]
    contexts = bench.run("contexts", sizes[len(sizes) // 2])
    counted = "-"
    if with_host and len(sizes) > 1 and steps[1] > steps[0]:
        few, many = (bench.host_instructions(size) for size in sizes[:2])
        counted = f"{(many - few) / (steps[1] - steps[0]):.0f}"
    return [
        " / ".join(millions(number) for number in steps),
        f"{last.seconds:.1f}",
        f"{last.seconds / last.report.steps * 1e9:.0f}",
        counted,
        f"{last.memory:.0f}",
        str(last.report.points),
        str(contexts.report.contexts),
        first_routine([run.path for run in runs]),
        refused.calls(bench, sizes[0]),
    ]


def chosen(names: Sequence[str]) -> list[Recipe]:
    """The recipes of these names, or all; the first word of a name is enough."""
    unknown = set(names) - {name for recipe in RECIPES for name in (recipe.name, recipe.name.split()[0])}
    if unknown:
        every = ", ".join(recipe.name.split()[0] for recipe in RECIPES)
        raise SystemExit(f"{host.script()}: no program {min(unknown)}; there are {every}")
    return [recipe for recipe in RECIPES if not names or {recipe.name, recipe.name.split()[0]} & set(names)]


def scales(text: str) -> list[int]:
    """The sizes of --sizes, in rising order."""
    found = sorted({int(word) for word in text.split(",")})
    if found[0] < 1:
        raise ValueError("a size is at least 1")
    return found


def add_places(to: argparse.ArgumentParser) -> None:
    """Adds the options of the program and of the folder."""
    to.add_argument("--program", metavar="PATH", type=host.program, default=str(host.PROGRAM), help="the built aprof")
    folder = host.TOP / "build/real"
    to.add_argument("--folder", metavar="PATH", type=Path, default=folder, help="of sources, guests and reports")


def options_of(words: Sequence[str]) -> argparse.Namespace:
    """The options of the command line."""
    parser = host.parser(__doc__)
    parser.add_argument("--only", metavar="NAME", action="append", default=[], help="this program alone; may be repeated")
    parser.add_argument("--sizes", type=scales, default=[1, 10, 100], help="1,10,100 unless given")
    add_places(parser)
    parser.add_argument("--no-host", dest="with_host", action="store_false", help="without callgrind, which takes the most time")
    return parser.parse_args(words)


def main(words: Sequence[str]) -> int:
    """Prints the table; the status is 1 where a program is left out."""
    options = options_of(words)
    recipes, folder = chosen(options.only), options.folder.resolve()
    with_host = options.with_host and shutil.which("valgrind") is not None
    if with_host != options.with_host:
        print(f"{host.script()}: host instructions are not counted: no valgrind (Debian's package valgrind)", file=sys.stderr)
    building.compiler()
    building.fetch(recipes, folder / "sources")
    left_out = []
    print(row([cell.format(sizes=", ".join(map(str, options.sizes))) for cell in HEADING]))
    print("|" + "---|" * len(HEADING), flush=True)
    for recipe in recipes:
        try:
            guest = building.build(recipe, folder / "sources", folder / "guests")
            bench = GuestBench(options.program, recipe, guest, folder / "runs" / guest.name)
            name = f"{recipe.name} ({building.version(recipe, folder / 'sources')})"
            print(row([name, *measure(bench, options.sizes, with_host)]), flush=True)
        except building.LeftOut as reason:
            left_out.append(f"{recipe.name} is left out: {reason}")
    print("".join(f"\n{line}" for line in left_out))
    return 1 if left_out else 0
