#!/usr/bin/env python3
"""bench/run.py [PROGRAM]: times the built program on guests of its own, each at two lengths of run, and prints the steps,
the seconds, the nanoseconds for a step, and how these compare with the first guest's. Growth with the length of a run shows
as a second ratio above the first. Each time is the least of three runs.

bench/run.py --long [PROGRAM] times one run each of some 100 million steps, and tells its most memory.

bench/run.py --host [PROGRAM] counts the host's instructions for one of the guest's in place of time: by callgrind, as the
difference of two lengths of run, so that neither the start of the program nor the machine's load changes the figure;
docs/PERFORMANCE.md has a table of them. Where clang is installed, the last row is of the C source that bench/peers.py
compares. With --contexts or --cache all this is of the command `contexts`, or `cache` with 64 sets of 8 lines of 64 bytes,
in place of `run`."""
from __future__ import annotations

import argparse
import shutil
import tempfile
from collections.abc import Callable
from dataclasses import dataclass
from pathlib import Path

import host
import peers
from guests import ECALL, EXIT, RETURN, STACK, add, addi, branch, image, jal, lw, number, sw
from host import Bench


def counting(steps: int) -> list[int]:
    """A loop of two instructions."""
    return number(8, steps // 2) + [addi(8, 8, -1), branch(1, 8, 0, -4)] + EXIT


def straight(steps: int) -> list[int]:
    """A loop of 2048 instructions behind one another: eight KiB of code, in three pages."""
    body = [addi(10, 10, 1)] * 2048 + [addi(8, 8, -1)]
    return number(8, steps // 2051) + body + [branch(0, 8, 0, 8), jal(0, -4 * (len(body) + 1))] + EXIT


def calling(steps: int) -> list[int]:
    """A loop that calls an empty routine."""
    loop = [jal(1, 24), addi(8, 8, -1), branch(1, 8, 0, -8)]
    return number(8, steps // 4) + loop + EXIT + [RETURN]


def renumbering(steps: int) -> list[int]:
    """A loop that calls a routine which stores a word of the stack and loads it: each call takes a new stamp."""
    loop = [jal(1, 24), addi(8, 8, -1), branch(1, 8, 0, -8)]
    routine = [sw(8, 0, 6), lw(10, 0, 6), RETURN]
    return number(8, steps // 6) + number(6, STACK) + loop + EXIT + routine


def touching(steps: int, pages: int) -> list[int]:
    """A loop that loads and stores one word of each of some pages of the stack, one after another."""
    # x9 walks down from x6, a page at a time, to x7
    begin = number(8, steps // 5) + number(6, STACK) + number(7, STACK - 4096 * pages) + number(5, -4096) + [addi(9, 6, 0)]
    loop = [add(9, 9, 5), branch(1, 9, 7, 8), addi(9, 6, 0), lw(10, 0, 9), sw(10, 0, 9), addi(8, 8, -1)]
    return begin + loop + [branch(1, 8, 0, -24)] + EXIT


def futex(operation: int, value: int) -> list[int]:
    """The kernel's call on the word at x6; x13 and x17 are set before."""
    return [addi(10, 6, 0), addi(11, 0, operation), addi(12, 0, value), ECALL]


def handing(steps: int) -> list[int]:
    """Two threads that hand a word to each other: each waits while it is the other's, and wakes the other."""
    begin = number(6, STACK) + number(8, steps // 30)
    clone = number(10, 0x10900) + [addi(17, 0, 220), ECALL, addi(13, 0, 0), addi(17, 0, 422)]
    wait, wake = futex(0, 1), futex(1, 1)
    parent = [lw(11, 0, 6), branch(0, 11, 0, 24)] + wait + [jal(0, -24)]
    parent += [addi(11, 0, 1), sw(11, 0, 6)] + wake + [addi(8, 8, -1)]
    parent += [branch(1, 8, 0, -4 * len(parent))] + EXIT
    child = [lw(11, 0, 6), branch(1, 11, 0, 24)] + futex(0, 0) + [jal(0, -24), sw(0, 0, 6)] + wake
    child += [jal(0, -4 * len(child))]
    return begin + clone + [branch(0, 10, 0, 4 * (1 + len(parent)))] + parent + child


def recursing(steps: int) -> list[int]:
    """A loop that calls a routine which calls itself 1000 levels deep."""
    routine = [addi(2, 2, -16), sw(1, 0, 2), branch(0, 10, 0, 12), addi(10, 10, -1), jal(1, -16)]
    routine += [lw(1, 0, 2), addi(2, 2, 16), RETURN]
    loop = [addi(10, 0, 1000), jal(1, 24), addi(8, 8, -1), branch(1, 8, 0, -12)]
    return number(8, steps // 8000) + loop + EXIT + routine


def copying(steps: int) -> list[int]:
    """A loop that reads 64 KiB from standard input and writes them again."""
    begin = number(8, steps // 8) + number(11, STACK) + number(12, 65536)
    loop = [addi(10, 0, 0), addi(17, 0, 63), ECALL, addi(10, 0, 1), addi(17, 0, 64), ECALL, addi(8, 8, -1)]
    return begin + loop + [branch(1, 8, 0, -4 * len(loop))] + EXIT


@dataclass(frozen=True)
class Guest:
    """A guest by the steps that it makes, some number of steps, and the options of its runs."""

    name: str
    make: Callable[[int], list[int]]
    steps: int
    options: tuple[str, ...] = ()


TIMED = [
    Guest("a loop", counting, 5_000_000),
    Guest("calls and returns", calling, 20_000),
    Guest("loads and stores, 1 page", lambda steps: touching(steps, 1), 20_000),
    Guest("loads and stores, 64 pages", lambda steps: touching(steps, 64), 20_000),
    Guest("loads and stores, 1024 pages", lambda steps: touching(steps, 1024), 20_000),
    Guest("two threads and a futex", handing, 20_000),
]
COUNTED = [
    Guest("a loop", counting, 20_000),
    Guest("2048 instructions in a loop", straight, 20_510),
    Guest("a load and a store, 1 page", lambda steps: touching(steps, 1), 20_000),
    Guest("a load and a store, 1024 pages", lambda steps: touching(steps, 1024), 20_000),
    Guest("calls and returns", calling, 2_000),
    Guest("recursion, 1000 deep", recursing, 8_000),
    Guest("two threads and a futex", handing, 20_000),
    Guest("64 KiB read and written", copying, 32),
    Guest("calls that store and load, stamps of 8 bits", renumbering, 20_000, ("--stamps", "8")),
]
"""The guests whose host instructions are counted. A row is left out where the program refuses its options."""
LONG = [
    Guest("a loop", counting, 100_000_000),
    Guest("calls and returns, 25 million calls", calling, 100_000_000),
    Guest("a load and a store, 1 page", lambda steps: touching(steps, 1), 100_000_000),
]


def count_row(bench: Bench, name: str, guests: tuple[bytes, bytes], options: tuple[str, ...] = ()) -> None:
    """Prints the host's instructions for one of the guest's, from the shorter to the longer of two runs."""
    few, many = (bench.cost(guest, options) for guest in guests)
    print(f"| {name} | {few.steps} to {many.steps} | {many.beyond(few).a_step:.0f} |", flush=True)


def mixed(rounds: int, folder: Path) -> bytes:
    """The executable of bench/peers/mixed.c."""
    return peers.build(folder, rounds).guest.read_bytes()


def count(bench: Bench) -> None:
    """Prints the host's instructions for one of the guest's."""
    print("| Guest | Steps | Host instructions a step |")
    print("|---|---|---|")
    for guest in COUNTED:
        if guest.options and bench.refuses(guest.options):
            print(f"| {guest.name} | | not with this program |", flush=True)
            continue
        lengths = image(guest.make(guest.steps)), image(guest.make(2 * guest.steps))
        count_row(bench, guest.name, lengths, guest.options)
    if shutil.which("clang"):
        count_row(bench, "bench/peers/mixed.c", (mixed(1, bench.folder), mixed(2, bench.folder)))


def measure(bench: Bench) -> None:
    """Prints the time of each guest, the least of three."""
    first = None
    print("| Guest | Steps | Seconds | ns a step | to the first |")
    print("|---|---|---|---|---|")
    for guest in TIMED:
        for length in (guest.steps, 2 * guest.steps):
            code = image(guest.make(length))
            seconds = min(bench.seconds(code) for _ in range(3))
            made = bench.steps()
            nanoseconds = seconds / made * 1e9
            first = first or nanoseconds
            print(f"| {guest.name} | {made} | {seconds:.3f} | {nanoseconds:.0f} | {nanoseconds / first:.1f} |", flush=True)


def long_runs(bench: Bench) -> None:
    """Prints the time and the memory of long runs."""
    print("| Guest | Steps | Seconds | ns a step | Memory |")
    print("|---|---|---|---|---|")
    for guest in LONG:
        ended = host.run(bench.prepared(image(guest.make(guest.steps))), every=0.02)
        if ended.status:
            raise SystemExit(f"{host.script()}: {guest.name} ended with status {ended.status}")
        made = bench.steps()
        times = f"{ended.clock:.1f} | {ended.clock / made * 1e9:.0f}"
        print(f"| {guest.name} | {made} | {times} | {ended.memory / 1024:.1f} MiB |", flush=True)


def options_of() -> argparse.Namespace:
    """The words of the command line."""
    parser = host.parser(__doc__)
    table, command = parser.add_mutually_exclusive_group(), parser.add_mutually_exclusive_group()
    table.add_argument("--host", dest="table", action="store_const", const=count, help="count the host's instructions")
    table.add_argument("--long", dest="table", action="store_const", const=long_runs, help="time long runs")
    command.add_argument("--contexts", dest="command", action="store_const", const=host.CONTEXTS, help="of `contexts`")
    command.add_argument("--cache", dest="command", action="store_const", const=host.CACHE, help="of `cache`")
    parser.set_defaults(table=measure, command=host.RUN)
    host.add_program(parser)
    return parser.parse_args()


def main() -> None:
    """Prints a table."""
    options = options_of()
    with tempfile.TemporaryDirectory() as folder:
        options.table(Bench(options.program, Path(folder), options.command))


if __name__ == "__main__":
    main()
