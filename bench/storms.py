#!/usr/bin/env python3
"""bench/storms.py [PROGRAM]: guests that repeat what could cost much: each as host instructions for one of the guest's, by
callgrind, as the difference of two lengths of run, beside a plain instruction; and the ticks of 8 bits, by open calls and
pages. bench/storms.py --long [PROGRAM] times a million open calls with as many returns, matched and not."""
from __future__ import annotations

import argparse
import tempfile
from collections.abc import Callable, Sequence
from dataclasses import dataclass
from pathlib import Path

import host
from guests import BEQ, BNE, EXIT, RETURN, STACK, Code, add, addi, image, jalr, lw, number, slli, sw, syscall
from host import Bench, Cost

NR_YIELD, NR_EXIT, NR_CLONE, NR_MUNMAP, NR_MMAP, NR_READV, NR_SLEEP = 124, 93, 220, 215, 222, 65, 407
THREAD = 0x10900
"""clone's flags of a thread: CLONE_VM, CLONE_SIGHAND, CLONE_THREAD."""


def again(code: Code, counter: int, label: str) -> None:
    """Goes on at the label as often as the register counts."""
    code.put(addi(counter, counter, -1))
    code.branch(BNE, counter, 0, label)


def plain(rounds: int) -> list[int]:
    """A loop of two instructions."""
    code = Code(number(8, rounds))
    code.label("loop")
    again(code, 8, "loop")
    code.put(*EXIT)
    return code.finish()


def returning(rounds: int, target: str) -> list[int]:
    """So many open calls, and then as many returns: to the call, or behind the return, where no call returns to."""
    code = Code(number(8, rounds) + number(9, rounds) + [addi(10, 0, 0)])
    code.label("open")
    code.jump(1, "called")
    code.label("called")
    code.branch(BNE, 10, 0, "behind")
    again(code, 8, "open")
    code.put(addi(10, 0, 1))
    code.address(5, target)
    code.label("return")
    code.put(jalr(0, 5))
    code.label("behind")
    again(code, 9, "return")
    code.put(*EXIT)
    return code.finish()


def matched(rounds: int) -> list[int]:
    return returning(rounds, "called")


def unmatched(rounds: int) -> list[int]:
    return returning(rounds, "behind")


def ticking(rounds: int, depth: int, pages: int) -> list[int]:
    """Calls of a routine by one that lies so deep, after a word of each of some pages was written: each call is a tick."""
    code = Code(number(6, STACK) + number(5, -4096) + number(9, pages))
    code.label("page")
    code.put(sw(9, 0, 6), add(6, 6, 5))
    again(code, 9, "page")
    code.put(*number(9, depth - 2))
    code.label("open")
    code.jump(1, "opened")
    code.label("opened")
    again(code, 9, "open")
    code.put(*number(8, rounds))
    code.label("loop")
    code.jump(1, "leaf")
    again(code, 8, "loop")
    code.put(*EXIT)
    code.label("leaf")
    code.put(RETURN)
    return code.finish()


def cloning(rounds: int) -> list[int]:
    """Threads that begin and end, one after another."""
    code = Code(number(8, rounds))
    code.label("loop")
    code.put(*number(10, THREAD), *syscall(NR_CLONE))
    code.branch(BEQ, 10, 0, "child")
    code.put(*syscall(NR_YIELD))
    again(code, 8, "loop")
    code.put(*EXIT)
    code.label("child")
    code.put(*syscall(NR_EXIT))
    return code.finish()


def sleeping(rounds: int) -> list[int]:
    """Thirty-two threads that sleep to the same times, a millisecond apart: at most 999 rounds."""
    code = Code(number(8, rounds) + number(18, 31) + number(6, STACK))
    code.label("clone")
    code.put(addi(6, 6, 32), *number(10, THREAD), *syscall(NR_CLONE))
    code.branch(BEQ, 10, 0, "sleeper")
    again(code, 18, "clone")
    code.put(addi(6, 6, 32))
    code.label("sleeper")
    code.put(*number(20, 1_000_000), addi(19, 0, 0))
    code.label("loop")
    code.put(add(19, 19, 20), sw(0, 0, 6), sw(0, 4, 6), sw(19, 8, 6))
    code.put(addi(10, 0, 1), addi(11, 0, 1), addi(12, 6, 0), addi(13, 0, 0), *syscall(NR_SLEEP))
    again(code, 8, "loop")
    code.put(*syscall(NR_EXIT))
    return code.finish()


def mmap(size: int) -> list[int]:
    """The kernel's call that maps `size` bytes anywhere."""
    arguments = [addi(10, 0, 0), *number(11, size), addi(12, 0, 3), addi(13, 0, 0x22), addi(14, 0, -1), addi(15, 0, 0)]
    return arguments + syscall(NR_MMAP)


def mapping(rounds: int) -> list[int]:
    """A page is mapped and unmapped."""
    code = Code(number(8, rounds))
    code.label("loop")
    code.put(*mmap(4096), *syscall(NR_MUNMAP))
    again(code, 8, "loop")
    code.put(*EXIT)
    return code.finish()


def mapping_behind(rounds: int) -> list[int]:
    """The same where 13000 pages are mapped, over which the search for a free one goes."""
    code = Code(number(8, rounds) + mmap(13000 * 4096))
    code.label("loop")
    code.put(*mmap(4096), *syscall(NR_MUNMAP))
    again(code, 8, "loop")
    code.put(*EXIT)
    return code.finish()


def overmapping(rounds: int) -> list[int]:
    """More is asked for than can be mapped."""
    code = Code(number(8, rounds))
    code.label("loop")
    code.put(*mmap(0x3E000000))
    again(code, 8, "loop")
    code.put(*EXIT)
    return code.finish()


def unmapping(rounds: int) -> list[int]:
    """327680 pages are unmapped, of which none is mapped."""
    code = Code(number(8, rounds))
    code.label("loop")
    code.put(*number(10, 0x20000000), *number(11, 0x50000000), *syscall(NR_MUNMAP))
    again(code, 8, "loop")
    code.put(*EXIT)
    return code.finish()


def rewriting(rounds: int) -> list[int]:
    """The next instruction is written anew before each time that it runs."""
    code = Code(number(8, rounds))
    code.address(7, "next")
    code.put(lw(6, 0, 7))
    code.label("loop")
    code.put(sw(6, 0, 7))
    code.label("next")
    code.put(addi(9, 9, 1))
    again(code, 8, "loop")
    code.put(*EXIT)
    return code.finish()


def scattering(rounds: int) -> list[int]:
    """Reads of 1024 bytes of standard input into as many parts."""
    code = Code(number(8, rounds) + number(6, STACK) + number(7, STACK + 0x10000) + number(9, 1024) + [addi(5, 0, 1)])
    code.label("part")
    code.put(sw(7, 0, 6), sw(5, 4, 6), addi(6, 6, 8), addi(7, 7, 2))
    again(code, 9, "part")
    code.label("loop")
    code.put(addi(10, 0, 0), *number(11, STACK), addi(12, 0, 1), slli(12, 12, 10), *syscall(NR_READV))
    again(code, 8, "loop")
    code.put(*EXIT)
    return code.finish()


@dataclass(frozen=True)
class Storm:
    """A guest by its rounds, the lesser of the two numbers of rounds, and the bytes that a round moves."""

    name: str
    make: Callable[[int], list[int]]
    rounds: int
    moved: int = 0


STORMS = [
    Storm("a loop, to compare", plain, 10_000),
    Storm("returns of open calls", matched, 5_000),
    Storm("returns that match no open call", unmatched, 5_000),
    Storm("threads that begin and end", cloning, 500),
    Storm("32 threads that sleep to the same times", sleeping, 50),
    Storm("a page mapped and unmapped", mapping, 500),
    Storm("the same behind 13000 mapped pages", mapping_behind, 50),
    Storm("more mapped than there may be", overmapping, 500),
    Storm("327680 free pages unmapped", unmapping, 50),
    Storm("the next instruction written anew", rewriting, 5_000),
    Storm("reads of 1024 parts of a byte", scattering, 20, 1024),
]
TICKS = [(depth, pages) for pages in (1, 64, 1024) for depth in (10, 40, 60, 84)]
"""Open calls with the routine's, and pages."""


def more(bench: Bench, make: Callable[[int], list[int]], rounds: int, options: Sequence[str] = ()) -> Cost:
    """What twice as many rounds cost more."""
    few, many = (bench.cost(image(make(n)), options) for n in (rounds, 2 * rounds))
    return many.beyond(few)


def storms(bench: Bench) -> None:
    """Prints the cost of each guest."""
    print("| Guest | Host instructions a step | to a plain one | a byte |\n|---|---|---|---|")
    plain_one = 0.0
    for storm in STORMS:
        cost = more(bench, storm.make, storm.rounds)
        plain_one = plain_one or cost.a_step
        by_byte = f"{cost.host / (storm.rounds * storm.moved):.0f}" if storm.moved else ""
        print(f"| {storm.name} | {cost.a_step:.0f} | {cost.a_step / plain_one:.1f} | {by_byte} |", flush=True)


def ticks(bench: Bench) -> None:
    """Prints the cost of a tick of 8 bits."""
    rounds = 300
    print("\n| Open calls | Pages | Host instructions a tick |\n|---|---|---|")
    for depth, pages in TICKS:
        cost = more(bench, lambda n: ticking(n, depth, pages), rounds, ["--stamps", "8"])
        print(f"| {depth} | {pages} | {cost.host / rounds:.0f} |", flush=True)


def long_runs(bench: Bench) -> None:
    """Prints the time of a million open calls and their returns."""
    for name, make in (("matched", matched), ("unmatched", unmatched)):
        seconds = bench.seconds(image(make(1_000_000)))
        print(f"a million open calls and as many {name} returns: {seconds:.2f} s", flush=True)


def options_of() -> argparse.Namespace:
    """The words of the command line."""
    parser = host.parser(__doc__)
    parser.add_argument("--long", action="store_true", help="time a million open calls and their returns")
    host.add_program(parser)
    return parser.parse_args()


def main() -> None:
    """Prints the tables."""
    options = options_of()
    with tempfile.TemporaryDirectory() as folder:
        bench = Bench(options.program, Path(folder))
        if options.long:
            long_runs(bench)
        else:
            storms(bench)
            ticks(bench)


if __name__ == "__main__":
    main()
