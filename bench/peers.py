#!/usr/bin/env python3
"""bench/peers.py [--runs N] [PROGRAM] [--only NAME ...]: one C source, built for the host and for the guest, under the host
itself, under callgrind, under qemu-riscv32 one instruction at a time (Debian's qemu-user, where it is installed), and under
aprof. The four run in turn, so many times, so that what else the machine does slows all of them. Prints for each the
instructions that it ran of the source, and the seconds of the clock and of the processor: the least, the median and the
greatest; and in how many turns aprof took less of the processor than callgrind. All are of the source alone: the least time
of a source that does nothing is taken off. --only leaves out the others; the names are host, callgrind, aprof and qemu."""
from __future__ import annotations

import re
import shutil
import statistics
import subprocess
import tempfile
from collections.abc import Callable, Sequence
from dataclasses import dataclass
from pathlib import Path

import host
from host import TOP, Ended, Word

SOURCE = TOP / "bench/peers/mixed.c"
OPTIONS = ["-O1", "-fno-inline", "-fno-builtin", "-fno-optimize-sibling-calls", "-fno-unroll-loops"]
GUEST = ["--target=riscv32", "-march=rv32ima", "-mabi=ilp32", "-static", "-nostdlib", "-ffreestanding", "-fuse-ld=lld"]
ROUNDS = 400
QEMU = "qemu, one at a time"
OF_THE_GUEST = ("aprof", QEMU)
NAMES = {"host": "the host", "callgrind": "callgrind", "aprof": "aprof", "qemu": QEMU}
"""What each is called on the command line, and in the table."""

Commands = dict[str, list[Word]]
Pairs = Sequence[tuple[Ended, Ended]]
"""Short and long runs of one command."""


@dataclass(frozen=True)
class Built:
    """The executables of one source, for the host and for the guest."""

    native: Path
    guest: Path


@dataclass(frozen=True)
class Times:
    """The least, the median and the greatest of some times, in seconds."""

    least: float
    median: float
    greatest: float

    @staticmethod
    def beyond(few: Sequence[float], many: Sequence[float]) -> Times:
        """Of long runs, less the least of the short ones."""
        start = min(few)
        return Times(min(many) - start, statistics.median(many) - start, max(many) - start)

    def told(self, digits: int, scale: float = 1.0) -> str:
        """All three times the scale."""
        return ", ".join(f"{time * scale:.{digits}f}" for time in (self.least, self.median, self.greatest))


def build(folder: Path, rounds: int) -> Built:
    """Builds the source so that it goes so many rounds."""
    built, define = Built(folder / f"native-{rounds}", folder / f"guest-{rounds}"), f"-DROUNDS={rounds}"
    subprocess.run(["clang", *OPTIONS, "-DNATIVE", define, "-o", built.native, SOURCE], check=True)
    subprocess.run(["clang", *GUEST, *OPTIONS, "-I", TOP / "examples", define, "-o", built.guest, SOURCE], check=True)
    return built


def peers(program: Path, built: Built) -> Commands:
    """The command line of each."""
    found: Commands = {
        "the host": [built.native],
        "callgrind": ["valgrind", "--tool=callgrind", "--callgrind-out-file=callgrind.out", built.native],
        "aprof": [program, "run", "-o", "r", built.guest],
    }
    if shutil.which("qemu-riscv32"):
        found[QEMU] = ["qemu-riscv32", "-singlestep", built.guest]
    return found


def chosen(found: Commands, only: Sequence[str]) -> Commands:
    """Those of the commands that are named, or all where none is."""
    for name in only:
        if NAMES[name] not in found:
            raise SystemExit(f"{host.script()}: no {name} here")
    names = [NAMES[name] for name in only] or list(found)
    return {name: words for name, words in found.items() if name in names}


def first_number(pattern: str, file: Path) -> int:
    """The number that the pattern finds in a file."""
    found = re.search(pattern, file.read_text())
    if found is None:
        raise SystemExit(f"{host.script()}: nothing in {file} is like {pattern}")
    return int(found[1])


def instructions(folder: Path) -> int:
    """What callgrind counted last."""
    return first_number(r"(?:summary|totals): (\d+)", folder / "callgrind.out")


def steps(folder: Path) -> int:
    """What aprof counted last."""
    return first_number(r"steps (\d+)", folder / "r")


def run(words: Sequence[Word], folder: Path) -> Ended:
    """Runs a command that has to end with status 0."""
    ended = host.run(words, folder=folder, stderr=subprocess.DEVNULL)
    if ended.status:
        raise SystemExit(f"{host.script()}: {words[0]} ended with status {ended.status}")
    return ended


def in_turn(few: Commands, many: Commands, folder: Path, runs: int) -> dict[str, list[tuple[Ended, Ended]]]:
    """So many short and long runs of each, one of each after the other."""
    ended: dict[str, list[tuple[Ended, Ended]]] = {name: [] for name in many}
    for _ in range(runs):
        for name, pairs in ended.items():
            pairs.append((run(few[name], folder), run(many[name], folder)))
    return ended


def count_beyond(few: Sequence[Word], many: Sequence[Word], folder: Path, count: Callable[[Path], int]) -> int:
    """How many instructions a command runs more than a shorter one."""
    counts = []
    for words in (few, many):
        run(words, folder)
        counts.append(count(folder))
    return counts[1] - counts[0]


def processor_seconds(pairs: Pairs) -> list[float]:
    """Of each long run, less the least of the short ones."""
    start = min(short.processor for short, _ in pairs)
    return [long.processor - start for _, long in pairs]


def won(pairs: Pairs, others: Pairs) -> int:
    """In how many turns the first took less of the processor."""
    return sum(one < other for one, other in zip(processor_seconds(pairs), processor_seconds(others)))


def compare(program: Path, folder: Path, runs: int, only: Sequence[str]) -> None:
    """Prints the table."""
    few, many = (peers(program, build(folder, rounds)) for rounds in (0, ROUNDS))
    told = chosen(many, only)
    of_guest, of_host = any(name in OF_THE_GUEST for name in told), any(name not in OF_THE_GUEST for name in told)
    guests = count_beyond(few["aprof"], many["aprof"], folder, steps) if of_guest else 0
    natives = count_beyond(few["callgrind"], many["callgrind"], folder, instructions) if of_host else 0
    print("| Under | Instructions | Seconds of the clock | of the processor | ns of the processor an instruction |")
    print("|---|---|---|---|---|")
    ended = in_turn(few, told, folder, runs)
    for name, pairs in ended.items():
        clock = Times.beyond(*zip(*((short.clock, long.clock) for short, long in pairs)))
        processor = Times.beyond(*zip(*((short.processor, long.processor) for short, long in pairs)))
        ran = guests if name in OF_THE_GUEST else natives
        print(f"| {name} | {ran} | {clock.told(3)} | {processor.told(3)} | {processor.told(1, 1e9 / ran)} |", flush=True)
    if "aprof" in ended and "callgrind" in ended:
        less = won(ended["aprof"], ended["callgrind"])
        print(f"\naprof took less of the processor than callgrind in {less} of {runs} pairs")


def main() -> None:
    """Compares in a folder that is removed."""
    parser = host.parser(__doc__)
    parser.add_argument("--runs", type=host.positive, default=3, metavar="N", help="how many runs of each; 3 unless given")
    names = ", ".join(NAMES)
    parser.add_argument("--only", nargs="+", choices=NAMES, default=[], metavar="NAME", help=f"only these: {names}")
    host.add_program(parser)
    words = parser.parse_args()
    with tempfile.TemporaryDirectory() as folder:
        compare(words.program, Path(folder), words.runs, words.only)


if __name__ == "__main__":
    main()
