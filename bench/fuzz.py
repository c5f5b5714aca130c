#!/usr/bin/env python3
"""bench/fuzz.py [PROGRAM [RUNS [SEED]]]: runs the built program on executables that are broken in one to four places, 100000
of them unless RUNS says otherwise: the built guests of examples/ and the smallest guest, with fields of the file header, of
program and section headers and of symbols changed, bytes changed or left out, and headers written over others. Each run has
to end by a status of the table, at most 2 seconds after it began and in at most 300 MiB. It prints how often each status
came, the slowest run and the greatest memory that was seen (it is read every 2 ms), and keeps each file that broke a rule in a
folder that it names. Its own status is then 1."""
from __future__ import annotations

import argparse
import random
import resource
import struct
import subprocess
import sys
import tempfile
from collections import Counter
from collections.abc import Iterator, Sequence
from dataclasses import dataclass, field
from pathlib import Path

import host
from host import TOP, Ended, Word

SECONDS = 2.0
LONGEST = 20.0
"""Seconds of the clock after which a run is killed. A signal is no status of the table."""
MEMORY = 300 << 20
STATUSES = {0, 3, 5, 6, 7, 8, 11}
EXAMPLES = ("bubble", "mutex", "queue", "reader", "routines", "words")
GUESTS = [TOP / "crates/aprof/data/img", *(TOP / "examples" / name / name for name in EXAMPLES)]

FILE_HEADER = [(16, 2), (18, 2), (20, 4), (24, 4), (28, 4), (32, 4), (36, 4), *((at, 2) for at in range(40, 52, 2))]
"""Offset and size of the fields of a file's header."""
WORDS_OF_A_HEADER = {"program": 8, "section": 10, "symbol": 4}
FORMS = {1: "<B", 2: "<H", 4: "<I"}
EDGES = [0, 1, 2, 4, 0x10, 0x34, 0x7F, 0xFF, 0xFFF, 0x1000, 0x10000]
EDGES += [0x7FFFF000, 0x7FFFFFFF, 0x80000000, 0xFFFFF000, 0xFFFFFFFF]


def number_at(data: bytes | bytearray, at: int, size: int) -> int:
    """The number at an offset, or 0 behind the end."""
    return int(struct.unpack_from(FORMS[size], data, at)[0]) if at + size <= len(data) else 0


def put(data: bytearray, at: int, size: int, value: int) -> None:
    """Writes the low bytes of a number at an offset, or nothing behind the end."""
    if at + size <= len(data):
        struct.pack_into(FORMS[size], data, at, value % (1 << 8 * size))


def tables(data: bytes | bytearray) -> list[tuple[str, int]]:
    """The headers and the symbols of the file: the kind of each, and where it begins."""
    found = [("program", number_at(data, 28, 4) + 32 * i) for i in range(min(number_at(data, 44, 2), 64))]
    sections = [number_at(data, 32, 4) + 40 * i for i in range(min(number_at(data, 48, 2), 64))]
    found += [("section", at) for at in sections]
    for at in sections:
        if number_at(data, at + 4, 4) == 2:
            begin, size = number_at(data, at + 16, 4), number_at(data, at + 20, 4)
            found += [("symbol", begin + 16 * i) for i in range(min(size // 16, 256))]
    return [(kind, at) for kind, at in found if at + 4 * WORDS_OF_A_HEADER[kind] <= len(data)]


def value_near(rng: random.Random, old: int, size: int) -> int:
    """A number to write in place of an old one, in a file of this size."""
    near = [old + 1, old - 1, old * 2, old // 2, old ^ 1 << rng.randrange(32), size, size - 1, size + 1]
    return rng.choice([*EDGES, *near, rng.getrandbits(32)])


def break_field(rng: random.Random, data: bytearray, at: int, size: int) -> None:
    """Changes the number at an offset."""
    put(data, at, size, value_near(rng, number_at(data, at, size), len(data)))


def break_once(rng: random.Random, data: bytearray) -> None:
    """Breaks the file in one place."""
    kinds = tables(data)
    way = rng.randrange(10)
    if way < 2:
        break_field(rng, data, *rng.choice(FILE_HEADER))
    elif way < 7 and kinds:
        kind, at = rng.choice(kinds)
        break_field(rng, data, at + 4 * rng.randrange(WORDS_OF_A_HEADER[kind]), 4)
    elif way < 8 and kinds:
        kind, at = rng.choice(kinds)
        _, other = rng.choice([pair for pair in kinds if pair[0] == kind])
        size = 4 * WORDS_OF_A_HEADER[kind]
        data[at : at + size] = data[other : other + size]
    elif way < 9 and data:
        data[rng.randrange(len(data))] = rng.getrandbits(8)
    else:
        del data[rng.randrange(len(data) + 1) :]


def broken(rng: random.Random, files: Sequence[bytes]) -> bytes:
    """One of the files, broken in one to four places."""
    data = bytearray(rng.choice(files))
    for _ in range(rng.choice([1, 1, 2, 3, 4])):
        break_once(rng, data)
    return bytes(data)


def limit() -> None:
    """What the child does before it becomes the program. After 10 seconds of the processor the kernel ends it by a signal."""
    resource.setrlimit(resource.RLIMIT_AS, (MEMORY, MEMORY))
    resource.setrlimit(resource.RLIMIT_CPU, (10, 10))


def runs(program: Path, files: Iterator[bytes]) -> Iterator[tuple[bytes, Ended]]:
    """Each file, and how its run ended."""
    words: list[Word] = [program, "run", "--budget", "200000", "-o", "r", "img", "=word"]
    with tempfile.TemporaryDirectory() as made:
        folder = Path(made)
        for data in files:
            (folder / "img").write_bytes(data)
            yield data, host.run(words, folder=folder, stderr=subprocess.DEVNULL, every=0.002, before=limit, longest=LONGEST)


@dataclass
class Tally:
    """What the runs come to: how often each status came, the slowest and the largest, and how many broke a rule."""

    statuses: Counter[int] = field(default_factory=Counter)
    slowest: float = 0.0
    largest: int = 0
    wrong: int = 0

    def add(self, ended: Ended) -> bool:
        """Counts a run, and says whether it broke a rule."""
        self.statuses[ended.status] += 1
        self.slowest, self.largest = max(self.slowest, ended.clock), max(self.largest, ended.memory)
        is_wrong = ended.status not in STATUSES or ended.clock > SECONDS
        self.wrong += is_wrong
        return is_wrong


def fuzz(program: Path, count: int, seed: int) -> int:
    """Makes so many runs, tells of them, and returns how many broke a rule."""
    rng, files = random.Random(seed), [path.read_bytes() for path in GUESTS]
    tally, kept = Tally(), Path(tempfile.mkdtemp(prefix="fuzz-"))
    for number, (data, ended) in enumerate(runs(program, (broken(rng, files) for _ in range(count)))):
        if tally.add(ended):
            (kept / f"{number}-status-{ended.status}").write_bytes(data)
    for status, times in sorted(tally.statuses.items()):
        print(f"status {status:3}: {times}")
    print(f"slowest {tally.slowest:.3f} s, most memory {tally.largest / 1024:.1f} MiB, seed {seed}")
    print(f"{tally.wrong} runs broke a rule{f': their files are in {kept}' if tally.wrong else ''}")
    if not tally.wrong:
        kept.rmdir()
    return tally.wrong


def options_of() -> argparse.Namespace:
    """The words of the command line."""
    parser = host.parser(__doc__)
    host.add_program(parser)
    parser.add_argument("runs", metavar="RUNS", nargs="?", type=host.positive, default=100_000, help="100000 unless given")
    parser.add_argument("seed", metavar="SEED", nargs="?", type=int, default=1, help="1 unless given")
    return parser.parse_args()


def main() -> int:
    """The status is 1 where a run broke a rule."""
    options = options_of()
    return 1 if fuzz(options.program, options.runs, options.seed) else 0


if __name__ == "__main__":
    sys.exit(main())
