#!/usr/bin/env python3
"""bench/slow.py [--program PATH] [--folder PATH] [--at SCALE] [NAME ...]: compares `aprof run` with the definitions on the
real programs of bench/real.py. It records the trace of each (`aprof trace`), makes the report of that trace as
docs/DEFINITIONS.md says, with no stamps and no sums of frames, and compares its text with the one that `aprof run` stores. A
program whose trace is too large is left out. The status is 1 where a text differs, or none was compared."""
from __future__ import annotations

import argparse
import struct
import sys
from collections.abc import Iterator, Sequence
from dataclasses import dataclass, field

import host
from real import building
from real.command import add_places, chosen
from real.measuring import GuestBench

MAGIC = b"aprof trace 1\n"
STEP, READ, WRITE, FILL, CALL, RETURN, START, END, NAME, LAST = range(1, 11)

# How many numbers of 32 bits follow the first byte of each event.
NUMBERS = {STEP: 1, READ: 3, WRITE: 3, FILL: 2, CALL: 3, RETURN: 2, START: 2, END: 1}

# Who wrote a word last, where it was the kernel.
KERNEL = 0

Record = tuple[int, tuple[int, ...], bytes]


def records(trace: bytes) -> Iterator[Record]:
    """The records of a whole trace: the kind of each, its numbers, and the bytes of a name or of the end."""
    if not trace.startswith(MAGIC):
        raise ValueError("this is no trace")
    shapes = {kind: struct.Struct(f"<{count}I") for kind, count in NUMBERS.items()}
    at = len(MAGIC)
    while trace[at] in shapes:
        shape = shapes[trace[at]]
        yield trace[at], shape.unpack_from(trace, at + 1), b""
        at += 1 + shape.size
    while trace[at] == NAME:
        entry, size = struct.unpack_from("<II", trace, at + 1)
        yield NAME, (entry,), trace[at + 9 : at + 9 + size]
        at += 9 + size
    yield LAST, (), trace[at + 1 :]


@dataclass
class Activation:
    """An open activation: when it began, at how many steps of its thread, and what its reads came to so far."""

    entry: int
    back: int | None
    began: int
    steps: int
    plain: int = 0
    thread: int = 0
    kernel: int = 0
    bare: int = 0


@dataclass
class Point:
    """The activations of a routine of one size."""

    costs: list[int] = field(default_factory=list)
    parts: list[int] = field(default_factory=lambda: [0, 0, 0, 0])


@dataclass
class Thread:
    """A live thread: its open activations, the outermost first; its steps; and when it accessed each word last."""

    calls: list[Activation] = field(default_factory=list)
    steps: int = 0
    accessed: dict[int, int] = field(default_factory=dict)


class Profile:
    """The profile of a trace so far. The time of an event is its number."""

    def __init__(self) -> None:
        self.time = 0
        self.steps = 0
        self.threads: dict[int, Thread] = {}
        self.written: dict[int, tuple[int, int]] = {}  # when and by whom each word was written last
        self.points: dict[int, dict[int, Point]] = {}

    def read(self, tid: int, word: int) -> None:
        """A read of one word. It counts in each activation that began after the last touch, if that was the thread's own or there
        was none, and in each if it was another's; in bare, where the thread's last access was before the activation."""
        thread = self.threads[tid]
        own = thread.accessed.get(word, -1)
        at, writer = self.written.get(word, (-1, tid))
        foreign = at > own and writer != tid
        for call in reversed(thread.calls):
            unknown = own < call.began
            if not unknown and not foreign:
                break
            call.bare += unknown
            if not foreign:
                call.plain += 1
            elif writer == KERNEL:
                call.kernel += 1
            else:
                call.thread += 1
        thread.accessed[word] = self.time

    def end(self, thread: Thread, count: int) -> None:
        """The innermost activations of a thread end, so many."""
        for _ in range(count):
            call = thread.calls.pop()
            size = call.plain + call.thread + call.kernel
            point = self.points.setdefault(call.entry, {}).setdefault(size, Point())
            point.costs.append(thread.steps - call.steps)
            for k, part in enumerate((call.plain, call.thread, call.kernel, call.bare)):
                point.parts[k] += part

    def begin(self, tid: int, entry: int, back: int | None) -> None:
        """An activation begins."""
        thread = self.threads[tid]
        thread.calls.append(Activation(entry, back, self.time, thread.steps))

    def ended_by(self, tid: int, target: int) -> int:
        """How many activations a return ends: the innermost with that return address and all inside it, or none."""
        calls = self.threads[tid].calls
        return next((n + 1 for n, call in enumerate(reversed(calls)) if call.back == target), 0)

    def take(self, kind: int, numbers: tuple[int, ...]) -> None:
        """The next event."""
        self.time += 1
        if kind == FILL:
            self.written.update((word, (self.time, KERNEL)) for word in range(numbers[0], sum(numbers)))
            return
        tid, *rest = numbers
        if kind == STEP:
            self.threads[tid].steps += 1
            self.steps += 1
        elif kind == START:
            self.threads[tid] = Thread()
            self.begin(tid, rest[0], None)
        elif kind == END:
            thread = self.threads.pop(tid)
            self.end(thread, len(thread.calls))
        elif kind == CALL:
            self.begin(tid, rest[0], rest[1])
        elif kind == RETURN:
            self.end(self.threads[tid], self.ended_by(tid, rest[0]))
        elif kind == READ:
            for word in range(rest[0], sum(rest)):
                self.read(tid, word)
        else:
            self.written.update((word, (self.time, tid)) for word in range(rest[0], sum(rest)))
            self.threads[tid].accessed.update((word, self.time) for word in range(rest[0], sum(rest)))

    def pending(self) -> int:
        """How many activations are open."""
        return sum(len(thread.calls) for thread in self.threads.values())


def last_line(end: bytes) -> str:
    """How a run ended, of those ends that a real program has."""
    if end[0] != 0:
        raise ValueError("the run did not come to its end")
    return f"end exit {struct.unpack_from('<I', end, 1)[0]}"


def report_of(trace: bytes) -> str:
    """The report of a trace, by the definitions."""
    profile, names, ended = Profile(), dict[int, str](), ""
    for kind, numbers, tail in records(trace):
        if kind == NAME:
            names[numbers[0]] = tail.decode()
        elif kind == LAST:
            ended = last_line(tail)
        else:
            profile.take(kind, numbers)
    lines = ["aprof 2", ended, f"steps {profile.steps}", f"open {profile.pending()}"]
    for entry, sizes in sorted(profile.points.items()):
        lines.append(f"routine {entry:08x} {names.get(entry, '-')}")
        for size, point in sorted(sizes.items()):
            told = [size, len(point.costs), min(point.costs), max(point.costs), sum(point.costs), *point.parts]
            lines.append(" ".join(map(str, told)))
    return "\n".join([*lines, f"done {len(profile.points)}", ""])


def compare(bench: GuestBench, scale: int) -> str:
    """What a program's report by the definitions is beside the stored one."""
    run = bench.run("run", scale)
    trace = bench.folder / "trace"
    trace.unlink(missing_ok=True)
    ended = host.run(bench.words("trace", scale, trace.name), folder=bench.folder)
    if ended.status or not trace.exists():
        raise building.LeftOut(f"aprof trace ended with {ended.status}")
    same = report_of(trace.read_bytes()) == run.path.read_text()
    told = f"{run.report.steps} steps, {trace.stat().st_size} bytes of trace, {run.report.points} points"
    return f"{'the same' if same else 'DIFFERS'}: {told}"


def options_of(words: Sequence[str]) -> argparse.Namespace:
    """The words of the command line."""
    parser = host.parser(__doc__)
    parser.add_argument("names", metavar="NAME", nargs="*", help="these programs alone")
    add_places(parser)
    parser.add_argument("--at", metavar="SCALE", type=host.positive, default=1, help="the size of the input; 1 unless given")
    return parser.parse_args(words)


def main(words: Sequence[str]) -> int:
    """Compares one program after another."""
    options = options_of(words)
    recipes, folder = chosen(options.names), options.folder.resolve()
    building.compiler()
    building.fetch(recipes, folder / "sources")
    compared, differs = 0, False
    for recipe in recipes:
        try:
            guest = building.build(recipe, folder / "sources", folder / "guests")
            bench = GuestBench(options.program, recipe, guest, folder / "runs" / guest.name)
            told = compare(bench, options.at)
            compared += 1
            differs |= told.startswith("DIFFERS")
        except building.LeftOut as reason:
            told = f"left out: {reason}"
        print(f"{recipe.name}: {told}", flush=True)
    return 1 if differs or not compared else 0


if __name__ == "__main__":
    sys.exit(main(sys.argv[1:]))
