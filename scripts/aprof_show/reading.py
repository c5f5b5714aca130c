"""Reads what aprof stores, strictly: a text that aprof would not have written is refused, with its file and line."""
from __future__ import annotations

import re

from aprof_show.model import CacheReport, CacheRoutine, Context, Parts, Point, Report, Routine

DECIMAL = r"(0|[1-9][0-9]{0,38})"
END = r"end (exit [0-9]{1,3}|fault [1-7] [1-9][0-9]{0,6} [0-9a-f]{8}|budget|deadlock|deep|schedule [1-9][0-9]{0,19})"
ROUTINE = re.compile(r"routine ([0-9a-f]{8}) ([!-~]{1,1024})")
CONTEXT = re.compile(rf"context {DECIMAL} ([0-9a-f]{{8}})")
NUMBERS = {1: 5, 2: 9}
POINT = {version: re.compile(" ".join([DECIMAL] * numbers)) for version, numbers in NUMBERS.items()}


class BadReport(Exception):
    """A file that can't be read as what aprof stores."""

    def __init__(self, path: str, line: int, what: str) -> None:
        super().__init__(f"{path}:{line}: {what}")


class NotAReport(BadReport):
    """A file that aprof didn't store, by its begin."""


class Lines:
    """The lines of a file, one after another."""

    def __init__(self, path: str, text: str) -> None:
        self.path = path
        self.lines = text.split("\n")
        self.cut_off = self.lines.pop() != ""
        self.number = 0

    def next(self) -> str:
        if self.at_end():
            self.number += 1
            raise self.bad("the file ends here, before its last line" + " (cut off in a line)" * self.cut_off + ": store it again")
        self.number += 1
        return self.lines[self.number - 1]

    def at_end(self) -> bool:
        return self.number >= len(self.lines)

    def match(self, pattern: str, form: str) -> re.Match[str]:
        found = re.fullmatch(pattern, self.next())
        if not found:
            raise self.bad(f"expected `{form}`")
        return found

    def number_of(self, word: str) -> int:
        value = int(self.match(f"{word} {DECIMAL}", f"{word} N")[1])
        if value >= 2**64:
            raise self.bad("the number has more than 64 bits")
        return value

    def bad(self, what: str) -> BadReport:
        return BadReport(self.path, self.number, what)


def read_file(path: str) -> Report | CacheReport:
    """What a file holds, by its first line."""
    with open(path, encoding="ascii", errors="replace", newline="") as file:
        text = file.read(4096)  # what is no report may have no end
        text += file.read() if text.startswith("aprof") else ""
    if text in ("", "aprof 1", "aprof 2", "aprof cache 1"):
        raise BadReport(path, 1, "not a report of aprof: " + ("its first line has no end" if text else "empty"))
    lines = Lines(path, text)
    first = "" if lines.at_end() else lines.next()
    if first == "aprof cache 1":
        return read_cache(lines)
    if first in ("aprof 1", "aprof 2"):
        return read_report(lines, int(first[-1]))
    if first.startswith("aprof trace"):
        raise lines.bad("this is a trace; `aprof replay -o REPORT TRACE` makes a report of it")
    raise other_version(lines, first) or NotAReport(path, 1, "not a report of aprof, whose first line is `aprof 2`")


def other_version(lines: Lines, first: str) -> BadReport | None:
    """What is said where the first line is nearly that of a report."""
    if first in ("aprof 1\r", "aprof 2\r", "aprof cache 1\r"):
        return lines.bad("its lines end in CR LF, as on Windows; aprof stores LF alone")
    if re.fullmatch(r"aprof (cache )?[0-9]{1,9}", first):
        return lines.bad(f"a report of another version (`{first}`), which the show of the aprof that stored it reads")
    return None


def read_head(lines: Lines) -> tuple[str, int]:
    """How the run ended, and its instructions."""
    end = lines.match(END, "end exit N, or another end")[1]
    if end.startswith("exit ") and (int(end[5:]) > 255 or str(int(end[5:])) != end[5:]):
        raise lines.bad("expected `end exit N`, N up to 255")
    return end, lines.number_of("steps")


def read_report(lines: Lines, version: int) -> Report:
    end, steps = read_head(lines)
    still_open = lines.number_of("open")
    routines = read_routines(lines, version)
    roots = None
    if version == 2 and not lines.at_end() and lines.lines[lines.number] == "contexts 1":
        lines.next()
        known = {routine.entry: routine for routine in routines}
        roots, contexts = read_contexts(lines, known)
        check_sums(lines, known, contexts)
        routines = [known[entry] for entry in sorted(known)]
    check_end(lines)
    return Report(lines.path, end, steps, still_open, routines, roots)


def check_end(lines: Lines) -> None:
    if not lines.at_end() or lines.cut_off:
        lines.number += 1
        raise lines.bad("something stands behind the end of the report")


def read_routines(lines: Lines, version: int) -> list[Routine]:
    routines: list[Routine] = []
    while True:
        line = lines.next()
        if routines and read_point(lines, line, version, routines[-1].points):
            continue
        if routines and not routines[-1].points:
            raise lines.bad(f"expected a point of {NUMBERS[version]} numbers: the routine above has none")
        if line == f"done {len(routines)}":
            return routines
        entry, name = routine_of(lines, line, routines[-1].entry if routines else -1)
        routines.append(Routine(entry, name))


def routine_of(lines: Lines, line: str, before: int) -> tuple[int, str | None]:
    """The entry and the name of a `routine` line, whose entry has to be above `before`."""
    found = ROUTINE.fullmatch(line)
    if not found:
        raise lines.bad("expected a point, `routine ENTRY NAME` or `done` with the number of routines")
    if int(found[1], 16) <= before:
        raise lines.bad("the routines are not in the order of their entries")
    return int(found[1], 16), None if found[2] == "-" else found[2]


def read_point(lines: Lines, line: str, version: int, points: list[Point]) -> bool:
    """Adds the point of a line to those before it; False where the line is of another form."""
    found = POINT[version].fullmatch(line)
    if not found:
        return False
    numbers = [int(number) for number in found.groups()]
    size, calls, least, most, cost = numbers[:5]
    parts = Parts(*numbers[5:]) if version == 2 else None
    if max(size, calls, least, most) >= 2**64 or cost >= 2**128:
        raise lines.bad("a number is too large")
    if calls < 1 or least > most or not calls * least <= cost <= calls * most:
        raise lines.bad("the costs of this point don't fit together")
    if parts and not (parts.own + parts.thread + parts.kernel == size * calls and parts.own <= parts.bare <= size * calls):
        raise lines.bad("the parts of this point don't add up to its sizes")
    if points and size <= points[-1].size:
        raise lines.bad("the points are not in the order of their sizes")
    points.append(Point(size, calls, least, most, cost, parts))
    return True


def read_contexts(lines: Lines, known: dict[int, Routine]) -> tuple[list[Context], list[Context]]:
    """The outermost contexts, and all of them. A routine that is only here, since no call of it returned, is added to `known`."""
    roots: list[Context] = []
    contexts: list[Context] = []
    chain: list[Context] = []
    while True:
        line = lines.next()
        if contexts and read_point(lines, line, 2, contexts[-1].points):
            continue
        if line == f"done {len(contexts)}":
            return roots, contexts
        found = CONTEXT.fullmatch(line)
        if not found or int(found[1]) > len(chain):
            raise lines.bad("expected a point, `context DEPTH ENTRY` or `done` with the number of contexts")
        del chain[int(found[1]) :]
        siblings = chain[-1].callees if chain else roots
        routine = known.setdefault(int(found[2], 16), Routine(int(found[2], 16), None))
        contexts.append(Context(routine, chain[-1] if chain else None))
        siblings.append(contexts[-1])
        chain.append(contexts[-1])


def check_sums(lines: Lines, known: dict[int, Routine], contexts: list[Context]) -> None:
    """The calls and costs of a routine's contexts add up to the routine's, and no caller has a routine twice under it."""
    sums = {entry: [0, 0] for entry in known}
    for context in contexts:
        sums[context.routine.entry][0] += context.calls
        sums[context.routine.entry][1] += context.cost
        if len({callee.routine.entry for callee in context.callees}) < len(context.callees):
            raise lines.bad("a context has two of one routine under it")
    for entry, (calls, cost) in sums.items():
        if (calls, cost) != (known[entry].calls, known[entry].cost):
            raise lines.bad(f"the contexts of {known[entry].label} don't add up to its points")


def read_cache(lines: Lines) -> CacheReport:
    end, steps = read_head(lines)
    routines: list[CacheRoutine] = []
    while (line := lines.next()) != f"done {len(routines)}":
        entry, name = routine_of(lines, line, routines[-1].entry if routines else -1)
        found = lines.match(f"{DECIMAL} {DECIMAL}", "ACCESSES MISSES")
        accesses, misses = int(found[1]), int(found[2])
        if not 1 <= accesses < 2**64 or misses > accesses:
            raise lines.bad("expected at least one access, and no more misses than accesses")
        routines.append(CacheRoutine(entry, name, accesses, misses))
    check_end(lines)
    return CacheReport(lines.path, end, steps, routines)
