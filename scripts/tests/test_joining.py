"""Joined reports are the report of one longer run, point by point."""
from __future__ import annotations

import random
import unittest
from dataclasses import replace

from aprof_show.against import paired
from aprof_show.costs import contexts_of, costs_by_routine, costs_of
from aprof_show.heading import head, open_lines
from aprof_show.joining import join, join_caches
from aprof_show.model import CacheReport, Context, Point, Profile, Routine
from aprof_show.rows import rows_of
from tests.samples import ADDRESSES, Call, Run, random_call, read_text, report_of, stored

MOVED = {name: address + 4 * (place + 1) for place, (name, address) in enumerate(ADDRESSES.items())}


def tell(profile: Profile) -> dict[str, list[Point]]:
    return {f"{routine.entry:08x} {routine.name}": routine.points for routine in profile.routines}


def chains(profile: Profile) -> list[tuple[tuple[str | None, ...], list[Point]]]:
    def chain(context: Context) -> tuple[str | None, ...]:
        return (*(chain(context.caller) if context.caller else ()), f"{context.routine.entry:x}")

    return [(chain(context), context.points) for context in contexts_of(profile.roots or [])]


class OneLongerRun(unittest.TestCase):
    """Threads of one run, and the same threads as a run each, of one image."""

    def test_random_runs(self) -> None:
        for seed in range(40):
            for version, contexts, names in ((1, False, True), (2, True, True), (2, True, False)):
                with self.subTest(seed=seed, version=version, names=names):
                    chance = random.Random(seed)
                    threads = [random_call(chance) for _ in range(4)]
                    whole = join([report_of(Run(threads, ADDRESSES, names).text(contexts, version))])
                    texts = [Run([thread], ADDRESSES, names).text(contexts, version) for thread in threads]
                    joined = join([report_of(text) for text in texts])
                    self.assertEqual(tell(joined), tell(whole))
                    self.assertEqual(sorted(chains(joined)), sorted(chains(whole)))
                    self.assertEqual(joined.steps, whole.steps)

    def test_words_twice(self) -> None:
        """Twice the same report: all sums twice, the least and the greatest as they were."""
        report = stored("examples/words/report.txt")
        joined = join([report, stored("examples/words/report.txt")])
        self.assertEqual(joined.steps, 2 * report.steps)
        for routine, twice in zip(report.routines, joined.routines):
            for point, sums in zip(routine.points, twice.points):
                self.assertEqual((sums.size, sums.least, sums.most), (point.size, point.least, point.most))
                self.assertEqual((sums.calls, sums.cost), (2 * point.calls, 2 * point.cost))
                assert sums.parts and point.parts
                self.assertEqual(sums.parts.bare, 2 * point.parts.bare)


class Keys(unittest.TestCase):
    """Which routines are one: by name over images, statics of one name by address or by order, nameless by image."""

    def joined(self, *runs: Run) -> list[Routine]:
        return join([report_of(run.text(), f"r{place}") for place, run in enumerate(runs)]).routines

    def labels(self, *runs: Run) -> dict[str, int]:
        return {routine.label.split("/")[0]: routine.calls for routine in self.joined(*runs)}

    def test_other_image(self) -> None:
        call = Call("main", calls=[Call("helper@1"), Call("helper@2"), Call("helper@2")])
        labels = self.labels(Run([call], ADDRESSES), Run([call], MOVED))
        self.assertEqual(labels, {"main": 2, "helper (00010180)": 2, "helper (000101c0)": 4})

    def test_statics_of_one_image(self) -> None:
        """The second run has only the second of two functions of one name, and the address tells which."""
        both = Call("main", calls=[Call("helper@1"), Call("helper@2")])
        second = Call("main", calls=[Call("helper@2")])
        labels = self.labels(Run([both], ADDRESSES), Run([second], ADDRESSES))
        self.assertEqual(labels, {"main": 2, "helper (00010180)": 1, "helper (000101c0)": 2})

    def test_statics_before_and_after(self) -> None:
        """By address in one image; in two by their order, or not at all where one has fewer. One of its name is paired anyhow."""
        both = Run([Call("main", calls=[Call("helper@1"), Call("helper@2")])], ADDRESSES)
        second = Run([Call("main", calls=[Call("helper@2")])], ADDRESSES)
        names = [name for name in ADDRESSES if not name.startswith("helper")]
        several = Run([Call("main", calls=list(map(Call, [*names[1:], "helper@1", "helper@2"])))], ADDRESSES)
        a_little = ADDRESSES | {"helper@2": ADDRESSES["helper@2"] + 8}
        same = {(f"{ADDRESSES[name]:x}", f"{ADDRESSES[name]:x}") for name in names}
        for old, new, pairs in (
            (both, second, {("10000", "10000"), ("10180", ""), ("101c0", "101c0")}),
            (both, replace(both, addresses=MOVED), {("10000", "10004"), ("10180", "1019c"), ("101c0", "101e0")}),
            (both, replace(second, addresses=MOVED), {("10000", "10004"), ("10180", ""), ("101c0", ""), ("", "101e0")}),
            (several, replace(several, addresses=a_little), {("10180", "10180"), ("101c0", "101c8"), *same}),
        ):
            rows = [rows_of(join([report_of(run.text())])) for run in (old, new)]
            told = {tuple(f"{row.routine.entry:x}" if row else "" for row in (pair.old, pair.new)) for pair in paired(*rows)}
            self.assertEqual(told, pairs)

    def test_caches_of_one_image(self) -> None:
        texts = ("routine 00010180 f\n4 1\nroutine 000101c0 f\n9 2\ndone 2\n", "routine 000101c0 f\n5 3\ndone 1\n")
        caches = [read_text(f"aprof cache 1\nend exit 0\nsteps 9\n{text}") for text in texts]
        joined = join_caches([cache for cache in caches if isinstance(cache, CacheReport)])
        told = [(routine.entry, routine.accesses, routine.misses) for routine in joined.routines]
        self.assertEqual(told, [(0x10180, 4, 1), (0x101C0, 14, 5)])

    def test_caches_of_two_images(self) -> None:
        """What has no name there is told by its report; in one image another report has its name."""
        texts = ("00010180 f|4 1|routine 000101c0 -|9 2|done 2|", "00010180 g|4 1|routine 000101c0 -|5 3|done 2|", "000101c0 h|1 1|done 1|")
        caches = [read_text("aprof cache 1|end exit 0|steps 9|routine ".replace("|", "\n") + text.replace("|", "\n")) for text in texts]
        first, second, third = [replace(cache, path=f"c{n}") for n, cache in enumerate(caches) if isinstance(cache, CacheReport)]
        told = [(routine.name, routine.apart, routine.accesses) for routine in join_caches([first, second]).routines]
        self.assertEqual(told, [("f", None, 4), (None, "c0", 9), ("g", None, 4), (None, "c1", 5)])
        told = [(routine.name, routine.apart, routine.accesses) for routine in join_caches([first, third]).routines]
        self.assertEqual(told, [("f", None, 4), ("h", None, 10)])

    def test_without_names(self) -> None:
        call = Call("main", calls=[Call("leaf")])
        stripped = Run([call], ADDRESSES, False)
        self.assertEqual(self.labels(stripped, stripped), {"00010000": 2, "00010100": 2})
        self.assertEqual(len(self.joined(stripped, Run([call], ADDRESSES))), 4)

    def test_a_report_without_parts(self) -> None:
        call = Call("main", 3)
        new, old = report_of(Run([call], ADDRESSES).text()), report_of(Run([call], ADDRESSES).text(version=1))
        self.assertIsNone(join([new, old]).routines[0].points[0].parts)

    def test_contexts_with_a_plain_report(self) -> None:
        run = Run([Call("main")], ADDRESSES)
        self.assertIsNone(join([report_of(run.text(True)), report_of(run.text())]).roots)


class CutOff(unittest.TestCase):
    """A run that was cut off, joined with others that were not."""

    WHOLE = Run([Call("main", 9, 7, [Call("parse", 4, 60, [Call("leaf", own=30)])])], ADDRESSES)
    CUT = Run([Call("main", 9, 7, [Call("parse", 4, 60, [Call("leaf", own=900), Call("leaf", open=True)])])], ADDRESSES, end="budget")

    def joined(self, *runs: Run) -> Profile:
        return join([report_of(run.text(True), f"r{place}") for place, run in enumerate(runs)])

    def test_costs_are_known_by_report(self) -> None:
        """What the finished runs tell of own costs stays, and what they cost is added to the least that is sure of the other."""
        profile = self.joined(self.WHOLE, self.CUT)
        costs = costs_by_routine(profile.roots or [], costs_of(profile.roots or []))
        told = {routine.name: (cost.total, cost.own, cost.open) for routine, cost in costs.items()}
        self.assertEqual(told, {"main": (97 + 900, 7, True), "parse": (90 + 900, 60, True), "leaf": (930, 930, False)})

    def test_a_name_that_another_report_has(self) -> None:
        """A routine that never returned in a run is nameless there, and is one with that of the other run."""
        self.assertEqual([routine.label for routine in self.joined(self.CUT, self.WHOLE).routines], ["main", "parse", "leaf"])
        other = Run([Call("main", calls=[Call("parse"), Call("leaf")])], MOVED)
        self.assertEqual(len(self.joined(self.CUT, other).routines), 5)

    def test_the_ends_tell_their_reports(self) -> None:
        self.assertEqual(head(self.joined(self.WHOLE, self.CUT, self.WHOLE))[0].split(", ")[2:4], ["end exit 0 (2)", "end budget (1)"])
        lines = head(self.joined(self.WHOLE, self.CUT, self.WHOLE))[1:]
        self.assertRegex("".join(lines), r"^end budget: [^ ]*r1$")
        many = head(self.joined(*[self.CUT] * 5, *[self.WHOLE] * 6))[1:]
        self.assertRegex("".join(many), r"^end budget: [^ ]*r0, [^ ]*r1, [^ ]*r2 and 2 more$")
        self.assertEqual(head(self.joined(self.CUT, self.CUT))[1:], [])

    def test_open_calls_are_counted_by_report(self) -> None:
        """The calls of both runs stand in the chain; in each run one more is open, of a routine that had returned there."""
        lines = open_lines(self.joined(self.CUT, self.CUT, self.WHOLE), 200)
        self.assertEqual(lines[0], "open at the end: main > parse")
        self.assertTrue(lines[-1].startswith("2 more open calls are in no stack: "))
