"""Why a routine is superlinear whose cost is spread over calls that look harmless, and where that isn't shown."""
from __future__ import annotations

import unittest
from collections.abc import Callable

from aprof_show.detail import detail
from aprof_show.joining import join
from aprof_show.model import Profile
from aprof_show.rows import Row, rows_of
from aprof_show.table import Choice, summary
from tests.samples import ADDRESSES, Call, Run, report_of
from tests.test_causes import SIZES, comparisons, profile_of, recursive, through_a_list

NUMBER = "so it is the number of calls that grows"
NUMBER_AND_SIZE = "so it is their number, and perhaps what each of them reads, that grows"
NUMBER_OR_SIZE = "so it is the number of calls, or what each of them reads, that grows"


def scans(n: int) -> Call:
    """Each call reads as much as the whole input has, which the routine wrote before."""
    return Call("parse", n, n, [Call("look_up", 2 * n, 4 * n) for _ in range(n)])


def to_the_end(n: int) -> Call:
    """Each call walks one of eight lists to its end, and its fixed cost and the routine's own work hide the square."""
    return Call("parse", n, 150 * n, [Call("look_up", k // 8 + 8, 150 + k // 2) for k in range(n)])


def own_square(n: int) -> Call:
    """What grows with the square is its own work, beside many calls."""
    return Call("parse", n, n * n // 5, [Call("look_up", k % 64 + 8, 3 * (k % 64) + 150) for k in range(n)])


def short_scans(n: int) -> Call:
    """Their number grows with the square, and each reads a few words."""
    return Call("parse", n, n, [Call("look_up", k % 16 + 4, 3 * (k % 16 + 4)) for k in range(n * n)])


def a_table(n: int) -> Call:
    """One call that reads a table of n squared words, which the routine made."""
    return Call("parse", n, n, [Call("look_up", n * n, 4 * n * n)])


def squares(n: int) -> Call:
    return Call("parse", n, n, [Call("look_up", n, 3 * n * n)])


def own_work(n: int) -> Call:
    """What grows is its own work; the callee has half of the cost today, and is called once."""
    return Call("parse", n, n * n // 4, [Call("look_up", n, 24 * n)])


def linear(n: int) -> Call:
    return Call("parse", n, n, [Call("look_up", 2, 9) for _ in range(n)])


def through_one(n: int) -> Call:
    return Call("parse", n, 1, [Call("spin", n, n, [Call("look_up", k, 4 * k) for k in range(2, n)])])


def through_two(n: int) -> Call:
    return Call("parse", n, 1, [*through_one(n).calls, Call("leaf", n, n, [Call("look_up", n, 4 * n)]), Call("look_up", n, 4 * n)])


# the calls, and the sentence on `parse`, or what it ends with where nothing is shown
CASES: list[tuple[Callable[[int], Call], str]] = [
    (through_a_list, f"called 238 times; each of those calls is about linear in its own input, {NUMBER_AND_SIZE}"),
    (comparisons, f"called 21824 times; each of those calls costs at most 9 instructions, {NUMBER}"),
    (short_scans, f"called 21824 times; each of those calls is about linear in its own input, {NUMBER}"),
    (scans, f"called 248 times; each of those calls is about linear in its own input, {NUMBER_OR_SIZE}"),
    (a_table, "called 5 times; each of those calls is about linear in its own input, so it is what each of them reads that grows"),
    (squares, "called 5 times; each of those calls is itself about n^2 in its own input, so look there first"),
    (own_work, "called 5 times"),
    (linear, "called 248 times"),
    (recursive, "called 10 times"),
    (through_one, f"called 238 times, indirectly through spin; each of those calls is about linear in its own input, {NUMBER_AND_SIZE}"),
    (through_two, f"called 248 times, directly and through spin and 1 other; each of those calls is about linear in its own input, {NUMBER_AND_SIZE}"),
]


def row_of(profile: Profile, name: str) -> Row:
    return next(row for row in rows_of(profile) if row.routine.name == name)


def sentence(row: Row) -> str:
    text = " ".join(" ".join(detail(row, 80)).split())
    return text[text.index("called ") : text.index(" growth ")]


class Reasons(unittest.TestCase):
    def test_cases(self) -> None:
        for tree, wanted in CASES:
            with self.subTest(tree.__name__):
                self.assertEqual(sentence(row_of(profile_of(tree), "parse")), wanted)

    def test_marks(self) -> None:
        """The culprit has a sign, and only where its number is what grows."""
        for tree, is_marked in ((through_a_list, True), (scans, True), (a_table, False), (squares, False), (linear, False)):
            with self.subTest(tree.__name__):
                profile = profile_of(tree)
                text = summary(profile, rows_of(profile), Choice(all=True), 80)
                self.assertEqual(any(line.startswith("*x2.0") and line.endswith(" look_up") for line in text), is_marked)
                self.assertEqual(any(line.startswith("* called so often") for line in text), is_marked)

    def test_the_culprit_of_the_library(self) -> None:
        """What the C library's line hides is named with its sign, which is explained."""
        names = ["main", "parse", "_start", "__libc_start_main", "malloc", "free", "strlen"]
        addresses = {name: 0x10000 + 16 * place for place, name in enumerate(names)}
        calls = [Call("parse", n, n, [Call("strlen", n, 4 * n) for _ in range(n)]) for n in SIZES]
        run = Run([Call("_start", 9, 1, [Call("main", 9, 1, [*calls, *map(Call, names[3:6])])])], addresses)
        profile = join([report_of(run.text(contexts=True))])
        text = summary(profile, rows_of(profile), Choice(), 80)
        self.assertIn("marked in the C library: strlen *x2.0 (--library)", text)
        self.assertTrue(any(line.startswith("* called so often") for line in text))

    def test_the_caller_of_the_library(self) -> None:
        """What the library's routines cost counts as that of the program's routine that calls them, where one is below."""
        names = ["main", "parse", "look_up", "_start", "__libc_start_main", "malloc", "free", "strcmp"]
        addresses = {name: 0x10000 + 16 * place for place, name in enumerate(names)}
        compared = [Call("strcmp", 8 + j % 16, 8 + j % 16) for j in range(SIZES[-1])]
        calls = [Call("parse", n, n, [Call("look_up", k, k, compared[:k]) for k in range(2, n)]) for n in SIZES]
        run = Run([Call("_start", 9, 1, [Call("main", 9, 1, [*calls, *map(Call, names[4:7])])])], addresses)
        profile = join([report_of(run.text(contexts=True))])
        for name, wanted in (("main", "look_up"), ("parse", "look_up"), ("look_up", "strcmp")):
            with self.subTest(name):
                cause = row_of(profile, name).cause
                assert cause
                self.assertEqual(cause.routine.name, wanted)
        same = [Call("parse", 9, 1, [Call("look_up", 5, 1, [Call("strcmp", 8 + j % 16, 99) for j in range(9)])])]
        run = Run([Call("_start", 9, 1, [Call("main", 9, 1, [*same, *map(Call, names[4:7])])])], addresses)
        cause = row_of(join([report_of(run.text(contexts=True))]), "parse").cause
        self.assertTrue(cause and cause.routine.name == "look_up")
        text = summary(profile, rows_of(profile), Choice(), 80)
        self.assertTrue(any(line.startswith("*x2.0") and line.endswith(" look_up") for line in text))

    def test_one_call_in_each_report(self) -> None:
        """Then their whole cost is known by the size of that call, and tells where one report of all calls doesn't."""
        trees = [(to_the_end, NUMBER_AND_SIZE), (own_square, "called 1984 times"), (linear, "called 1984 times")]
        for tree, wanted in trees:
            calls = [tree(n) for n in (64, 128, 256, 512, 1024)]
            apart = join([report_of(Run([Call("main", 9, 1, [call])], ADDRESSES).text(contexts=True)) for call in calls])
            whole = join([report_of(Run([Call("main", 9, 1, calls)], ADDRESSES).text(contexts=True))])
            with self.subTest(tree.__name__):
                self.assertTrue(sentence(row_of(apart, "parse")).endswith(wanted))
                self.assertEqual(sentence(row_of(whole, "parse")), "called 1984 times")

    def test_several_reports(self) -> None:
        """A report for each input says the same as one of all."""
        reports = [report_of(Run([Call("main", 9, 1, [through_a_list(n)])], ADDRESSES).text(contexts=True)) for n in SIZES]
        self.assertIn(NUMBER_AND_SIZE, sentence(row_of(join(reports), "parse")))


if __name__ == "__main__":
    unittest.main()
