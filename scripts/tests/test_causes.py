"""Where the cost of a routine comes from, in the terminal."""
from __future__ import annotations

import unittest
from collections.abc import Callable

from aprof_show.detail import detail
from aprof_show.joining import join
from aprof_show.model import Profile
from aprof_show.rows import rows_of
from aprof_show.table import Choice, summary
from tests.samples import ADDRESSES, Call, Run, report_of

SIZES = (8, 16, 32, 64, 128)


def profile_of(tree: Callable[[int], Call], contexts: bool = True) -> Profile:
    run = Run([Call("main", 9, 1, [tree(size) for size in SIZES])], ADDRESSES)
    return join([report_of(run.text(contexts))])


def loop_over_strlen(n: int) -> Call:
    return Call("parse", n, n, [Call("leaf", n, 4 * n) for _ in range(n)])


def through_a_list(n: int) -> Call:
    """As a symbol table that is a list: all but a little is in comparisons of short words."""
    return Call("parse", n, n, [Call("look_up", k, k, [Call("compare", 2, 9) for _ in range(k)]) for k in range(2, n)])


def comparisons(n: int) -> Call:
    return Call("parse", n, n, [Call("compare", 2, 9) for _ in range(n * n)])


def by_two_ways(n: int) -> Call:
    return Call("parse", n, 1, [Call("spin", n, 1, [Call("leaf", n, 2 * n * n)]), Call("leaf", n, n * n), Call("look_up", n, 2 * n * n)])


def recursive(n: int) -> Call:
    inner = Call("parse", n // 2, 1, [Call("leaf", n // 2, n * n)])
    return Call("parse", n, 1, [Call("leaf", n, n * n), inner])


def mutual(n: int) -> Call:
    """`leaf` lies in two calls of `parse`, and counts once."""
    return Call("parse", n, 1, [Call("spin", n, n, [Call("parse", n // 2, 1, [Call("leaf", n, n * n)])])])


def never_returned() -> Profile:
    """What `main` spends its cost in returned in another thread alone."""
    main = Call("main", 9, 1, [Call("parse", 9, 1, [Call("leaf", 2, 1000)], open=True)])
    run = Run([Call("spin", 9, 1, [Call("parse", n, n) for n in SIZES]), main], ADDRESSES, end="budget")
    return join([report_of(run.text(contexts=True))])


def own(n: int) -> Call:
    return Call("parse", n, n * n, [Call("leaf", n, n)])


def scattered(n: int) -> Call:
    return Call("parse", n, 1, [Call(name, n, n * n) for name in ("look_up", "leaf", "spin", "helper@1", "helper@2")])


# the calls, the routine, its cause, the part there in percent, and the calls of it
CASES: list[tuple[Callable[[int], Call], str, str | None, int, int]] = [
    (loop_over_strlen, "parse", "leaf", 100, 248),
    (through_a_list, "parse", "look_up", 100, 238),
    (through_a_list, "look_up", "compare", 90, 10783),
    (through_a_list, "compare", None, 0, 0),
    (comparisons, "parse", "compare", 100, 21824),
    (by_two_ways, "parse", "leaf", 60, 10),
    (recursive, "parse", "leaf", 100, 10),
    (mutual, "parse", "leaf", 99, 5),
    (own, "parse", None, 0, 0),
    (own, "main", "parse", 100, 5),
    (scattered, "parse", None, 0, 0),
]


class Causes(unittest.TestCase):
    def test_cases(self) -> None:
        for tree, name, wanted, part, calls in CASES:
            with self.subTest(tree.__name__, name=name):
                row = next(row for row in rows_of(profile_of(tree)) if row.routine.name == name)
                if wanted is None:
                    self.assertIsNone(row.cause)
                    continue
                assert row.cause
                self.assertEqual((row.cause.routine.name, row.cause.calls), (wanted, calls))
                self.assertAlmostEqual(100 * row.cause.part, part, delta=1)
                self.assertIn(f" of its cost is in {wanted} with its callees, called {calls} times", " ".join("\n".join(detail(row, 80)).split()))

    def test_table(self) -> None:
        """Behind the name where there is room, else in the next line; of the first routine and of superlinear ones."""
        profile = profile_of(through_a_list)
        for room, lines in ((80, 2), (140, 1), (60, 2)):
            with self.subTest(room=room):
                text = summary(profile, rows_of(profile), Choice(by="growth"), room)
                self.assertEqual(sum("100% in look_up, 238 calls, each about linear" in line for line in text), 1)
                self.assertFalse(any("in compare" in line for line in text))
                place = next(number for number, line in enumerate(text) if " parse" in line)
                self.assertIn("(100% in look_up, 238 calls, each about linear)", text[place + lines - 1])
                self.assertLessEqual(max(map(len, text)), max(room, 80))
        first = summary(profile, rows_of(profile), Choice(by="share"), 80)
        self.assertIn("in look_up", first[3] + first[4])

    def test_a_cause_that_never_returned(self) -> None:
        rows = rows_of(never_returned())
        main = next(row for row in rows if row.routine.entry == ADDRESSES["main"])
        self.assertIn("100.0% of its cost so far is in parse with its callees, still open", " ".join(detail(main, 200)))
        self.assertIn("(100% in parse, still open)", "\n".join(summary(never_returned(), [main], Choice(), 200)))

    def test_without_contexts(self) -> None:
        self.assertTrue(all(row.cause is None for row in rows_of(profile_of(through_a_list, contexts=False))))


if __name__ == "__main__":
    unittest.main()
