"""What is listed, and in which order."""
from __future__ import annotations

import unittest
from collections.abc import Callable
from dataclasses import replace

from aprof_show.joining import join
from aprof_show.library import musl_names
from aprof_show.model import Profile
from aprof_show.rows import Row, ordered, rows_of
from aprof_show.table import Choice, projected, summary
from tests.profiles import sample
from tests.samples import Call, Run, report_of, stored

SIZES = (8, 16, 32, 64, 128)


def profile_of(curves: dict[str, Callable[[int], int]], rest: int = 0, contexts: bool = False) -> Profile:
    """A `main` that calls each routine at the sizes; a routine `a/b` is called by `a`, which adds a tenth."""
    calls = []
    for name, curve in curves.items():
        outer, _, inner = name.partition("/")
        for size in SIZES:
            cost = max(curve(size), 1)
            plain, nested = Call(outer, size, cost), Call(outer, size, max(cost // 10, 1), [Call(inner, size, cost)])
            calls.append(nested if inner else plain)
    names = ["main", *{part: None for name in curves for part in name.split("/")}]
    addresses = {name: 0x10000 + 16 * place for place, name in enumerate(names)}
    return join([report_of(Run([Call("main", 9, rest + 1, calls)], addresses).text(contexts))])


def order(profile: Profile, by: str | None = None) -> list[str]:
    return [row.routine.label for row in ordered(rows_of(profile), by)]


def row_of(profile: Profile, name: str) -> Row:
    return next(row for row in rows_of(profile) if row.routine.label == name)


class Order(unittest.TestCase):
    def test_growth_and_share(self) -> None:
        """A little quadratic routine is before a linear one with much more, and one that will never cost anything is behind it."""
        profile = profile_of({"linear": lambda n: 400 * n, "square": lambda n: n * n, "tiny": lambda n: n * n // 400})
        self.assertEqual(order(profile), ["square", "linear", "tiny", "main"])

    def test_the_inner_routine_first(self) -> None:
        for contexts in (False, True):
            profile = profile_of({"outer/inner": lambda n: n * n}, contexts=contexts)
            self.assertEqual(order(profile), ["inner", "outer", "main"])

    def test_noise_is_behind(self) -> None:
        """Three close sizes that grow steeply, as in the allocator, are not before a routine that surely grows."""
        report = stored("examples/words/report.txt")
        labels = order(join([report]))
        self.assertLess(labels.index("qsort"), labels.index("printf"))
        self.assertLess(labels.index("count_file"), labels.index("malloc"))

    def test_given_orders(self) -> None:
        profile = profile_of({"b": lambda n: n * n, "a": lambda n: 900 * n}, contexts=True)
        self.assertEqual(order(profile, "name"), ["a", "b", "main"])
        self.assertEqual(order(profile, "share"), ["main", "a", "b"])
        self.assertEqual(order(profile, "self"), ["a", "b", "main"])
        self.assertEqual(order(profile, "growth"), ["b", "a", "main"])


class Listed(unittest.TestCase):
    def test_superlinear_whatever_its_share(self) -> None:
        profile = profile_of({"square": lambda n: n * n // 40, "even": lambda n: n}, rest=10_000_000)
        rows = rows_of(profile)
        self.assertEqual([row.routine.label for row in rows if Choice().has(row)], ["main", "square"])
        self.assertEqual([row.routine.label for row in rows if Choice(least=0.01).has(row)], ["main"])
        self.assertEqual(len([row for row in rows if Choice(all=True).has(row)]), 3)
        self.assertIn("and 1 routine of at most 0.0% with callees: --all", summary(profile, rows, Choice(), 80))

    def test_input_of_another_thread_is_told(self) -> None:
        told = "another thread wrote 70.0% of the input of square_block: --by thread shows this part"
        profile = sample()
        self.assertIn(told, summary(profile, rows_of(profile), Choice(all=True), 80))
        self.assertNotIn(told, summary(profile, rows_of(profile), Choice(all=True, by="thread"), 80))

    def test_most_in_one_call(self) -> None:
        """Where nothing is marked, that several runs tell more is said; else what is marked tells enough."""
        told = "main has one call: the reports of several inputs, shown together, tell how it grows"
        for cost, is_told in ((lambda n: n, True), (lambda n: n * n, False)):
            profile = profile_of({"grows": cost}, rest=10_000_000)
            self.assertEqual(told in summary(profile, rows_of(profile), Choice(), 100), is_told)

    def test_projected(self) -> None:
        row = row_of(profile_of({"square": lambda n: n * n}), "square")
        for times, delta in ((2, 0.05), (10, 0.15)):
            estimate = projected(row, times)
            assert estimate is not None
            self.assertAlmostEqual(estimate / times**2 / 128**2, 1, delta=delta)
        wide = summary(profile_of({"square": lambda n: n * n}), [row], Choice(), 120)
        self.assertIn("ESTIMATE ESTIMATE", wide[1])
        self.assertIn("AT 10x", wide[2])

    def test_a_remark_gives_way_to_the_name(self) -> None:
        long = "read_all_of_the_standard_input"
        profile = profile_of({"square": lambda n: n * n, long: lambda n: 9}, contexts=True)
        rows = [replace(row, growth=None) for row in rows_of(profile)]
        for room, wanted in ((100, f"{long}  (one size)"), (88, long), (80, "read_all_o...dard_input")):
            with self.subTest(room=room):
                text = summary(profile, rows, Choice(all=True, by="thread"), room)
                self.assertTrue(any(line.endswith(f" {wanted}") for line in text), "\n".join(text))

    def test_library(self) -> None:
        """The user's `find` and `printf` stay, as something of the user's is behind them; the library's are folded."""
        names = ["main", "printf", "find", "_start", "__libc_start_main", "malloc", "free", "memcpy"]
        self.assertTrue(set(names[3:]) <= musl_names())
        addresses = {name: 0x10000 + 16 * place for place, name in enumerate(names)}
        calls = [Call(name) for name in names[1:]]
        profile = join([report_of(Run([Call("main", calls=calls)], addresses).text())])
        self.assertEqual({row.routine.label for row in rows_of(profile) if row.library}, set(names[3:]))
        alone = join([report_of(Run([Call("malloc", calls=calls[3:])], addresses).text())])
        self.assertFalse(any(row.library for row in rows_of(alone)))

    def test_the_library_of_cxx(self) -> None:
        """What is in `std` is the library's wherever it stands: a program's own objects have its templates."""
        own = ["main", "_ZN5store3getEi", "_ZN5StoreC2Ev", "_ZN3nowEv", "_ZZ4mainENK3$_0clEv"]
        library = ["_ZNSt3__16vectorIiE3endEv", "_ZNKSt3__16vectorIiE3endEv", "_ZSt9terminatev", "_ZThn8_NSt3__16streamD1Ev"]
        library += ["_Znwj", "_Znaj", "_ZdlPv", "_ZdaPv", "__cxa_atexit", "_ZN10__cxxabiv112__unexpectedEv"]
        addresses = {name: 0x10000 + 16 * place for place, name in enumerate([*library, *own])}
        profile = join([report_of(Run([Call("main", calls=list(map(Call, [*library, *own])))], addresses).text())])
        self.assertEqual({row.routine.name for row in rows_of(profile) if row.library}, set(library))
        self.assertIn(f"and {len(library)} C++ library routines", "\n".join(summary(profile, rows_of(profile), Choice(), 80)))

    def test_the_library_goes_on_behind_that_of_cxx(self) -> None:
        """An initialiser of C++ doesn't end it, and the program's own one is no part of it."""
        names = ["main", "_GLOBAL__sub_I_main.cpp", "_start", "malloc", "_GLOBAL__I_000100", "_ZNSt3__14initEv", "free", "memcpy"]
        addresses = {name: 0x10000 + 16 * place for place, name in enumerate(names)}
        profile = join([report_of(Run([Call("main", calls=list(map(Call, names)))], addresses).text())])
        self.assertEqual({row.routine.name for row in rows_of(profile) if row.library}, set(names[2:]))
