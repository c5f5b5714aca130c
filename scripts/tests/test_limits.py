"""What `--fail-above` judges, and what it says of the rest."""
from __future__ import annotations

import tempfile
import unittest
from dataclasses import replace
from pathlib import Path

from tests.samples import ADDRESSES, Call, Run
from tests.test_command import show
from tests.test_words import warned

SIZES = [256 << step for step in range(7)]
RISING = Run([Call("main", 9, 1, [Call("look_up", size, 40 * size + size * size // 100) for size in SIZES])], ADDRESSES)
CUT_OFF = Run([Call("main", 9, 1, [Call("parse", 9, 9), Call("look_up", 9, 9, open=True)])], ADDRESSES, end="budget")


class Limits(unittest.TestCase):
    def paths(self, contexts: bool, *runs: Run) -> list[str]:
        folder = tempfile.TemporaryDirectory()
        self.addCleanup(folder.cleanup)
        for number, run in enumerate(runs):
            Path(folder.name, f"r{number}").write_text(run.text(contexts))
        return [str(Path(folder.name, f"r{number}")) for number in range(len(runs))]

    def test_what_it_rises_to_is_judged(self) -> None:
        paths = self.paths(False, RISING)
        text = show(*paths, "--fail-above", "3.2", status=1)
        self.assertRegex(text, r"^look_up grows x3\.1, rising to x3\.[3-9], above x3\.2 \(")
        self.assertEqual(show(*paths, "--fail-above", "4"), "")
        self.assertRegex(show(*paths, "--fail-above", "2.1", status=1), r"^look_up grows x3\.1, above x2\.1 \(")

    def test_a_call_that_had_not_returned(self) -> None:
        """It is warned of the run, and of a named routine, as far as the report tells."""
        told = "look_up had not returned at the end of {}, so that call is not judged"
        plain = "{} has no call of look_up that returned, and 2 calls that had not: what they cost is not judged"
        for contexts, said in ((True, told), (False, plain)):
            with self.subTest(contexts=contexts):
                paths = self.paths(contexts, RISING, CUT_OFF)
                run = f"show: warning: {paths[1]} (budget) did not end with exit code 0: what is missing there is not judged\n"
                one = f"show: warning: {said.format(paths[1])}\n"
                self.assertEqual(warned(*paths, "--fail-above", "9", "--routine", "look_up"), run + one)
                one = "show: warning: parse has at most one size other than 0, so its growth is not known, and not judged\n"
                self.assertEqual(warned(*paths, "--fail-above", "9", "--routine", "parse"), run + one)
                self.assertEqual(warned(*paths, "--fail-above", "9"), run)

    def test_runs_that_did_not_end_well(self) -> None:
        runs = [replace(RISING, end="exit 3"), RISING, *[CUT_OFF] * 3]
        self.assertRegex(
            warned(*self.paths(False, *runs), "--fail-above", "9"),
            r"^show: warning: [^ ]*r0 \(exit 3\), [^ ]*r2 \(budget\), [^ ]*r3 \(budget\) and 1 more did not end with exit code 0: ",
        )

    def test_a_name_that_changed(self) -> None:
        """What is named as it was before is judged as it is now, though its short name is another."""
        names = {name: 0x10000 + 16 * place for place, name in enumerate(("main", "_ZN1QI1AE3popEv", "_ZN1QI1BE3popEv"))}
        growing = [Call("_ZN1QI1AE3popEv", size, size * size) for size in SIZES]
        old, new = Run([Call("main", calls=growing)], names), Run([Call("main", calls=[*growing, Call("_ZN1QI1BE3popEv")])], names)
        paths = self.paths(False, old, new)
        self.assertIn("Q<A>::pop grows x4.0", show("--against", *paths, "--fail-above", "3", "Q<>::pop", status=1))

    def test_what_is_not_judged(self) -> None:
        """Routines of one size where there is one report, and those of uncertain growth."""
        many = Run([Call(name, 9, 1000) for name in ("main", "parse", "look_up", "leaf")], ADDRESSES)
        said = "main, parse, look_up and 1 more have at most one size other than 0, so not judged: give reports of several inputs\n"
        self.assertEqual(warned(*self.paths(False, many), "--fail-above", "9"), f"show: warning: {said}")
        self.assertEqual(warned(*self.paths(False, many, many), "--fail-above", "9", "--min", "0"), "")
        two = [Run([Call("main", size, size * size)], ADDRESSES) for size in (100, 200)]
        paths = self.paths(False, *two)
        told = "1 routine of uncertain growth above x2.5 not counted: give more sizes, or name them\n"
        self.assertEqual(show(*paths, "--fail-above", "2.5"), told)
        self.assertEqual(show(*paths, "--fail-above", "4.5"), "")


if __name__ == "__main__":
    unittest.main()
