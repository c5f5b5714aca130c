"""Folded stacks and Callgrind's format: their totals are those of the report, and callgrind_annotate opens the latter."""
from __future__ import annotations

import random
import shutil
import subprocess
import tempfile
import unittest
from pathlib import Path

from aprof_show.costs import contexts_of, costs_by_routine, costs_of
from aprof_show.model import Profile
from aprof_show.stacks import callgrind, folded
from tests.samples import ADDRESSES, random_call
from tests.test_trees import MUTUAL, PLAIN, RECURSIVE, SPINNING, profile_of, roots_of


class Exports(unittest.TestCase):
    def profiles(self) -> list[Profile]:
        some = [profile_of(PLAIN), profile_of(RECURSIVE), profile_of(MUTUAL), profile_of(SPINNING, end="budget")]
        return some + [profile_of(*(random_call(random.Random(seed + place)) for place in range(3))) for seed in range(5)]

    def test_folded_sums_to_the_steps(self) -> None:
        for profile in self.profiles():
            lines = list(folded(profile, roots_of(profile)))
            self.assertEqual(sum(int(line.rsplit(" ", 1)[1]) for line in lines), profile.steps)
            self.assertTrue(all(line.count(" ") == 1 for line in lines))
        self.assertEqual(sorted(folded(profile_of(PLAIN), roots_of(profile_of(PLAIN)))), [
            "main 10", "main;leaf 40", "main;parse 20", "main;parse;leaf 30",
        ])

    def test_what_was_open_is_under_its_chain(self) -> None:
        profile = profile_of(SPINNING, end="budget")
        main, spin = f"{ADDRESSES['main']:08x}", f"{ADDRESSES['spin']:08x}"
        self.assertIn(f"{main};parse;{spin};[open_at_the_end] 945", list(folded(profile, roots_of(profile))))

    @unittest.skipUnless(shutil.which("callgrind_annotate"), "no callgrind_annotate (valgrind)")
    def test_callgrind_annotate(self) -> None:
        """It opens the file, and its totals are those of the report, the own costs of routines too."""
        for profile in self.profiles():
            roots = roots_of(profile)
            text = "\n".join(callgrind(profile, roots, "some image", {ADDRESSES["parse"]: "/src/parse.c:12"})) + "\n"
            with tempfile.TemporaryDirectory() as folder:
                path = Path(folder, "callgrind.out.1")
                path.write_text(text, encoding="utf-8")
                command = ["callgrind_annotate", "--threshold=100", "--tree=both", str(path)]
                shown = subprocess.run(command, capture_output=True, text=True, check=True)
            self.assertEqual(shown.stderr, "")
            self.assertRegex(shown.stdout, rf"(?m)^\s*{profile.steps:,} .*PROGRAM TOTALS")
            own = sum(cost.own for cost in costs_of(roots).values())
            self.assertEqual("[open_at_the_end]" in shown.stdout, own < profile.steps)
            for routine, cost in costs_by_routine(roots, costs_of(roots)).items():
                if cost.own:
                    self.assertRegex(shown.stdout, rf"(?m)^\s*{cost.own:,} \(.*\*\s.*:{routine.name}")

    def test_a_file_is_told_where_it_is_another(self) -> None:
        """Else callgrind_annotate, in the folder of the sources, takes the file of a call for another one."""
        profile = profile_of(PLAIN)
        lines = {ADDRESSES[name]: f"/src/{file}.c:1" for name, file in (("main", "a"), ("parse", "a"), ("leaf", "b"))}
        text = list(callgrind(profile, roots_of(profile), "image", lines))
        self.assertEqual([line for line in text if line.startswith("cfi=")], ["cfi=/src/b.c"] * 2)

    def test_contexts(self) -> None:
        profile = profile_of(PLAIN)
        self.assertEqual([context.routine.name for context in contexts_of(roots_of(profile))], ["main", "parse", "leaf", "leaf"])
