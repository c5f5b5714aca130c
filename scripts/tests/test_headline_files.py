"""Which files of definitions the headline rests on."""
from __future__ import annotations

import unittest
from pathlib import Path

import headline_files as headline

ANSWERS = """-- The answers.
use Rattle.std.specs.Prelude.{ℕ, List}
use Rattle.runs.specs.Run.{IsRun as Ran}
use Rattle.words.specs.Words as words
use Rattle.runs.specs.Unused.{Nobody}

-- an answer, and not Nobody
abbrev pub IsAnswered : ℕ → Type 0
IsAnswered n = Ran (helped n)

helped : ℕ → ℕ
helped n = words.twice n

module _ (n : ℕ) where
  pub record Apart : Type 0 where
    pub of : Nobody
"""


COUNTED = {("stamp_table", "Counting"), ("stamp_table", "Ticks")}
"""How often stamps are renumbered, which `--stats` tells."""


class Reading(unittest.TestCase):
    def setUp(self) -> None:
        self.source = headline.read_definitions(ANSWERS)

    def test_definitions_are_found_with_their_text(self) -> None:
        self.assertEqual({"IsAnswered", "helped", "Apart"}, {name for name in self.source.texts if name != "of"})

    def test_a_definition_uses_what_its_text_names(self) -> None:
        self.assertIn((("runs", "Run"), "IsRun"), self.source.uses(self.source.texts["IsAnswered"]))
        self.assertIn((("words", "Words"), "twice"), self.source.uses(self.source.texts["helped"]))

    def test_a_comment_uses_nothing(self) -> None:
        self.assertNotIn((("runs", "Unused"), "Nobody"), self.source.uses(self.source.texts["IsAnswered"]))


class Reach(unittest.TestCase):
    def test_files_are_reached_by_way_of_definitions(self) -> None:
        run = headline.read_definitions("use Rattle.runs.specs.Private.Parts.{part}\n\nabbrev pub IsRun : ℕ → Type 0\nIsRun n = part n\n")
        parts = headline.read_definitions("abbrev pub part : ℕ → Type 0\npart n = n ≡ n\n")
        found = {("top", "Answers"): headline.read_definitions(ANSWERS), ("runs", "Run"): run, ("runs", "Private.Parts"): parts}
        modules = headline.reached(found, {(("top", "Answers"), "IsAnswered")})
        self.assertEqual({("top", "Answers"), ("runs", "Run"), ("runs", "Private.Parts")}, modules)

    def test_the_headline_rests_on_the_machine_and_not_on_how_it_is_profiled(self) -> None:
        modules = headline.headline_files(Path(__file__).resolve().parents[2] / "crates")
        self.assertLessEqual({("aprof_top", "Answers"), ("rv_exec", "Effects"), ("trace_model", "Sizes")}, modules)
        self.assertFalse({module for module in modules if module[0] in ("shadow_core", "stamp_table", "run_profile")} - COUNTED)


class Named(unittest.TestCase):
    def test_a_file_is_named_in_parentheses(self) -> None:
        modules = {("runs", "Run"), ("runs", "Machine"), ("runs", "Private.Run")}
        self.assertEqual(["runs/specs/Machine.antt", "runs/specs/Private/Run.antt"], headline.unnamed(modules, "- **Machine run** (specs/Run.antt)."))


if __name__ == "__main__":
    unittest.main()
