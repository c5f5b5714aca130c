"""What the check of the documents finds."""
from __future__ import annotations

import unittest

import check_documents as check


class Names(unittest.TestCase):
    def test_names_of_the_sources_are_known(self) -> None:
        self.assertEqual(list(check.unknown_names("`Machine::run_known`, `aprof_top`, `IsAnswered`")), [])

    def test_a_name_that_is_gone_is_found(self) -> None:
        gone = "Machine::run_" + "blindly"
        self.assertEqual(list(check.unknown_names(f"`{gone}` and `aprof run -o r`")), [gone])

    def test_blocks_of_code_are_left_out(self) -> None:
        self.assertEqual(list(check.spans("a `b`\n```\n`c`\n```\n`d`\n")), ["b", "d"])

    def test_a_file_that_no_crate_has_is_found(self) -> None:
        self.assertEqual(list(check.missing_files("specs/Outcome.antt, `src/nowhere.rt`")), ["src/nowhere.rt"])

    def test_what_is_built_or_fetched_is_no_source(self) -> None:
        for name in (".git", "build", "examples/musl/library", "crates/aprof/out", "report-8", "scripts/__pycache__"):
            self.assertFalse(check.is_source(check.TOP / name), name)
        for name in ("build.sh", "scripts/build", "examples/musl/cc", "docs/report"):
            self.assertTrue(check.is_source(check.TOP / name), name)


class Clauses(unittest.TestCase):
    def test_a_clause_is_of_its_crate(self) -> None:
        table = "| The headline | aprof_top | `aprof` | `answered` |\n| | stamps | `Stamp` | `answered`; one |"
        self.assertEqual(list(check.unknown_clauses(table)), ["no clause stamps: answered"])

    def test_a_crate_that_is_gone_is_found(self) -> None:
        table = "| Promise | Crate | Public function | Clauses |\n| Safe | all | all | none |\n| One | gone | `go` | `went` |"
        self.assertEqual(list(check.unknown_clauses(table)), ["no crate gone"])


class Counts(unittest.TestCase):
    def test_a_wrong_number_is_told_with_the_right_one(self) -> None:
        said = check.wrong_count(check.Count("docs/PROOFS.md", r"\*\*(\d+) tests\*\*", lambda: -1))
        self.assertIn("but there are -1", str(said))

    def test_a_number_that_is_gone_is_told(self) -> None:
        said = check.wrong_count(check.Count("docs/PROOFS.md", "no such words", lambda: 0))
        self.assertIn("nothing is like", str(said))

    def test_modules_of_other_crates_are_counted(self) -> None:
        lines = ["guest_kernel.proofs.Room.{room}", "guest_kernel.proofs.Room.{read}", "guest_run.proofs.Lines.{line}",
                 "std.proofs.Props.{sym}", "guest_kernel.specs.Times.{time}"]
        text = "".join(f"use Rattle.{line}\n" for line in lines)
        self.assertEqual(check.cited("guest_run", text), {("guest_kernel", "Room")})


if __name__ == "__main__":
    unittest.main()
