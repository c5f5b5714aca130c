"""What is said of mistakes in a command line, with the status 2."""
from __future__ import annotations

import os
import sys
import unittest
from unittest import mock

from tests.test_command import CACHE, CONTEXTS, WORDS, show

NO_REPORT = "not a report of aprof, whose first line is `aprof 2`"

# the words, and a part of what standard error says
MISTAKES: list[tuple[list[str], str]] = [
    ([], "show: a report is wanted; `show --help` tells more"),
    (["nope"], "show: no file nope"),
    (["-"], "show: no file -: /dev/stdin is standard input\n"),
    ([WORDS, "nope"], "show: no file and no routine called nope; there is fopen (--all lists them)\n"),
    ([WORDS, "qqq"], "show: no file and no routine called qqq (--all lists them)\n"),
    ([WORDS, "fnd"], "show: no file and no routine called fnd; there is find (--all lists them)\n"),
    ([WORDS, "--routine", "nope"], "show: no file and no routine called nope"),
    ([WORDS, "--fail-above", "9", "nope"], "show: no file and no routine called nope"),
    (["--callers", "nope", CONTEXTS], "show: no routine called nope (--all lists them); the routine goes directly after --callers"),
    (["--callers", CONTEXTS, "10070"], f"show: {CONTEXTS} is a file; the routine goes directly after --callers"),
    (["crates"], "show: crates: no file in this folder"),
    (["README.md"], f"show: README.md:1: {NO_REPORT} (for a routine called as a file: --routine NAME)\n"),
    (["examples/bubble/bubble"], f"show: examples/bubble/bubble:1: {NO_REPORT} (for"),
    (["--against", "README.md", WORDS], f"show: README.md:1: {NO_REPORT}\n"),
    (["rows/two-ways-to-a-routine"], f"code.s:1: {NO_REPORT}: all files of a folder must be reports\n"),
    ([WORDS, CACHE], "show: reports of `aprof cache` can't be joined with others"),
    ([CACHE, WORDS], "show: reports of `aprof cache` can't be joined with others"),
    (["--against", CACHE, WORDS], "show: reports of `aprof cache` can't be joined with others"),
    (["--tree", WORDS], "show: this needs calling contexts, which `aprof contexts` stores"),
    (["--folded", WORDS], "show: this needs calling contexts"),
    (["--tree", "--json", CONTEXTS], "not allowed with argument"),
    (["--min", "200", WORDS], "show: --min 200: a percentage, 0 to 100\n"),
    (["--min", "x", WORDS], "show: --min x: a percentage, 0 to 100\n"),
    (["--top", "0", WORDS], "show: --top 0: a whole number from 1 on\n"),
    (["--top", "1.5", WORDS], "show: --top 1.5: a whole number from 1 on\n"),
    (["--fail-above", "x", WORDS], "show: --fail-above x: a factor above 0, as 2.5\n"),
    (["--fail-above", "0", WORDS], "show: --fail-above 0: a factor above 0, as 2.5\n"),
    ([WORDS, "main@"], "show: no file and no routine called main@; there is main (--all lists them)\n"),
    ([WORDS, "file"], "show: no file and no routine called file; there are count_file and __unlist_locked_file (--all lists them)\n"),
    (["--page", WORDS], "show: --page FILE wants a report too: show --page FILE REPORT...\n"),
    (["--lines", WORDS], "show: no option --lines; there is --image\n"),
    (["--html=x", WORDS], "show: no option --html; there is --page\n"),
    (["--alll", WORDS], "show: no option --alll; there is --all\n"),
    (["--qqqqqq=3", WORDS], "show: no option --qqqqqq; `show --help` lists them\n"),
    (["--by", "size", WORDS], "show: --by: invalid choice: 'size'"),
    (["--against", WORDS], f"show: --against OLD wants the new report too: show --against {WORDS} NEW\n"),
    ([""], "show: an empty word\n"),
    ([WORDS, ""], "show: an empty word\n"),
    ([WORDS, "--routine", ""], "show: an empty word behind --routine\n"),
    ([WORDS, "--image", ""], "show: an empty word behind --image\n"),
    (["--image", "README.md", WORDS], "show: README.md is no 32-bit little-endian ELF file"),
    (["--image", "nope", WORDS], "show: nope: no such file or directory"),
    ([WORDS, "--plot"], "show: --plot wants a routine: show REPORT... ROUTINE --plot\n"),
    ([WORDS, "--page"], "show: --page wants a word behind it: --page FILE\n"),
    ([WORDS, "--by"], "show: --by wants a word behind it: --by growth | share | self | name | thread | kernel\n"),
    (["--against", WORDS, "--against", WORDS, WORDS], "show: --against stands twice: several old reports go into a folder\n"),
    (["--fail-above", "2", WORDS, "--fail-above", "9"], "show: --fail-above stands twice\n"),
    (["--callers", "10070", "--callers", "10070", CONTEXTS], "show: --callers stands twice\n"),
    (["--all", "--all", WORDS], "show: --all stands twice\n"),
    (["--page", "-", WORDS], "show: --page wants a file: --page FILE REPORT...; /dev/stdout is standard output\n"),
]


class Mistakes(unittest.TestCase):
    def test_cases(self) -> None:
        for words, what in MISTAKES:
            with self.subTest(words=words):
                self.assertIn(what, show(*words, status=2))

    def test_the_command_of_the_package_says_its_name(self) -> None:
        with mock.patch.object(sys, "argv", ["/usr/bin/aprof-show"]), mock.patch.dict(os.environ):
            os.environ.pop("APROF_NAME", None)
            self.assertEqual(show("--alll", WORDS, status=2), "aprof-show: no option --alll; there is --all\n")
            self.assertIn("`aprof-show --help` lists them", show("--qqqqqq", WORDS, status=2))


if __name__ == "__main__":
    unittest.main()
