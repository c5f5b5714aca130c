"""What check_options finds where a text lacks an option, or has one more."""
from __future__ import annotations

import shutil
import tempfile
import unittest
from collections.abc import Sequence
from pathlib import Path

from check_options import TOP, Option, all_differences, of_program, of_readme, of_synopsis

FILES = ("README.md", "docs/aprof.1", "docs/aprof-show.1", "crates/command_line/src/app.rt", "aprof")

# a file, what stands in it, what is put in its place, and what is found
CHANGES: Sequence[tuple[str, str, str, Sequence[str]]] = (
    ("README.md", " [--stats] -o PATH TRACE", " -o PATH TRACE", ["README.md: replay lacks [--stats]"]),
    ("README.md", "aprof demo N", "", ["README.md: the command demo is not there"]),
    ("README.md", "--sets S --ways", "[--sets S] --ways", ["cache lacks --sets VALUE", "cache has [--sets VALUE]"]),
    ("docs/aprof.1", ".Cm trace\n.Op Fl -stdin Ar PATH\n", ".Cm trace\n", ["docs/aprof.1: trace lacks [--stdin VALUE]"]),
    ("docs/aprof.1", ".It Fl -stats\n", ".It x\n", ["docs/aprof.1: no text on --stats"]),
    ("docs/aprof.1", ".It Fl -stats\n", ".It Fl -statistics\n", ["--statistics is no option of the program"]),
    ("docs/aprof-show.1", ".It Fl -csv\n", ".It x\n", ["docs/aprof-show.1: show lacks [--csv]"]),
    ("docs/aprof-show.1", ".It Fl -top Ar N\n", ".It Fl -top\n", ["show lacks [--top VALUE]", "show has [--top]"]),
    (FILES[3], 'value_option(alloc, "record")', 'value_option(alloc, "keep")', ["aprof help: run lacks [--keep VALUE]"]),
    (FILES[4], "run | trace | cache", "run | cache", ["aprof: need_no_look lacks trace"]),
    (FILES[4], "| replay) is_writable", "| replay | sum) is_writable", ["aprof: need_no_look has sum, which stores nothing"]),
)  # fmt: skip


class Options(unittest.TestCase):
    def test_they_agree(self) -> None:
        self.assertEqual(list(all_differences()), [])

    def test_what_is_read(self) -> None:
        program = of_program((TOP / FILES[3]).read_text())
        self.assertEqual(program["replay"], {Option("--stamps", True), Option("--stats", False), Option("-o", True, True)})
        self.assertEqual(program["demo"], set())
        self.assertEqual(of_readme((TOP / FILES[0]).read_text()), program)
        self.assertLess(program.keys(), of_synopsis((TOP / FILES[1]).read_text()).keys())

    def test_changes(self) -> None:
        for name, old, new, parts in CHANGES:
            with self.subTest(name=name, new=new), tempfile.TemporaryDirectory() as folder:
                for file in FILES:
                    Path(folder, file).parent.mkdir(parents=True, exist_ok=True)
                    shutil.copy(TOP / file, Path(folder, file))
                text = Path(folder, name).read_text()
                self.assertIn(old, text)
                Path(folder, name).write_text(text.replace(old, new, 1))
                found = "\n".join(all_differences(Path(folder)))
                for part in parts:
                    self.assertIn(part, found)


if __name__ == "__main__":
    unittest.main()
