"""The command line: what it prints, its status, and what it says of mistakes."""
from __future__ import annotations

import contextlib
import csv
import io
import json
import os
import subprocess
import tempfile
import unittest
from pathlib import Path

from aprof_show.command import main
from aprof_show.kinship import many_new
from tests.samples import ADDRESSES, ROOT, Call, Run, report_of

WORDS = "examples/words/report.txt"
ROUTINES = "examples/routines/report.txt"
BUBBLE = "examples/bubble/report.txt"
CACHE = "examples/matrix/small.txt"
COLUMNS = "size calls least most cost plain thread kernel bare".split()
CONTEXTS = "rows/two-ways-to-a-routine/report"


def show(*words: str, status: int = 0, encoding: str = "utf-8") -> str:
    """Standard output, or standard error where the status is to be 2."""
    out, err = io.TextIOWrapper(io.BytesIO(), encoding=encoding), io.StringIO()
    with contextlib.chdir(ROOT), contextlib.redirect_stdout(out), contextlib.redirect_stderr(err):
        try:
            ended = main(words)
        except SystemExit as error:
            ended = int(error.code or 0)
    out.seek(0)
    text = out.read()
    assert ended == status, (words, ended, text, err.getvalue())
    return err.getvalue() if status == 2 else text


class Statuses(unittest.TestCase):
    def test_fail_above(self) -> None:
        cases: list[tuple[list[str], int, list[str]]] = [
            ([BUBBLE, "--fail-above", "2.5"], 1, ["bubble_sort grows x4.0, above x2.5 (92.1% of all instructions with its callees)"]),
            ([BUBBLE, "--fail-above", "4.5"], 0, []),
            ([BUBBLE, "--fail-above", "2.5", "--routine", "main"], 0, []),
            ([BUBBLE, "--fail-above", "2.5", "--routine", "bubble_sort", "--routine", "main"], 1, ["bubble_sort"]),
            ([WORDS, "--fail-above", "2.5"], 0, ["1 C library routine above x2.5 not counted: --library"]),
            ([WORDS, "--fail-above", "2.2", "--routine", "sort_words"], 1, ["sort_words grows x2.3~"]),
            ([WORDS, "--fail-above", "2.5", "--library"], 1, ["printf_core grows x3.7"]),
            ([WORDS, "--fail-above", "2.5", "--library", "--min", "2"], 0, []),
        ]
        for words, status, parts in cases:
            with self.subTest(words=words):
                text = show(*words, status=status)
                self.assertEqual(bool(text), bool(parts))
                for part in parts:
                    self.assertIn(part, text)

    def test_the_launcher(self) -> None:
        """From any folder, without a terminal, with a wide one in the environment."""
        for words, status in (([str(ROOT / BUBBLE)], 0), (["nope"], 2), ([str(ROOT / BUBBLE), "--fail-above", "2"], 1)):
            environment = os.environ | {"COLUMNS": "200"}
            done = subprocess.run([ROOT / "show", *words], capture_output=True, text=True, cwd="/", env=environment)
            self.assertEqual((done.returncode, "Traceback" in done.stderr), (status, False))
            self.assertLessEqual(max(map(len, done.stdout.splitlines()), default=0), 80)


class Output(unittest.TestCase):
    def test_width(self) -> None:
        with tempfile.TemporaryDirectory() as folder:
            path = Path(folder, "report")
            name = "std::" + "long_name" * 12 + "::end"
            path.write_text(Run([Call(name, 5, 10)], {name: 0x10000}).text())
            all_rows, one_routine = [WORDS, "--all", "--library"], [ROUTINES, "insertion_sort", "--plot"]
            for words in ([str(path)], [WORDS], all_rows, one_routine, [CACHE]):
                text = show(*words)
                self.assertLessEqual(max(len(line) for line in text.splitlines() if " at 0" not in line), 80, text)
            self.assertIn("std::long_name", show(str(path)))
            self.assertIn("::end", show(str(path)))

    def test_examples(self) -> None:
        """The first line of each table is what to look at first."""
        for example, first in (("bubble", "bubble_sort"), ("routines", "insertion_sort"), ("words", "count_file")):
            lines = show(f"examples/{example}/report.txt").splitlines()
            self.assertEqual(lines[3].split()[-1], first)

    def test_choice_of_rows(self) -> None:
        self.assertIn("C library routines (largest with callees: qsort 47.1%", show(WORDS))
        self.assertNotIn(" qsort\n", show(WORDS))
        self.assertIn(" qsort\n", show(WORDS, "--library"))
        self.assertEqual(len(show(WORDS, "--all", "--library", "--by", "name").splitlines()), 3 + 70 + 2)
        self.assertEqual(show(WORDS, "--top", "1").count(" x"), 1)
        self.assertIn("and 7 routines of at most", show(WORDS, "--min", "99.99"))

    def test_one_routine(self) -> None:
        text = show(ROUTINES, "insertion_sort", "sum", "--plot")
        for part in ("insertion_sort at ", "sum at ", "PLAIN THREAD KERNEL", "about linear", "greatest cost by size", "n²"):
            self.assertIn(part, text)
        self.assertEqual(show(ROUTINES, "sum"), show(ROUTINES, "--routine", "sum"))
        self.assertTrue(show(ROUTINES, "sum", "--plot", encoding="ascii").isascii())

    def test_several_reports(self) -> None:
        text = show(WORDS, WORDS)
        self.assertIn("2 reports, 3898180 instructions, end exit 0, 0 still open", text)
        self.assertIn("x1.9    99.5%    1.0    10      5 213-1751  count_file", text)

    def test_recursion_in_a_plain_report(self) -> None:
        call = Call("parse", 1, 10)
        for size in range(2, 9):
            call = Call("parse", size, 10, [call])
        with tempfile.TemporaryDirectory() as folder:
            path = Path(folder, "report")
            run = Run([Call("main", calls=[call])], ADDRESSES)
            path.write_text(run.text())
            self.assertIn("<=100%", show(str(path)))
            path.write_text(run.text(contexts=True))
            self.assertIn("98.8% 98.8%", show(str(path)))

    def test_without_names(self) -> None:
        self.assertEqual(show(CONTEXTS).count("the image has no symbols"), 1)

    def test_cache(self) -> None:
        text = show(CACHE)
        self.assertRegex(text, r"4096 +\d+\.\d% +4096 +100\.0%  sum_by_columns")
        self.assertIn("below 50.0%: a smaller --min", show(CACHE, "--min", "50"))
        self.assertRegex(show(CACHE, CACHE), r"8192 +\d+\.\d% +8192 +100\.0%  sum_by_columns")

    def test_caches_of_two_builds(self) -> None:
        with tempfile.TemporaryDirectory() as folder:
            for name in ("alpha", "beta"):
                text = f"aprof cache 1\nend exit 0\nsteps 9\nroutine 00010000 {name}\n4 2\ndone 1\n"
                Path(folder, name).write_text(text)
            text = show(folder, "--top", "1")
        self.assertIn("alpha", text)
        self.assertNotIn("beta", text)
        self.assertIn("and 1 more routine: a greater --top", text)


class Data(unittest.TestCase):
    def test_json(self) -> None:
        value = json.loads(show("--json", CONTEXTS))
        self.assertEqual(sorted(value), ["contexts", "format", "reports", "routines"])
        self.assertEqual(value["format"], "aprof-show 2")
        self.assertEqual(list(value["routines"][0]["points"][0]), COLUMNS)
        self.assertEqual([context["caller"] for context in value["contexts"]], [None, 0, 0, 2])
        self.assertEqual(sum(context["self"] for context in value["contexts"]), 11)
        plain = json.loads(show("--json", WORDS))
        growth = {routine["name"]: routine["growth"] for routine in plain["routines"]}
        self.assertAlmostEqual(growth["sort_words"]["factor"], 2 ** growth["sort_words"]["exponent"])
        self.assertIsNone(growth["main"])
        self.assertIsNone(plain["contexts"])

    def test_csv(self) -> None:
        rows = list(csv.DictReader(io.StringIO(show("--csv", WORDS))))
        stored = [line for line in (ROOT / WORDS).read_text().splitlines() if line[0].isdigit()]
        self.assertEqual([" ".join(list(row.values())[2:]) for row in rows], stored)
        self.assertEqual(list(rows[0]), ["routine", "entry", *COLUMNS])


class Against(unittest.TestCase):
    def test_a_routine_that_became_quadratic(self) -> None:
        def run(power: int) -> Run:
            calls = [Call("parse", size, 50 * size) for size in (4, 8, 16, 32, 64)]
            return Run([Call("main", 9, 20, calls + [Call("look_up", n, n**power) for n in (4, 8, 16, 32, 64)])], ADDRESSES)

        with tempfile.TemporaryDirectory() as folder:
            paths = [Path(folder, name) for name in ("old", "new")]
            for power, path in enumerate(paths, 1):
                path.write_text(run(power).text())
            text = show("--against", *map(str, paths)).splitlines()
            self.assertEqual(text[0], "6344 instructions before, 11676 after")
            self.assertEqual(text[2].split(), "GROWTH NOW CALLEES NOW COST NOW ROUTINE".split())
            self.assertEqual(text[3].split(), "x2.0 !x4.0 2.0% 46.7% 64 4096 look_up".split())
            self.assertIn("! superlinear: faster than n log n, at least at the largest sizes", text)
            folder_of = [path.with_name(f"{path.name}-runs") for path in paths]
            for path, runs in zip(paths, folder_of):
                runs.mkdir()
                (runs / ".hidden").write_text("")
                for number in "12":
                    (runs / number).write_bytes(path.read_bytes())
            text = show("--against", *map(str, folder_of)).splitlines()
            self.assertEqual(text[0], "12688 instructions before, 23352 after")
            several = [str(path) for folder in folder_of for path in sorted(folder.glob("[12]"))]
            self.assertEqual(len(list(many_new(several[0], [report_of(run(1).text(), path) for path in several[1:]]))), 1)
            self.assertEqual(list(many_new(str(paths[0]), [report_of(run(1).text(), path) for path in several])), [])
            same = show("--against", WORDS, WORDS)
            self.assertIn("of the same growth, share and cost", same)
            self.assertIn("look_up", show("--against", *map(str, paths), "--fail-above", "3", status=1))
