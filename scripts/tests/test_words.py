"""Words of the command line that have nothing to do with one another, and names that choose."""
from __future__ import annotations

import contextlib
import csv
import io
import json
import tempfile
import unittest
from pathlib import Path

from aprof_show.command import main
from aprof_show.marks import MEANINGS
from tests.samples import ADDRESSES, NEEDS_CHARTS, ROOT, Call, Run
from tests.test_causes import SIZES, through_a_list
from tests.test_command import BUBBLE, CACHE, CONTEXTS, WORDS, show

# what can't be, and what is said of it
REFUSED: list[tuple[list[str], str]] = [
    (["--page", "p.html", "--against", WORDS, WORDS], "--page takes no --against"),
    (["--page", "p.html", "--fail-above", "2", WORDS], "--page takes no --fail-above"),
    (["--page", "p.html", WORDS, "find"], "--page takes no routine (find): a page has all routines"),
    (["--page", "p.html", WORDS, "nosuch"], "no file and no routine called nosuch"),
    (["--page", "p.html", "--all", WORDS], "--page takes no --all; it takes only reports and --image"),
    (["--csv", WORDS, "nosuch"], "no file and no routine called nosuch"),
    (["--json", WORDS, "nosuch"], "no file and no routine called nosuch"),
    (["--csv", "--top", "2", WORDS], "--csv takes no --top"),
    (["--csv", "--min", "0", WORDS], "--csv takes no --min"),
    (["--json", "--library", WORDS], "--json takes no --library"),
    (["--csv", "--against", WORDS, WORDS], "--csv takes no --against"),
    (["--csv", "--plot", WORDS, "find"], "--csv takes no --plot"),
    (["--open", WORDS, "find"], "--open takes no routine (find): the calls that were open are of the whole run"),
    (["--folded", CONTEXTS, "10070"], "--folded takes no routine (10070): stacks are of the whole run"),
    (["--callgrind", CONTEXTS, "10070"], "--callgrind takes no routine (10070)"),
    (["--callers", "10070", CONTEXTS, "10070"], "--callers takes no routine (10070): its routine goes directly behind it"),
    (["--tree", "--top", "3", CONTEXTS], "--tree takes no --top"),
    (["--tree", CONTEXTS, "nosuch"], "no file and no routine called nosuch"),
    (["--tree", "--fail-above", "2", CONTEXTS], "--tree takes no --fail-above"),
    (["--against", WORDS, WORDS, "nosuch"], "no file and no routine called nosuch"),
    (["--against", WORDS, "--by", "name", WORDS], "--against takes no --by"),
    (["--against", WORDS, "--plot", WORDS, "find"], "--against takes no --plot"),
    (["--against", WORDS, "--all", WORDS, "find"], "--all chooses among all routines, and find is one"),
    (["--fail-above", "2", "--top", "1", WORDS], "--fail-above takes no --top"),
    (["--fail-above", "2", "--library", WORDS, "find"], "--library chooses among all routines, and find is one"),
    ([WORDS, "find", "--top", "2"], "a routine takes no --top"),
    ([WORDS, "--all", "--min", "3"], "--all and --min exclude each other"),
    ([CACHE, "main"], "no file main, and a report of `aprof cache` takes no routine"),
    ([CACHE, "--library"], "a report of `aprof cache` takes no --library; it takes --all, --min and --top"),
    ([CACHE, "--against", WORDS], "a report of `aprof cache` takes no --against"),
    ([CACHE, "--tree"], "a report of `aprof cache` takes no --tree"),
]


def warned(*words: str) -> str:
    """Standard error of a command that goes well."""
    out, err = io.TextIOWrapper(io.BytesIO()), io.StringIO()
    with contextlib.chdir(ROOT), contextlib.redirect_stdout(out), contextlib.redirect_stderr(err):
        assert main(words) == 0
    return err.getvalue()


class Refusals(unittest.TestCase):
    def test_cases(self) -> None:
        for words, what in REFUSED:
            with self.subTest(words=words):
                self.assertIn(f"show: {what}", show(*words, status=2))
        self.assertFalse((ROOT / "p.html").exists())

    @NEEDS_CHARTS
    def test_a_page_is_written_over_nothing_else(self) -> None:
        with tempfile.TemporaryDirectory() as folder:
            report, other, page = (Path(folder, name) for name in ("report", "other", "page.html"))
            for path in (report, other):
                path.write_bytes((ROOT / WORDS).read_bytes())
            show("--page", str(page), BUBBLE)
            for words in ((str(other), str(report)), (str(report), str(report))):
                self.assertIn("is a report, and is not overwritten", show("--page", *words, status=2))
            self.assertEqual(other.read_bytes(), (ROOT / WORDS).read_bytes())
            image, link = Path(folder, "image"), Path(folder, "link")
            image.write_bytes((ROOT / WORDS).with_name("words").read_bytes())
            link.hardlink_to(image)
            for same in (image, link):
                said = show("--page", str(same), "--image", str(image), str(report), status=2)
                self.assertEqual(said, f"show: {same} is the image, and is not overwritten: --page FILE REPORT...\n")
            empty = Path(folder, "empty")
            for name, text in (("words.c", "/* words */"), ("thesis.html", "<!DOCTYPE html>\n<html><title>Thesis</title></html>\n")):
                foreign = Path(folder, name)
                foreign.write_text(text)
                said = show("--page", str(foreign), str(report), status=2)
                self.assertEqual(said, f"show: {foreign} is no page of aprof, and is not overwritten: --page FILE REPORT...\n")
                self.assertEqual(foreign.read_text(), text)
            empty.touch()
            for new in (page, empty, Path(folder, "new.html")):
                show("--page", str(new), str(report))
                self.assertIn("count_file", new.read_text())


class Names(unittest.TestCase):
    def test_csv_and_json(self) -> None:
        rows = list(csv.DictReader(io.StringIO(show("--csv", WORDS, "find", "slot_of"))))
        self.assertEqual({row["routine"] for row in rows}, {"find", "slot_of"})
        value = json.loads(show("--json", WORDS, "find"))
        self.assertEqual([routine["name"] for routine in value["routines"]], ["find"])
        self.assertIsNone(json.loads(show("--json", CONTEXTS, "10070"))["contexts"])

    def test_addresses(self) -> None:
        wanted = show(WORDS, "find")
        for word in ("1224c", "0x1224c", "0001224c", "0X1224C", "0x0001224c"):
            with self.subTest(word):
                self.assertEqual(show(WORDS, word), wanted)
        for word in ("1224", "0x", "x1224c", "00001224c", "1224c0"):
            with self.subTest(word):
                self.assertIn("no file and no routine", show(WORDS, word, status=2))

    def test_against_and_tree(self) -> None:
        text = show("--against", WORDS, WORDS, "find").splitlines()
        self.assertEqual([line.split()[-1] for line in text[2:]], ["ROUTINE", "find"])
        with tempfile.TemporaryDirectory() as folder:
            path = Path(folder, "report")
            path.write_text(Run([Call("main", 9, 1, [through_a_list(n) for n in SIZES])], ADDRESSES).text(contexts=True))
            lines = show("--tree", str(path), "look_up").splitlines()[3:]
            self.assertEqual([line.split("  ")[-1].strip() for line in lines], ["look_up", "compare"])
            self.assertTrue(lines[0].startswith("  99.8%"))

    def test_fail_above(self) -> None:
        self.assertEqual(show(BUBBLE, "--fail-above", "3.98", status=1).split(" (")[0], "bubble_sort grows x3.99, above x3.98")
        self.assertIn("grows x3.7, above x2.5", show(WORDS, "--fail-above", "2.5", "--library", status=1))
        with tempfile.TemporaryDirectory() as folder:
            path = Path(folder, "report")
            calls = [Call(name, n, n**power // part) for n in SIZES for name, power, part in (("parse", 2, 4), ("leaf", 2, 1))]
            path.write_text(Run([Call("main", 9, 1, calls)], ADDRESSES).text())
            table = [line.split()[-1] for line in show(str(path)).splitlines()[3:5]]
            found = [line.split()[0] for line in show(str(path), "--fail-above", "2.5", status=1).splitlines()]
            self.assertEqual((table, found), (["leaf", "parse"], ["leaf", "parse"]))


class Tables(unittest.TestCase):
    def test_the_sign_of_what_is_superlinear(self) -> None:
        text = show(BUBBLE)
        self.assertIn("\n !x4.0 ", "\n " + text.splitlines()[3].strip())
        self.assertEqual(text.count("! superlinear: "), 1)
        self.assertNotIn("!", show(BUBBLE, "main"))
        self.assertNotIn("!x", show(WORDS, "--top", "1").partition("marked ")[0])

    def test_top(self) -> None:
        cases = [
            (["--top", "2", "--all"], "and 5 routines of at most 100.0% with callees: a greater --top"),
            (["--top", "2"], "a greater --top"),
            (["--min", "50"], ": a smaller --min"),
        ]
        for words, part in cases:
            with self.subTest(words=words):
                text = show(WORDS, *words)
                self.assertTrue(any(line.endswith(part) or part in line for line in text.splitlines()), text)
        self.assertNotIn(": --all", show(WORDS, "--top", "2", "--all"))
        self.assertIn("that changed less: a greater --top", show("--against", BUBBLE, WORDS, "--top", "1"))

    def test_help(self) -> None:
        text = show("--help")
        for word in ("POINTS is", "A WORD is", "PLAIN", "WITH CALLEES is", "ITS OWN", "ESTIMATE is", *map("  {} ".format, MEANINGS)):
            self.assertIn(word, text)


class Programs(unittest.TestCase):
    def run_of(self, folder: str, name: str, routines: dict[str, int], size: int = 8) -> str:
        path = Path(folder, name)
        calls = [Call(one, size, size * size) for one in routines]
        path.write_text(Run([Call("main", size, 1, calls)], {"main": 0x10000} | routines).text())
        return str(path)

    def test_warnings(self) -> None:
        one = {"parse": 0x11000, "find": 0x12000, "sort_all": 0x13000}
        rebuilt = {name: entry + 0x40 for name, entry in one.items()}
        part = {"parse": 0x11000}
        others = {"draw": 0x14000, "move_to": 0x15000, "erase": 0x16000}
        clashing = {"draw": 0x11000, "move_to": 0x12000}
        builds, different = "most routines at other addresses", "hardly a routine in common"
        cases = [(one, one, "", ""), (one, part, "", ""), (one, rebuilt, builds, ""), (one, clashing, different, different),
                 (one, others, "", different)]
        with tempfile.TemporaryDirectory() as folder:
            for number, (first, second, joined, compared) in enumerate(cases):
                with self.subTest(number):
                    paths = [self.run_of(folder, name, routines) for name, routines in (("a", first), ("b", second))]
                    for said, words in ((joined, paths), (compared, ["--against", *paths])):
                        text = warned(*words)
                        self.assertEqual(text.startswith("show: warning: "), bool(said), text)
                        self.assertIn(said, text)

    def test_contexts_of_some(self) -> None:
        """A report without contexts takes those of the others away, and that is said."""
        run = Run([Call("main", 8, 1, [Call("parse", 8, 9)])], {"main": 0x10000, "parse": 0x11000})
        with tempfile.TemporaryDirectory() as folder:
            paths = [str(Path(folder, name)) for name in ("plain", "with")]
            for path, contexts in zip(paths, (False, True)):
                Path(path).write_text(run.text(contexts))
            said = f"show: warning: {paths[0]} has no calling contexts, so those of the other reports are left out, and so is ITS OWN\n"
            self.assertEqual(warned(*paths), said)
            self.assertEqual(warned("--against", paths[1], *paths), said)
            self.assertEqual(warned("--against", *paths), "")

    def test_a_report_given_twice(self) -> None:
        with tempfile.TemporaryDirectory() as folder:
            path, link = self.run_of(folder, "a", {"parse": 0x11000}), Path(folder, "b")
            link.symlink_to(path)
            other = self.run_of(folder, "c", {"parse": 0x11000})
            self.assertEqual(warned(path, other), "")
            for words, said in (([path, path], path), ([other, path, str(link)], str(link)), ([path, folder], path)):
                with self.subTest(words):
                    self.assertEqual(warned(*words), f"show: warning: {said} is given twice, and counts twice\n")

    def test_growth_between_two_sizes(self) -> None:
        names = {"parse": 0x11000}
        with tempfile.TemporaryDirectory() as folder:
            small, large, same = (self.run_of(folder, name, names, size) for name, size in (("a", 8), ("b", 32), ("c", 8)))
            text = show("--against", small, large).splitlines()
            self.assertEqual(next(line for line in text if "parse" in line).split()[:2], ["-", "!x4.0~"])
            self.assertIn("from the one call before to the one call now", text[-1])
            near = self.run_of(folder, "d", names, 12)
            for other in (same, near):
                self.assertNotIn("one call before", show("--against", small, other))


if __name__ == "__main__":
    unittest.main()
