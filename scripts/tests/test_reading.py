"""Every line that aprof would not have written is refused, with its number; what it has written is read."""
from __future__ import annotations

import unittest
from pathlib import Path

from aprof_show.model import CacheReport, Report
from aprof_show.reading import BadReport, read_file
from tests.samples import ROOT, read_text

GOOD = "aprof 2|end exit 0|steps 9|open 0|routine 00010054 f|1 2 3 4 7 2 0 0 2|4 1 5 5 5 1 2 1 2|done 1|"
WITH = GOOD + "contexts 1|context 0 00010054|1 2 3 4 7 2 0 0 2|4 1 5 5 5 1 2 1 2|done 1|"
CACHE = "aprof cache 1|end exit 0|steps 9|routine 00010054 f|4 1|done 1|"

# the text, what to put in the place of what, and the line and a part of the refusal
BAD = [
    (GOOD, GOOD, "", 1, "not a report of aprof: empty"),
    (GOOD, GOOD, "aprof 2", 1, "not a report of aprof: its first line has no end"),
    (GOOD, "aprof 2", "aprof 3", 1, "a report of another version (`aprof 3`)"),
    (GOOD, "aprof 2", "aprof 22222222222", 1, "not a report of aprof"),
    (GOOD, "aprof 2", "aprof 1", 6, "expected a point of 5 numbers"),
    (GOOD, "aprof 2", "aprof trace 1", 1, "aprof replay"),
    (GOOD, "aprof 2", "\x7fELF\xff", 1, "not a report of aprof"),
    (GOOD, "exit 0", "exit 256", 2, "expected `end exit N`"),
    (GOOD, "exit 0", "exit 00", 2, "expected `end exit N`"),
    (GOOD, "exit 0", "fault 8 1 00010054", 2, "end"),
    (GOOD, "exit 0", "schedule 0", 2, "end"),
    (GOOD, "steps 9", "steps 09", 3, "expected `steps N`"),
    (GOOD, "steps 9", "steps 18446744073709551616", 3, "64 bits"),
    (GOOD, "open 0", "open -1", 4, "expected `open N`"),
    (GOOD, "routine 00010054", "routine 0001005G", 5, "expected a point"),
    (GOOD, " f|", " |", 5, "expected a point"),
    (GOOD, " f|", " a name|", 5, "expected a point"),
    (GOOD, "1 2 3 4 7 2 0 0 2", "1 2 3 4 7", 6, "expected a point of 9 numbers: the routine above has none"),
    (GOOD, "1 2 3 4 7 2 0 0 2", "1 0 3 4 7 2 0 0 2", 6, "don't fit together"),
    (GOOD, "1 2 3 4 7 2 0 0 2", "1 2 5 4 9 2 0 0 2", 6, "don't fit together"),
    (GOOD, "1 2 3 4 7 2 0 0 2", "1 2 3 4 5 2 0 0 2", 6, "don't fit together"),
    (GOOD, "1 2 3 4 7 2 0 0 2", "1 2 3 4 9 2 0 0 2", 6, "don't fit together"),
    (GOOD, "1 2 3 4 7 2 0 0 2", "1 2 3 4 7 1 0 0 2", 6, "parts"),
    (GOOD, "1 2 3 4 7 2 0 0 2", "1 2 3 4 7 2 0 0 1", 6, "parts"),
    (GOOD, "1 2 3 4 7 2 0 0 2", "1 2 3 4 7 2 0 0 3", 6, "parts"),
    (GOOD, "1 2 3 4 7 2 0 0 2", "18446744073709551616 1 3 3 3 18446744073709551616 0 0 18446744073709551616", 6, "large"),
    (GOOD, "4 1 5 5 5 1 2 1 2", "1 1 5 5 5 1 0 0 1", 7, "order of their sizes"),
    (GOOD, "4 1 5 5 5 1 2 1 2", "routine 00010054 g", 7, "order of their entries"),
    (GOOD, "4 1 5 5 5 1 2 1 2", "routine 00010060 g", 8, "the routine above has none"),
    (GOOD, "done 1", "done 2", 8, "`done`"),
    (GOOD, "done 1|", "", 8, "ends here"),
    (GOOD, "done 1|", "done 1", 8, "cut off"),
    (GOOD, "done 1|", "done 1|done 1|", 9, "behind the end"),
    (GOOD, "done 1|", "done 1||", 9, "behind the end"),
    (GOOD, "done 1|", "done 1|x", 9, "behind the end"),
    (GOOD, "|", "\r|", 1, "CR LF"),
    (WITH, "contexts 1", "contexts 2", 9, "behind the end"),
    (WITH, "context 0", "context 1", 10, "expected a point"),
    (WITH, "context 0 00010054", "context 0 00010058", 13, "don't add up"),
    (WITH, "context 0 00010054|1 2 3 4 7 2 0 0 2|4 1 5 5 5 1 2 1 2|done 1|", "done 0|", 10, "don't add up"),
    (WITH, "context 0 00010054|1 2 3 4 7 2 0 0 2|", "context 0 00010054|1 2 3 4 6 2 0 0 2|", 13, "don't add up"),
    (WITH, "1 2|done 1|", "1 2|context 1 00010054|context 1 00010054|done 3|", 15, "two of one routine"),
    (WITH, "1 2|done 1|", "1 2|context 2 00010054|done 2|", 13, "expected a point"),
    (WITH, "1 2|done 1|", "1 2|done 2|", 13, "`done`"),
    (WITH, "1 2|done 1|", "1 2|done 1|done 1|", 14, "behind the end"),
    (CACHE, "aprof cache 1", "aprof cache 2", 1, "another version (`aprof cache 2`)"),
    (CACHE, "4 1", "4 5", 5, "no more misses"),
    (CACHE, "4 1", "0 0", 5, "at least one access"),
    (CACHE, "4 1", "4", 5, "ACCESSES MISSES"),
    (CACHE, "done 1", "done 0", 6, "`done`"),
    (CACHE, "done 1|", "done 1|x|", 7, "behind the end"),
]


def put_last(text: str, old: str, new: str) -> str:
    """`new` for the last `old`, or for all where that is a line's end."""
    return text.replace(old, new) if old == "|" else new.join(text.rsplit(old, 1))


class Reading(unittest.TestCase):
    def test_bad_lines(self) -> None:
        for text, old, new, line, what in BAD:
            bad = put_last(text, old, new) if text is WITH else text.replace(old, new)
            with self.subTest(bad=bad):
                self.assertNotEqual(bad, text)
                with self.assertRaises(BadReport) as refusal:
                    read_text(bad.replace("|", "\n"))
                self.assertRegex(str(refusal.exception), rf"report:{line}: .*")
                self.assertIn(what, str(refusal.exception))

    def test_good_texts(self) -> None:
        for text, kind in ((GOOD, Report), (WITH, Report), (CACHE, CacheReport)):
            self.assertIsInstance(read_text(text.replace("|", "\n")), kind)
        first = GOOD.replace("aprof 2", "aprof 1").replace(" 2 0 0 2", "").replace(" 1 2 1 2", "")
        old = read_text(first.replace("|", "\n"))
        assert isinstance(old, Report)
        self.assertIsNone(old.routines[0].points[0].parts)

    def test_open_context_without_a_routine(self) -> None:
        text = put_last(WITH, "done 1", "context 1 00010000|done 2").replace("open 0", "open 2")
        report = read_text(text.replace("|", "\n"))
        assert isinstance(report, Report) and report.roots
        self.assertEqual([routine.entry for routine in report.routines], [0x10000, 0x10054])
        self.assertEqual(report.roots[0].callees[0].points, [])

    def test_stored_reports(self) -> None:
        paths = [*ROOT.glob("rows/*/report"), *ROOT.glob("examples/*/report*.txt"), *ROOT.glob("examples/matrix/*e.txt")]
        texts = [path for path in paths if path.read_bytes()[:7] in (b"aprof 2", b"aprof c")]
        self.assertGreater(len(texts), 40)
        for path in texts:
            with self.subTest(path=Path(path).parent.name):
                read_file(str(path))
