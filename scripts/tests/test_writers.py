"""Who wrote the input: the orders by it, and the line of all calls of a routine."""
from __future__ import annotations

import tempfile
import unittest
from pathlib import Path

from aprof_show.detail import detail, notes
from aprof_show.model import Parts, Point, Routine
from aprof_show.rows import ordered, row_of
from aprof_show.table import Choice
from tests.samples import ADDRESSES, Call, Run
from tests.test_command import CACHE, show

QUEUE = "examples/queue/report.txt"
NOTE = (
    "A WORD is the greatest cost by word of the size. PLAIN: the thread itself had read or written those words since anyone else "
    "wrote them, or no one wrote them; THREAD: another thread wrote them; KERNEL: the kernel did"
)


def routine_of(name: str, *words: tuple[int, int, int]) -> Routine:
    """A point for each: what the thread itself, others and the kernel wrote."""
    points = [Point(sum(three), 1, 9, 9, 9, Parts(*three, 0)) for three in words]
    return Routine(0x10000, name, points)


class Orders(unittest.TestCase):
    def test_order(self) -> None:
        routines = [
            routine_of("alone", (9, 0, 0)),
            routine_of("reads", (1, 1, 6), (1, 0, 15)),
            routine_of("takes", (4, 4, 0), (6, 10, 0)),
            routine_of("empty", (0, 0, 0)),
            Routine(0x10000, "open"),
        ]
        rows = [row_of(routine, None, 100, None) for routine in routines]
        for by, names in (("thread", "takes reads alone empty open"), ("kernel", "reads takes alone empty open")):
            with self.subTest(by):
                self.assertEqual([row.routine.label for row in ordered(rows, by)], names.split())

    def test_cheap_routines_are_listed(self) -> None:
        """Those with most of their input from there, whatever their cost; a part that is asked for holds all the same."""
        rows = [row_of(routine_of("reads", (1, 1, 6)), None, 10_000, None), row_of(routine_of("alone", (4, 1, 3)), None, 10_000, None)]
        self.assertEqual([Choice(by="kernel").has(row) for row in rows], [True, False])
        self.assertEqual([Choice(by="kernel", least=0.5).has(row) for row in rows], [False, False])
        self.assertEqual([Choice(by="thread").has(row) for row in rows], [False, False])

    def test_column(self) -> None:
        for by, first in (("thread", "- 46.8% 97.5% 1.0 1 1 448 make_numbers"), ("kernel", "- 52.8% 0.3% 1.0 1 1 971 main")):
            lines = show(QUEUE, "--by", by).splitlines()
            self.assertEqual(lines[1].split(), ["WITH", "INPUT", "BY"])
            self.assertEqual(lines[2].split()[:3], ["GROWTH", "CALLEES", by.upper()])
            self.assertTrue(" ".join(lines[3].split()).startswith(first), lines[3])
        self.assertNotIn("THREAD", show(QUEUE))

    def test_what_cannot_be(self) -> None:
        with tempfile.TemporaryDirectory() as folder:
            path = Path(folder, "report")
            path.write_text(Run([Call("main", 3)], ADDRESSES).text(version=1))
            said = "show: --by kernel needs a report of version 2, which tells who wrote the input\n"
            self.assertEqual(show(str(path), "--by", "kernel", status=2), said)
        self.assertIn("takes no --by", show(CACHE, "--by", "thread", status=2))


class Lines(unittest.TestCase):
    def lines_of(self, routine: Routine) -> list[str]:
        return detail(row_of(routine, None, 100, None), 80)

    def test_all_calls(self) -> None:
        last = self.lines_of(routine_of("takes", (4, 4, 0), (6, 10, 8)))[-1]
        self.assertEqual(last.split(), ["all", "2", "31%", "44%", "25%"])
        self.assertFalse(any(line.split()[0] == "all" for line in self.lines_of(routine_of("takes", (4, 4, 0)))))

    def test_note(self) -> None:
        text = show(QUEUE, "take", "put")
        self.assertEqual(" ".join(text.split()).count(NOTE), 1)
        self.assertLessEqual(max(map(len, text.splitlines())), 80)
        bare = row_of(Routine(0x10000, "old", [Point(8, 1, 9, 9, 9, None)]), None, 100, None)
        self.assertEqual(notes([bare], 80), ["A WORD is the greatest cost by word of the size"])
        self.assertEqual(notes([row_of(Routine(0x10000, "open"), None, 100, None)], 80), [])


if __name__ == "__main__":
    unittest.main()
