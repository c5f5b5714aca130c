"""The report that slow.py makes of a trace, on the examples of docs/DEFINITIONS.md."""
from __future__ import annotations

import contextlib
import io
import struct
import sys
import unittest
from unittest import mock

import slow
from real import building
from slow import CALL, END, FILL, LAST, MAGIC, NAME, READ, RETURN, START, STEP, WRITE

Numbers = tuple[int, ...]


def trace(*events: Numbers, ended: int = 0) -> bytes:
    """The text of a trace that comes to its end."""
    records = b"".join(struct.pack(f"<B{len(event) - 1}I", *event) for event in events)
    name = struct.pack("<BII", NAME, 0x10064, 5) + b"twice"
    return MAGIC + records + name + struct.pack("<BBI", LAST, 0, ended)


def points(*events: Numbers) -> list[str]:
    """The lines of the routines' points."""
    return [line for line in slow.report_of(trace(*events)).splitlines() if line[0].isdigit()]


class Definitions(unittest.TestCase):
    def test_the_whole_text(self) -> None:
        """Thread 1 starts at 0x10054 and calls 0x10064, which reads a word twice."""
        call, back = [(STEP, 1), (CALL, 1, 0x10064, 0x10060)], [(STEP, 1), (RETURN, 1, 0x10060)]
        reads = [(STEP, 1), (READ, 1, 7, 1), (STEP, 1), (READ, 1, 7, 1)]
        last = [(STEP, 1), (STEP, 1), (END, 1)]
        text = slow.report_of(trace((START, 1, 0x10054), (STEP, 1), *call, *reads, *back, *last, ended=3))
        told = ["aprof 2", "end exit 3", "steps 7", "open 0", "routine 00010054 -", "1 1 7 7 7 1 0 0 1"]
        self.assertEqual(text.splitlines(), [*told, "routine 00010064 twice", "1 1 3 3 3 1 0 0 1", "done 2"])

    def test_what_another_thread_wrote(self) -> None:
        """A routine reads words 7 and 8, and 7 again, which another thread wrote before the last read."""
        first = [(START, 1, 4), (STEP, 1), (READ, 1, 7, 2), (START, 2, 8)]
        other = [(STEP, 2), (WRITE, 2, 7, 1), (STEP, 1), (READ, 1, 7, 1), (END, 1)]
        self.assertEqual(points(*first, *other), ["3 1 2 2 2 2 1 0 2"])

    def test_what_was_written_before_the_call(self) -> None:
        """A routine's only read is of a word that the kernel wrote before the call: its caller counts it too."""
        begin = [(START, 1, 4), (FILL, 7, 1), (STEP, 1), (CALL, 1, 16, 8)]
        told = points(*begin, (STEP, 1), (READ, 1, 7, 1), (RETURN, 1, 8), (END, 1))
        self.assertEqual(told, ["1 1 2 2 2 0 0 1 1", "1 1 1 1 1 0 0 1 1"])

    def test_returns(self) -> None:
        """A return to the outer of two calls ends both, and one to no call's address none."""
        calls = [(START, 1, 4), (STEP, 1), (CALL, 1, 16, 8), (STEP, 1), (CALL, 1, 32, 12), (STEP, 1)]
        text = slow.report_of(trace(*calls, (RETURN, 1, 20), (RETURN, 1, 8)))
        told = [line for line in text.splitlines() if line.startswith(("open", "routine"))]
        self.assertEqual(told, ["open 1", "routine 00000010 -", "routine 00000020 -"])

    def test_an_own_write_is_known(self) -> None:
        """A word that the routine wrote first counts in neither size."""
        told = points((START, 1, 4), (STEP, 1), (WRITE, 1, 7, 1), (STEP, 1), (READ, 1, 7, 1), (END, 1))
        self.assertEqual(told, ["0 1 2 2 2 0 0 0 0"])

    def test_where_nothing_is_compared_the_status_is_1(self) -> None:
        left_out = mock.Mock(side_effect=building.LeftOut("no network"))
        with (mock.patch.multiple(building, compiler=mock.Mock(), fetch=mock.Mock(), build=left_out),
              contextlib.redirect_stdout(io.StringIO()) as out):
            self.assertEqual(slow.main(["--program", sys.executable, "cJSON"]), 1)
        self.assertEqual(out.getvalue(), "cJSON: left out: no network\n")

    def test_no_trace(self) -> None:
        with self.assertRaises(ValueError):
            slow.report_of(b"aprof 2\n")
