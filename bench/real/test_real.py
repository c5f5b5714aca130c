"""Tests of the parts that run no program: `python3 -m unittest discover -s real -t .` in bench/."""
from __future__ import annotations

import json
import struct
import sys
import tempfile
import unittest
from pathlib import Path
from unittest import mock

from real import building, command, inputs, refused
from real.measuring import read_report, routine_of
from real.recipes import RECIPES

CONTEXTS = """aprof 2
end exit 0
steps 21964
open 0
routine 00010074 main
3 1 5 5 5 3 0 0 3
4 2 5 6 11 8 0 0 8
contexts 1
context 0 00010074
3 1 5 5 5 3 0 0 3
context 1 00010080
done 2
"""

SHOWN = """21964 instructions, end exit 0, 0 still open
          WITH
GROWTH CALLEES SPREAD CALLS POINTS SIZES  ROUTINE
!x4.0~   92.1%    1.0     5      5  4-64  std::sort of a list  (66% in swap, 10 calls, each about linear)
"""

LI_A7, LI_A7_STATX, MV_A7_A0, LI_A0, NOP = 0x03F00893, 0x12300893, 0x00050893, 0x02300513, 0x00000013


def executable(code: list[int]) -> bytes:
    """An executable of one segment at 0x10000, whose code begins at 84 in the file."""
    head = bytearray(84)
    struct.pack_into("<I", head, 28, 52)
    struct.pack_into("<HH", head, 42, 32, 1)
    struct.pack_into("<8I", head, 52, 1, 84, 0x10000, 0x10000, 4 * len(code), 4 * len(code), 5, 4)
    return bytes(head) + struct.pack(f"<{len(code)}I", *code)


class Inputs(unittest.TestCase):
    def test_the_same_each_time(self) -> None:
        for recipe in RECIPES:
            self.assertEqual(recipe.maker(2), recipe.maker(2), recipe.name)

    def test_grow_with_the_scale(self) -> None:
        for maker in {recipe.maker for recipe in RECIPES} - {inputs.script}:
            small, large = len(maker(10)), len(maker(100))
            self.assertTrue(8 * small < large < 12 * small, (maker.__name__, small, large))

    def test_people_are_json(self) -> None:
        self.assertEqual(len(json.loads(inputs.people(3))), 30)


class Reports(unittest.TestCase):
    def test_counts(self) -> None:
        report = read_report(CONTEXTS)
        self.assertEqual((report.end, report.steps, report.points, report.contexts), ("exit 0", 21964, 2, 2))

    def test_first_routine(self) -> None:
        self.assertEqual(routine_of(SHOWN.splitlines()), "std::sort of a list !x4.0~, 92.1%")
        self.assertEqual(routine_of(["5 instructions"]), "none")


class Refused(unittest.TestCase):
    def test_table(self) -> None:
        taken = refused.known()
        self.assertTrue({29, 56, 422} <= taken and 291 not in taken and len(taken) > 20)

    def test_numbers_before_calls(self) -> None:
        image = executable([LI_A7_STATX, NOP, refused.ECALL, LI_A7, refused.ECALL, MV_A7_A0, refused.ECALL])
        self.assertEqual(refused.sites(image, set()), {0x10008: (92, 291), 0x10010: (100, 63), 0x10018: (108, None)})

    def test_calls_of_waiting_routines(self) -> None:
        forward = [LI_A0, 0x00000097, 0x010080E7, LI_A0, 0x008000EF]
        self.assertEqual(refused.sites(executable(forward), {0x10014}), {0x10008: (92, 35)})
        self.assertEqual(refused.sites(executable(forward), {0x10018}), {0x10010: (100, 35)})

    def test_a_breakpoint_of_the_guest_is_an_end(self) -> None:
        guest = mock.Mock(**{"read_bytes.return_value": executable([LI_A7_STATX, refused.ECALL])})
        ends = ["fault 7 1 00010004", "fault 7 1 00010100"]
        with mock.patch.object(refused, "waiting_routines", return_value=set()):
            probe = refused.Probe(mock.Mock(guest=guest), 1)
        with mock.patch.object(probe, "end", side_effect=ends):
            self.assertEqual(probe.numbers(()), ({291}, ends[1]))


class Packages(unittest.TestCase):
    def test_a_package_without_its_description(self) -> None:
        with tempfile.TemporaryDirectory() as folder:
            self.assertRaises(building.LeftOut, building.version, RECIPES[0], Path(folder))


class Words(unittest.TestCase):
    def test_options(self) -> None:
        options = command.options_of(["--program", sys.executable, "--no-host"])
        self.assertEqual((options.program, options.with_host), (Path(sys.executable).resolve(), False))
        self.assertEqual(command.scales("10,1"), [1, 10])
        self.assertEqual([recipe.name for recipe in command.chosen(["tcc", "lz4 -9"])], ["lz4 -9", "tcc -E"])
        with self.assertRaises(SystemExit):
            command.chosen(["emacs"])

    def test_cells(self) -> None:
        self.assertEqual([command.millions(steps) for steps in (345_678, 3_456_789, 345_678_901)], ["0.35", "3.5", "346"])
        self.assertEqual(command.row(["a|b", "c"]), "| a\\|b | c |")


if __name__ == "__main__":
    unittest.main()
