"""The parts of fuzz.py, gate.py, peers.py, refuse_memory.py and lanes.py that start nothing."""
from __future__ import annotations

import contextlib
import io
import os
import random
import unittest
from pathlib import Path
from unittest import mock

import fuzz
import gate
import host
import lanes
import peers
from gate import Work
from guests import EXIT, image
from host import Ended
from peers import NAMES, QEMU, Times, chosen, won
from refuse_memory import Left, is_part


class Fuzz(unittest.TestCase):
    def test_numbers(self) -> None:
        data = bytearray(b"\1\2\3\4")
        self.assertEqual([fuzz.number_at(data, at, 2) for at in (0, 2, 3)], [0x0201, 0x0403, 0])
        fuzz.put(data, 2, 2, 0x15678)
        fuzz.put(data, 3, 2, 0x9999)
        self.assertEqual(data, b"\1\2\x78\x56")

    def test_tables(self) -> None:
        self.assertEqual(fuzz.tables(image(EXIT)), [("program", 52)])
        kinds = {path.name: {kind for kind, _ in fuzz.tables(path.read_bytes())} for path in fuzz.GUESTS}
        self.assertEqual(kinds["words"], {"program", "section", "symbol"})
        self.assertEqual(fuzz.tables(b""), [])

    def test_the_same_for_a_seed(self) -> None:
        files = [path.read_bytes() for path in fuzz.GUESTS]
        first, again = ([fuzz.broken(random.Random(seed), files) for seed in range(20)] for _ in range(2))
        self.assertEqual(first, again)
        self.assertTrue(set(first) - set(files))

    def test_rules(self) -> None:
        tally, runs = fuzz.Tally(), [Ended(0, 0.1, 0.1, 9), Ended(3, 2.1, 0.1, 5), Ended(-11, 0.2, 0.1, 7)]
        self.assertEqual([tally.add(ended) for ended in runs], [False, True, True])
        self.assertEqual((tally.slowest, tally.largest, tally.wrong), (2.1, 9, 2))


class Gate(unittest.TestCase):
    def test_kinds(self) -> None:
        crate = ["--crate-name", "shadow"]
        self.assertEqual(gate.kind_of(["rattle", "check", *crate], set()), Work("shadow", "proof"))
        self.assertEqual(gate.kind_of(["rattle", "check", "--test", *crate], set()), Work("shadow", "tests"))
        self.assertEqual(gate.kind_of(["rattle", "build", "--crate-checked", *crate], set()), Work("shadow", "built"))
        edit = ["rattle", "check", "--incremental", "/tmp/rt-edits-1/k", *crate]
        self.assertEqual(gate.kind_of(edit, set()), Work("shadow", "first"))
        self.assertEqual(gate.kind_of(edit, {"shadow"}), Work("shadow", "edits"))

    def test_a_number_that_is_used_again(self) -> None:
        """Two processes of one number are two, by when they were started."""
        watched = gate.Watched()
        for started, ticks, crate in ((100, 50, "shadow"), (100, 70, "shadow"), (200, 30, "trace")):
            found = ["0"] * 19 + [str(started)]
            found[11] = str(ticks)
            watched.look("7", found, lambda _: ["rattle", "check", "--crate-name", crate])
        spent = {work.crate: took * gate.TICKS for (work, _), took in watched.spent.items()}
        self.assertEqual(spent, {"shadow": 70, "trace": 30})

    def test_checker(self) -> None:
        self.assertTrue(gate.is_checker(["/kit/bin/rattle", "check", "--crate-name", "shadow"]))
        self.assertFalse(gate.is_checker(["/kit/bin/rattle", "--version"]) or gate.is_checker([""]))

    def test_processes(self) -> None:
        found = gate.fields(str(os.getpid()))
        self.assertGreater(gate.seconds(found), 0)
        self.assertGreater(int(found[gate.STARTED]), 0)
        self.assertTrue(gate.is_below(str(os.getpid()), os.getppid()))
        self.assertEqual(gate.fields("0"), [])

    def test_table(self) -> None:
        spent = {(Work("a", "proof"), "7"): 60.0, (Work("a", "proof"), "8"): 30.0, (Work("b", "edits"), "9"): 1.0}
        rows = list(gate.table(gate.minutes_of(spent)))
        self.assertEqual(rows[2:4], ["| a | 1.5 |  |  |  |  |", "| b |  |  |  |  |  |"])
        self.assertEqual(rows[4:], ["| in all | 1.5 | 0.0 | 0.0 | 0.0 | 0.0 |"])


class Peers(unittest.TestCase):
    def test_times(self) -> None:
        self.assertEqual(Times(0.0131, 0.0134, 0.0142).told(3), "0.013, 0.013, 0.014")
        self.assertEqual(Times.beyond([1.5, 1.0], [4.0, 2.0, 3.0]), Times(1.0, 2.0, 3.0))

    def test_only(self) -> None:
        found: dict[str, list[host.Word]] = {name: ["true"] for name in NAMES.values() if name != QEMU}
        self.assertEqual(chosen(found, []), found)
        self.assertEqual(list(chosen(found, ["aprof", "host"])), ["the host", "aprof"])
        self.assertRaises(SystemExit, chosen, found, ["aprof", "qemu"])

    def test_pairs(self) -> None:
        def pairs_of(*seconds: tuple[float, float]) -> list[tuple[Ended, Ended]]:
            return [(Ended(0, 0.0, short, 0), Ended(0, 0.0, long, 0)) for short, long in seconds]

        aprof = pairs_of((0.5, 2.5), (0.25, 3.0), (0.5, 1.0))
        callgrind = pairs_of((1.0, 3.5), (1.0, 3.5), (2.0, 3.5))
        self.assertEqual((won(aprof, callgrind), won(callgrind, aprof)), (2, 1))
        self.assertEqual(won(aprof, aprof), 0)
        ended = {"aprof": aprof, "callgrind": callgrind}
        for only, last in ((["aprof", "callgrind"], "aprof took less of the processor than callgrind in 2 of 3 pairs"),
                           (["aprof"], "| aprof | 9 |")):
            with (mock.patch.multiple(peers, build=mock.Mock(return_value=peers.Built(Path("n"), Path("g"))),
                                      count_beyond=mock.Mock(return_value=9),
                                      in_turn=lambda few, many, folder, runs: {name: ended[name] for name in many}),
                  contextlib.redirect_stdout(io.StringIO()) as out):
                peers.compare(Path("aprof"), Path(), 3, only)
            self.assertTrue(out.getvalue().splitlines()[-1].startswith(last), out.getvalue())


class Refused(unittest.TestCase):
    def test_parts(self) -> None:
        whole = Left(0, b"out", b"err", b"recording", b"report", 9)
        said = b"aprof: out of memory\n"
        self.assertEqual(whole, Left(0, b"out", b"err", b"recording", b"report", 8))
        self.assertTrue(is_part(Left(10, b"o", said, None, None, 2), whole))
        self.assertTrue(is_part(Left(10, b"out", b"err" + said, b"recording", b"report", 2), whole))
        self.assertFalse(is_part(Left(10, b"o", said, b"recording", None, 2), whole))
        self.assertFalse(is_part(Left(1, b"o", said, None, None, 2), whole))


class Lanes(unittest.TestCase):
    def test_source(self) -> None:
        text = lanes.source()
        self.assertNotRegex(text, r"STAMP|NAME|MOST")
        for width in lanes.WIDTHS:
            self.assertTrue(all(f"fn {holder}_{width}(" in text for holder in lanes.KERNELS.values()))

    def test_vectors(self) -> None:
        code = ["movdqu (%rdi),%xmm0", "paddb  %xmm1,%xmm0", "pmovmskb %xmm0,%eax", "paddb  %xmm1,%xmm0"]
        self.assertEqual(lanes.vectors("".join(f"  10:\t{line}\n" for line in code)), "`paddb` 2, `pmovmskb` 1")
        self.assertEqual(lanes.vectors("  10:\tret\n"), "none")


if __name__ == "__main__":
    unittest.main()
