"""What host.py tells of a child, and its arithmetic."""
from __future__ import annotations

import argparse
import os
import signal
import subprocess
import sys
import tempfile
import unittest
from pathlib import Path
from unittest import mock

import host
from host import Bench, Cost

HOLDING = "import time; held = b'a' * (64 << 20); time.sleep(0.2)"
"""A program that has 64 MiB for a while."""


class Children(unittest.TestCase):
    def test_status(self) -> None:
        self.assertEqual(host.run(["sh", "-c", "exit 3"]).status, 3)
        self.assertEqual(host.run(["sh", "-c", "kill -9 $$"]).status, -signal.SIGKILL)
        self.assertEqual(host.run(["sleep", "60"], every=0.005, longest=0.05).status, -signal.SIGKILL)

    def test_seconds(self) -> None:
        ended = host.run(["sleep", "0.2"])
        self.assertGreaterEqual(ended.clock, 0.2)
        self.assertLess(ended.processor, 0.2)
        with self.assertRaises(subprocess.CalledProcessError):
            host.seconds(["false"])

    def test_memory_that_is_looked_at(self) -> None:
        self.assertGreater(host.run([sys.executable, "-c", HOLDING], every=0.005).memory, 64 << 10)
        self.assertEqual(host.memory(2**30), 0)

    def test_memory_of_the_kernel(self) -> None:
        self.assertGreater(host.run([sys.executable, "-c", HOLDING]).memory, 64 << 10)

    def test_folder_and_what_is_done_before(self) -> None:
        with tempfile.TemporaryDirectory() as folder:
            host.run(["sh", "-c", "umask > mask"], folder=Path(folder), before=lambda: os.umask(0o57))
            self.assertEqual(Path(folder, "mask").read_text(), "0057\n")

    def test_what_callgrind_says(self) -> None:
        said = mock.Mock(returncode=0, stderr=b"==7== Events    : Ir\n==7== Collected : 21964\n")
        with mock.patch("subprocess.run", return_value=said):
            self.assertEqual(host.instructions(["aprof"]), 21964)
            said.returncode = 1
            self.assertEqual(host.instructions(["lanes"], statuses=(0, 1)), 21964)
            self.assertRaises(subprocess.CalledProcessError, host.instructions, ["aprof"])
            said.stderr = b"no-such-program: command not found\n"
            self.assertRaises(host.NotCounted, host.instructions, ["no-such-program"])


class Words(unittest.TestCase):
    def test_program(self) -> None:
        self.assertEqual(host.program(sys.executable), Path(sys.executable).resolve())
        with self.assertRaises(argparse.ArgumentTypeError):
            host.program("no-such-program")

    def test_positive(self) -> None:
        self.assertEqual(host.positive("1"), 1)
        self.assertRaises(argparse.ArgumentTypeError, host.positive, "0")

    def test_command_line(self) -> None:
        with tempfile.TemporaryDirectory() as made:
            folder = Path(made)
            (folder / "report").touch()
            words = Bench(Path("aprof"), folder, host.CONTEXTS).prepared(b"guest", ["--stamps", "8"])
            self.assertEqual(words[:4], [Path("aprof"), "contexts", "--stamps", "8"])
            self.assertEqual(words[4:], ["--stdin", folder / "stdin", "-o", folder / "report", folder / "guest"])
            self.assertEqual((folder / "guest").read_bytes(), b"guest")
            self.assertFalse((folder / "report").exists())
            self.assertEqual((folder / "stdin").stat().st_size, 1 << 20)


class Reports(unittest.TestCase):
    def test_steps(self) -> None:
        self.assertEqual(host.steps_of("aprof 2\nend exit 0\nsteps 21964\nopen 0\n"), 21964)
        with self.assertRaises(SystemExit):
            host.steps_of("aprof 2\nend exit 1\nsteps 21964\nopen 0\n")

    def test_cost(self) -> None:
        cost = Cost(30, 700).beyond(Cost(10, 200))
        self.assertEqual((cost, cost.a_step), (Cost(20, 500), 25.0))


if __name__ == "__main__":
    unittest.main()
