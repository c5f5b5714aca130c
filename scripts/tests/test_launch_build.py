"""The build by the launcher, with a fake `rt`: what is built, what is said of it, and how it goes on after a stop."""
from __future__ import annotations

import json
import os
import signal
import subprocess
import sys
import tempfile
import time
import unittest
from collections.abc import Callable
from pathlib import Path

from tests.samples import ROOT

# crates of a program, and one that only tests need
CRATES = {"a": "std", "b": "a", "c": "a", "d": "b c clap", "e": "", "t": "d", "aprof": "d e"}
OF_PROGRAM = ["a", "b", "c", "d", "e", "aprof"]
FILES = ["src/lib.rt", "specs/S.antt", "must-fail/one.edit", "out/incremental/work"]
FILES_OF_PROGRAM = ["src/main.rt", "stdout", "data/img", "out/aprof.stamp"]


class Repository:
    """A copy of the launcher over small crates."""

    def __init__(self, folder: Path) -> None:
        self.top, self.tools, self.notes = folder / "top", folder / "tools", folder / "notes"
        self.tools.mkdir(parents=True)
        text = (ROOT / "scripts/tests/fake_rt.py").read_text()
        (self.tools / "rt").write_text(f"#!{sys.executable} -S\n{text}")
        (self.tools / "rt").chmod(0o755)
        self.top.mkdir()
        (self.top / "aprof").write_bytes((ROOT / "aprof").read_bytes())
        (self.top / "aprof").chmod(0o755)
        (self.top / "scripts").symlink_to(ROOT / "scripts")
        self.write("crates.txt", "".join(f"# {name}\n{name}: {deps}\n" for name, deps in CRATES.items()))
        self.write("HANDLES", "Handles allowed: none.\n")
        for name in CRATES:
            for file in FILES_OF_PROGRAM if name == "aprof" else FILES:
                self.write(f"crates/{name}/{file}", name)

    @property
    def program(self) -> Path:
        return self.top / "crates/aprof/out/aprof"

    @property
    def log(self) -> Path:
        return self.top / "crates/aprof/out/build.log"

    def write(self, name: str, text: str) -> None:
        path = self.top / name
        path.parent.mkdir(parents=True, exist_ok=True)
        path.write_text(text)

    def start(self, **more: str) -> subprocess.Popen[str]:
        environment = {"PATH": f"{self.tools}:{os.environ['PATH']}", "FAKE_LOG": str(self.notes), "APROF_HINTS": "0"}
        words = [str(self.top / "aprof"), "demo", "1"]
        return subprocess.Popen(
            words, env=os.environ | environment | more, stdout=subprocess.PIPE, stderr=subprocess.PIPE, text=True
        )

    def run(self, **more: str) -> tuple[int, str, str]:
        return self.result(self.start(**more))

    def result(self, started: subprocess.Popen[str]) -> tuple[int, str, str]:
        out, err = started.communicate(timeout=60)
        return started.returncode, out, err

    def noted(self, event: str) -> list[dict[str, object]]:
        lines = self.notes.read_text().splitlines() if self.notes.exists() else []
        return [note for note in map(json.loads, lines) if note["event"] == event]

    def begun(self) -> list[str]:
        """The crates of which a proof was begun."""
        return [str(note["crate"]) for note in self.noted("begin")]

    def wait_for(self, is_so: Callable[[], object]) -> None:
        until = time.monotonic() + 30
        while not is_so() and time.monotonic() < until:
            time.sleep(0.02)

    def left(self) -> list[str]:
        """The processes of the gates that are there, and what is left of their rooms."""
        sessions = {str(note["session"]) for note in self.noted("ci")}
        stats = [text_of(path).rpartition(")")[2].split() for path in Path("/proc").glob("[0-9]*/stat")]
        running = [fields[3] for fields in stats if len(fields) > 3 and fields[0] != "Z" and fields[3] in sessions]
        return running + [path.name for path in (self.top / "build").iterdir() if path.name != "lock"]


def text_of(path: Path) -> str:
    try:
        return path.read_text()
    except OSError:
        return ""


class Builds(unittest.TestCase):
    def setUp(self) -> None:
        folder = tempfile.TemporaryDirectory()
        self.addCleanup(folder.cleanup)
        self.repository = Repository(Path(folder.name))

    def assert_built(self, result: tuple[int, str, str]) -> None:
        self.assertEqual(result[:2], (0, "built\n"), result[2])
        self.assertEqual(self.repository.left(), [])

    def test_from_nothing(self) -> None:
        """Only what the program needs is proved, of whole crates, and there is no edit to try."""
        self.repository.write("build/rooms/a/crates.txt", "a:\n")
        result = self.repository.run(APROF_JOBS="3")
        self.assert_built(result)
        self.assertEqual(self.repository.begun(), OF_PROGRAM)
        (gate,) = self.repository.noted("ci")
        of_libraries = [f"crates/{name}/{file}" for name in OF_PROGRAM[:-1] for file in FILES[:2]]
        of_program = [f"crates/aprof/{file}" for file in FILES_OF_PROGRAM[:3]]
        self.assertEqual(gate["files"], sorted([".git", "HANDLES", "crates.txt", *of_libraries, *of_program]))
        self.assertEqual((gate["words"], gate["jobs"]), (["ci"], "3"))
        log = self.repository.log
        said = rf"^aprof: proving and building the program \(from nothing .* on 3 cores\); the log is {log}\n$"
        self.assertRegex(result[2], said)
        self.assertTrue(log.read_text().endswith("rt: ok; handles allowed: none\n6 passed, 0 failed\n"))

    def test_nothing_new(self) -> None:
        """Nothing is run again where the program is there: also where what changed is not its own, or was changed back."""
        self.assert_built(self.repository.run())
        for file, text in (("crates/t/src/lib.rt", "changed"), ("crates/c/src/lib.rt", "c")):
            time.sleep(0.02)
            self.repository.write(file, text)
            self.assertEqual(self.repository.run(), (0, "built\n", ""))
        self.assertEqual(len(self.repository.noted("ci")), 1)

    def test_a_change(self) -> None:
        """What it is made of is proved anew, and so is the program where another stands in its place."""
        self.assert_built(self.repository.run())
        for file in ("crates/c/src/lib.rt", "crates/c/specs/S.antt"):
            time.sleep(0.02)
            self.repository.write(file, "changed")
            self.assert_built(self.repository.run())
        self.assertEqual(self.repository.begun(), [*OF_PROGRAM, "c"])
        self.repository.program.write_text("#!/bin/sh\necho another\n")
        (self.repository.log.with_name("launcher.stamp")).unlink()
        self.assert_built(self.repository.run())
        self.assertEqual(len(self.repository.noted("ci")), 4)

    def test_a_crate_that_is_not_proved(self) -> None:
        """It is told, with the last lines on it; the crates above it are not. An older program is not run."""
        self.assert_built(self.repository.run())
        time.sleep(0.02)
        self.repository.write("crates/c/src/lib.rt", "changed")
        status, out, err = self.repository.run(FAKE_FAIL="c")
        self.assertEqual((status, out), (70, ""))
        head = f"aprof: the build failed at c, status 1; the end of what it said, all of which is in {self.repository.log}:\n"
        self.assertTrue(err.endswith(f"{head}fn c::f: not proved\nrt: c NOT PROVED\n"), err)
        self.assertEqual(self.repository.left(), [])
        self.assert_built(self.repository.run())
        self.assertEqual(self.repository.begun(), [*OF_PROGRAM, "c", "c"])

    def test_a_program_that_fails(self) -> None:
        status, out, err = self.repository.run(FAKE_FAIL="run")
        self.assertEqual((status, out), (70, ""))
        self.assertIn("aprof: the build failed at aprof (run), status 1;", err)
        self.assertTrue(err.endswith("and not 0; it said: no\nrt: FAILED: aprof (run)\n5 passed, 1 failed\n"), err)
        self.assertFalse(self.repository.program.exists())

    def test_a_stop(self) -> None:
        """Nothing goes on, and what was proved is not proved again."""
        for count, number in enumerate((signal.SIGINT, signal.SIGTERM, signal.SIGHUP), 1):
            started = self.repository.start(FAKE_SECONDS="0.5")
            self.repository.wait_for(lambda: len(self.repository.noted("end")) >= count)
            os.kill(started.pid, number)
            status, _, err = self.repository.result(started)
            self.assertEqual(status, 128 + number, err)
            self.assertTrue(err.endswith("aprof: the build was stopped; the next one goes on from here\n"), err)
            self.assertEqual(self.repository.left(), [])
        proved = [str(note["crate"]) for note in self.repository.noted("end")]
        self.repository.notes.unlink()
        self.assert_built(self.repository.run())
        self.assertEqual(proved + self.repository.begun(), OF_PROGRAM)

    def test_a_pause(self) -> None:
        """Ctrl-Z pauses the gate too, which hears nothing of it."""
        started = self.repository.start(FAKE_SECONDS="0.3")
        self.repository.wait_for(self.repository.begun)
        os.kill(started.pid, signal.SIGTSTP)
        os.waitid(os.P_PID, started.pid, os.WSTOPPED)
        self.repository.wait_for(lambda: self.repository.noted("paused"))
        self.assertEqual(self.repository.noted("continued"), [])
        os.kill(started.pid, signal.SIGCONT)
        self.assert_built(self.repository.result(started))
        self.assertEqual(len(self.repository.noted("continued")), 1)

    def test_a_build_that_was_killed(self) -> None:
        """The next one waits for the gate that goes on, takes over what it proved, and removes its room."""
        started = self.repository.start(FAKE_SECONDS="0.2")
        self.repository.wait_for(self.repository.begun)
        started.kill()
        self.repository.result(started)
        self.assertIn("room", self.repository.left())
        result = self.repository.run()
        self.assertIn("aprof: another ./aprof builds the program; waiting for it\n", result[2])
        self.assert_built(result)
        self.assertEqual(self.repository.begun(), OF_PROGRAM)

    def test_two_at_once(self) -> None:
        """The second waits, says so, and builds nothing."""
        first = self.repository.start(FAKE_SECONDS="0.1")
        self.repository.wait_for(self.repository.begun)
        second = self.repository.start()
        self.assert_built(self.repository.result(first))
        result = self.repository.result(second)
        self.assertEqual(result, (0, "built\n", "aprof: another ./aprof builds the program; waiting for it\n"))
        self.assertEqual(len(self.repository.noted("ci")), 1)

    def test_lines(self) -> None:
        """Each line counts the crates that are done, and says what is left."""
        self.assert_built(self.repository.run(FAKE_SECONDS="0.1"))
        time.sleep(0.02)
        for name in ("d", "e", "aprof"):
            self.repository.write(f"crates/{name}/src/{'main' if name == 'aprof' else 'lib'}.rt", "changed")
        _, _, err = self.repository.run(FAKE_SECONDS="0.5", APROF_BUILD_SECONDS="0.1")
        lines = [line for line in err.splitlines() if " of 6 crates, " in line]
        for line in lines:
            self.assertRegex(line, r"^aprof: [0-6] of 6 crates, (about [1-9] minutes?|less than a minute) left$")
        counts = [int(line.split()[1]) for line in lines]
        self.assertEqual(counts, sorted(counts))
        self.assertLessEqual({3, 4, 5}, set(counts))

    def test_without_rt(self) -> None:
        (self.repository.tools / "rt").unlink()
        path = os.pathsep.join(part for part in os.environ["PATH"].split(os.pathsep) if not Path(part, "rt").exists())
        status, _, err = self.repository.run(PATH=path)
        self.assertEqual(status, 71)
        self.assertIn("rt, which builds it, is not on the path", err)


if __name__ == "__main__":
    unittest.main()
