"""A run by the launcher, with a fake program: signals, standard input, half output and what is told of a long run."""
from __future__ import annotations

import os
import pty
import select
import shutil
import signal
import subprocess
import time
import unittest
from pathlib import Path

from tests.launched import Launched

UNFINISHED = "aprof: no report is stored; with --budget N a run ends after N instructions, and its report is stored\n"


class Runs(Launched):
    def test_standard_input(self) -> None:
        self.assertIn("what is read", self.run_words("run -o r bubble", text="what is read", FAKE_READ="1").stdout)

    def test_unread_input(self) -> None:
        """A file behind `<` is not what the program reads, which is said before the run."""
        note = "aprof: the program does not read `< FILE`; --stdin FILE gives it the file\n"
        cases = [("run -o r bubble", "text", note), ("run --stdin text -o r bubble", "text", ""), ("replay -o r trace", "text", ""),
                 ("run -o r bubble", "/dev/null", "")]  # fmt: skip
        (self.folder / "trace").write_text("aprof trace 1\n")
        for words, path, told in cases:
            with open(self.folder / path, "rb") as file:
                done = subprocess.run([str(self.launcher), *words.split()], cwd=self.folder, stdin=file, capture_output=True, text=True)
            self.assertEqual((done.returncode, done.stderr), (0, told), words)

    def test_unread_pipe(self) -> None:
        """Nor is what comes through a pipe, which is said where something came before the run."""
        note = "aprof: the program does not read the pipe; --stdin /dev/stdin gives it what comes (`< /dev/null`: nothing)\n"
        (self.folder / "text").touch()
        cases = [("run -o r bubble", "text", note), ("run -o r bubble", "", ""), ("run --stdin text -o r bubble", "text", "")]
        for words, text, told in cases:
            self.assertEqual(self.run_words(words, text=text).stderr, told, words)

    def test_installed(self) -> None:
        """Where there are no crates the program stands in bin/, and nothing is built."""
        (self.top / "bin").mkdir()
        (self.top / "crates/aprof/out/aprof").rename(self.top / "bin/aprof")
        shutil.rmtree(self.top / "crates")
        self.assertEqual(self.run_words("run -o r bubble").stdout, "words: run -o r bubble\n")
        (self.folder / "aprof").symlink_to(self.launcher)
        done = subprocess.run([str(self.folder / "aprof"), "demo", "3"], cwd="/", capture_output=True, text=True)
        self.assertEqual((done.returncode, done.stdout), (0, "words: demo 3\n"))

    def test_exit_code_of_the_guest(self) -> None:
        """Where it is not 0 the guest may have missed a file; the status stays 0."""
        for code, words, is_told in ((3, "run", True), (0, "run", False), (3, "contexts", True), (3, "trace", False)):
            done = self.run_words(f"{words} -o r bubble", FAKE_STORED=f"aprof 2\\nend exit {code}\\nsteps 1\\nopen 0\\ndone 0\\n")
            self.assertEqual((done.returncode, "bubble ended with exit code 3; if it could not open a file" in done.stderr), (0, is_told))

    def test_signals(self) -> None:
        """A signal to the launcher ends the program too; the launcher ends by the same signal."""
        for number in (signal.SIGINT, signal.SIGTERM, signal.SIGHUP):
            started = self.started()
            os.kill(started.pid, number)
            out, err = started.communicate(timeout=20)
            self.assertEqual((started.returncode, out, err), (-number, "", UNFINISHED))
            self.assertEqual(self.sleeping(), [])

    def test_status_of_ctrl_c(self) -> None:
        """130 for a shell, where the terminal's whole group gets the signal."""
        started = self.started(start_new_session=True)
        os.killpg(started.pid, signal.SIGINT)
        started.communicate(timeout=20)
        self.assertEqual(started.returncode, -signal.SIGINT)
        text = f"set -m; {self.launcher} run -o r bubble & sleep 0.5; kill -INT -$!; wait $!; echo $?"
        environment = os.environ | {"FAKE_SLEEP": "30"}
        done = subprocess.run(["bash", "-c", text], cwd=self.folder, env=environment, capture_output=True, text=True)
        self.assertEqual(done.stdout.splitlines()[-1], "130")

    def test_ignored_signals(self) -> None:
        """Where Ctrl-C is ignored, as behind `&` in a script, it stays so."""
        started = self.started(head="trap '' INT; ")
        os.kill(started.pid, signal.SIGINT)
        time.sleep(0.3)
        self.assertIsNone(started.poll())
        os.kill(started.pid, signal.SIGTERM)
        started.communicate(timeout=20)

    def test_half_output(self) -> None:
        """What was stored in part is removed; an older file, or a whole one, stays."""
        whole = "aprof 2\\nend exit 0\\nsteps 1\\nopen 0\\ndone 0\\n"
        for stored, is_left in (("aprof 2\\nend ex", False), (whole, True)):
            started = self.started(FAKE_STORED=stored)
            os.kill(started.pid, signal.SIGTERM)
            _, err = started.communicate(timeout=20)
            self.assertEqual((self.folder / "r").exists(), is_left)
            self.assertEqual(err, "" if is_left else f"aprof: r was written in part, and is removed\n{UNFINISHED}")
        for stored in ("my notes\\n", "my notes"):
            (self.folder / "r").unlink()
            started = self.started(FAKE_STORED=stored)
            os.kill(started.pid, signal.SIGINT)
            self.assertEqual(started.communicate(timeout=20)[1], UNFINISHED)
            self.assertTrue((self.folder / "r").read_text().startswith("my notes"))
        (self.folder / "r").write_text("aprof 2\nend ex")
        started = self.started()
        os.kill(started.pid, signal.SIGINT)
        self.assertEqual(started.communicate(timeout=20)[1], UNFINISHED)
        self.assertTrue((self.folder / "r").exists())
        (self.folder / "r").write_text("aprof 2\nold")
        os.utime(self.folder / "r", (1, 1))
        started = self.started()
        os.kill(started.pid, signal.SIGTERM)
        started.communicate(timeout=20)
        self.assertEqual((self.folder / "r").read_text(), "aprof 2\nold")

    def started(self, head: str = "", start_new_session: bool = False, **more: str) -> subprocess.Popen[str]:
        """A run that goes on until a signal."""
        environment = os.environ | {"FAKE_SLEEP": "30", "APROF_PROGRESS_AFTER": "0.1"} | more
        started = subprocess.Popen(
            ["bash", "-c", f"{head}exec {self.launcher} run -o r bubble"], cwd=self.folder, env=environment, text=True,
            stdout=subprocess.PIPE, stderr=subprocess.PIPE, start_new_session=start_new_session,
        )  # fmt: skip
        assert started.stdout is not None
        self.assertEqual(started.stdout.readline(), "words: run -o r bubble\n")
        while not self.sleeping():
            time.sleep(0.02)
        return started

    def sleeping(self) -> list[str]:
        """The programs that run in this test's folder."""
        found = []
        for place in Path("/proc").glob("[0-9]*"):
            try:
                if (place / "cwd").resolve() == self.folder.resolve() and (place / "comm").read_text() == "sleep\n":
                    found.append(place.name)
            except OSError:
                continue
        return found

    def test_progress(self) -> None:
        """Lines where it is asked for and there is no terminal; the word isn't the program's."""
        done = self.run_words("run -o r --progress bubble", FAKE_SLEEP="1", APROF_PROGRESS_AFTER="0.1")
        self.assertEqual(done.stdout, "words: run -o r bubble\n")
        self.assertRegex(done.stderr, r"\Aaprof: running for [01] s, [0-9]+ [A-Z]iB of memory, [0-9]+ bytes written\n\Z")
        self.assertEqual(self.run_words("run -o r bubble", FAKE_SLEEP="0.5", APROF_PROGRESS_AFTER="0.1").stderr, "")

    def test_terminal(self) -> None:
        """On a terminal, behind the cursor, and erased at the end; nothing of a short run."""
        for seconds, is_told in (("1.5", True), ("0", False)):
            own, its = pty.openpty()
            environment = os.environ | {"FAKE_SLEEP": seconds, "APROF_PROGRESS_AFTER": "0.2"}
            words, out = [str(self.launcher), "run", "-o", "r", "bubble"], subprocess.DEVNULL
            subprocess.run(words, cwd=self.folder, env=environment, stdout=out, stderr=its)
            text = b""
            while select.select([own], [], [], 0)[0]:
                text += os.read(own, 65536)
            os.close(own)
            os.close(its)
            self.assertEqual(b"aprof: running for" in text, is_told)
            self.assertEqual(text.endswith(b"\x1b8\x1b[K"), is_told, text)


if __name__ == "__main__":
    unittest.main()
