"""What the launcher lets a run write: a path that can't be written is refused before the run."""
from __future__ import annotations

import os
import subprocess
import unittest
from unittest.mock import patch

from aprof_launch.hints import Hints
from aprof_launch.words import read_words
from tests.launched import Launched

# the words and why nothing is run
REFUSED = (
    ("run -o no/r bubble", "no/r: no such folder"),
    ("run -o r/ bubble", "r/: no such folder"),
    ("run -o folder bubble", "folder: it is a folder"),
    ("run -o folder/ bubble", "folder/: it is a folder"),
    ("run -o text/r bubble", "text/r: no such folder"),
    ("run -o=no/r bubble", "no/r: no such folder"),
    ("run -ono/r bubble", "no/r: no such folder"),
    ("run -o bubble bubble", "bubble: it is the program itself"),
    ("run -o ./bubble bubble", "./bubble: it is the program itself"),
    ("run -o link bubble", "link: it is the program itself"),
    ("run -o text bubble text", "text: it is one of the input files"),
    ("run --stdin text -o text bubble", "text: it is the standard input itself"),
    ("run --schedule text -o text bubble", "text: it is the schedule itself"),
    ("replay -o text text", "text: it is the trace itself"),
    ("run --record r -o r bubble", "r: --record and -o name the same file"),
    ("run --record ./text -o text bubble", "./text: --record and -o name the same file"),
    ("run --record no/k -o r bubble", "no/k: no such folder"),
    ("run --record bubble -o r bubble", "bubble: it is the program itself"),
    ("run -o /proc/x bubble", "/proc/x: it can't be created there"),
    ("run -o dangling bubble", "dangling: no such folder"),
    ("run -o text bubble", "text: it is no report, and is not overwritten"),
    ("cache --sets 1 --ways 1 --line 4 -o text link", "text: it is no report, and is not overwritten"),
    ("trace -o text bubble", "text: it is no trace, and is not overwritten"),
    ("run --record text -o r bubble", "text: it is no recording, and is not overwritten"),
)  # fmt: skip

# words that are run as they stand
RUN = (
    "run -o r bubble =1 text",
    "run -o /dev/null bubble",
    "run --record /dev/null -o /dev/null bubble",
    "run --record k -o folder/r bubble text text",
    "run -o r -- bubble --progress -h --help",
    "run -o r bubble =-o",
    "demo 4",
    "trace -o r bubble",
)


class Outputs(Launched):
    def test_refused(self) -> None:
        for words, text in REFUSED:
            with self.subTest(words=words):
                done = self.run_words(words)
                self.assertEqual((done.returncode, done.stdout, done.stderr), (4, "", f"aprof: cannot write {text}\n"))

    @unittest.skipIf(os.geteuid() == 0, "root may write everywhere")
    def test_rights(self) -> None:
        (self.folder / "text").chmod(0o400)
        (self.folder / "folder").chmod(0o500)
        for path, why in (("text", "no right to write it"), ("folder/r", "no right to write into its folder")):
            done = self.run_words(f"run -o {path} bubble")
            self.assertEqual((done.returncode, done.stderr), (4, f"aprof: cannot write {path}: {why}\n"))

    def test_run(self) -> None:
        for words in RUN:
            with self.subTest(words=words):
                done = self.run_words(words)
                self.assertEqual((done.returncode, done.stdout, done.stderr), (0, f"words: {words}\n", ""))

    def test_an_older_one(self) -> None:
        """What a run stored is overwritten, and so is an empty file."""
        for stored, words in (
            (b"aprof 2\nend exit 0\n", "run -o r bubble"), (b"aprof cache 1\n", "run -o r bubble"), (b"", "trace -o r bubble"),
            (b"aprof trace 1\n\0", "trace -o r bubble"), (b"1 10\n2 7\n", "run --record r -o s bubble"),
            (b"1 10\n4194303 7\n", "run --record r -o s bubble"),
        ):  # fmt: skip
            (self.folder / "r").write_bytes(stored)
            with self.subTest(words=words):
                self.assertEqual(self.run_words(words).returncode, 0)

    def test_another_file_is_not_lost(self) -> None:
        """Also where the launcher sees that the words need no look: standard input is no file and no pipe."""
        for path, written in (("text", "a text\n"), ("bubble", ""), ("short", "apr")):
            if written:
                (self.folder / path).write_text(written)
            before = (self.folder / path).read_bytes()
            with self.subTest(path=path):
                words = [str(self.launcher), "run", "-o", path, "link" if path != "bubble" else "text"]
                environment = os.environ | {"FAKE_STORED": "aprof 2\n"}
                done = subprocess.run(words, cwd=self.folder, env=environment, stdin=subprocess.DEVNULL, capture_output=True)
                self.assertEqual(done.returncode == 4, path != "short")
                self.assertEqual((self.folder / path).read_bytes() == before, path != "short")

    def test_words_stay(self) -> None:
        words = ["run", "-o", "r", "bubble", "=a b", "=*", "=", "=$x", "=\n"]
        self.assertEqual(self.run_words(words).stdout, f"words: {' '.join(words)}\n")

    def test_dash(self) -> None:
        done = self.run_words("run -o - bubble")
        said = "aprof: `-o -` is a file of that name; /dev/stdout is standard output\n"
        self.assertEqual((done.returncode, done.stdout, done.stderr), (0, "words: run -o - bubble\n", said))
        self.assertEqual(self.run_words("run -o - bubble", APROF_HINTS="0").stderr, "")

    def test_standard_output(self) -> None:
        """A plain file that it is can't be the report too; a closed or full one is told."""
        why = "it is standard output, a file, where what the program prints goes"
        for words, where, text in (
            ("-o /dev/stdout", "> out", f"aprof: cannot write /dev/stdout: {why}\n"),
            ("-o out", ">> out", f"aprof: cannot write out: {why}\n"),
            ("-o r", ">&-", "aprof: standard output is closed\n"),
            ("-o r", "> /dev/full", "aprof: standard output: no space left\n"),
        ):
            environment = os.environ | {"FAKE_STATUS": "4", "FAKE_SILENT": "1"}
            command = ["bash", "-c", f"{self.launcher} run {words} bubble {where}"]
            done = subprocess.run(command, cwd=self.folder, env=environment, capture_output=True, text=True)
            self.assertEqual((done.returncode, done.stderr), (4, text), command)

    def test_full_disk(self) -> None:
        """What it left at the path, and that an older report is lost, is told."""
        path = self.folder / "r"
        cut = "; what is there now is cut off"
        for stored, older, text in (
            (None, "", ""), ("", "", cut), ("aprof 2\nend", "", cut),
            ("aprof 2\nend", "yes", f"{cut}, and what was there before is lost"),
            ("aprof 2\nend exit 0\ndone 0\n", "yes", ""),
        ):  # fmt: skip
            if stored is not None:
                path.write_text(stored)
            hints = Hints(read_words(["run", "-o", str(path), str(self.folder / "bubble")]), "")
            full, place = patch("aprof_launch.hints.is_full", return_value=True), patch.dict(os.environ, {"APROF_OLDER": older})
            with full, place:
                self.assertEqual(hints.lines(4), [f"{path}: the disk is full{text}"])

    def test_a_file_that_may_not_be_so_large(self) -> None:
        """What was there before is told as lost where nothing is there now."""
        path, lost = self.folder / "r", "; what was at {} before is lost"
        hints = Hints(read_words(["run", "-o", str(path), str(self.folder / "bubble")]), "")
        for is_there, older, text in ((False, "", ""), (False, "yes", lost.format(path)), (True, "yes", "")):
            path.touch() if is_there else path.unlink(missing_ok=True)
            with self.subTest(text), patch.dict(os.environ, {"APROF_OLDER": older}):
                said = f"signal 25 ended the run; a file has at most the size that `ulimit -f` says{text}"
                self.assertEqual(hints.lines(153), [said])

    def test_full_disk_of_a_recording(self) -> None:
        record, hints = self.folder / "k", Hints(read_words(["run", "--record", "k", "-o", "r", "bubble"]), "")
        self.addCleanup(os.chdir, os.getcwd())
        os.chdir(self.folder)
        for stored, text in (("", "is empty"), ("1 10\n", "may be cut off")):
            record.write_text(stored)
            with patch("aprof_launch.hints.is_full", return_value=True):
                self.assertEqual(hints.lines(4), [f"k: the disk is full; what is there now {text}", "r: the disk is full"])

    def test_an_empty_recording(self) -> None:
        """It is told whatever it was that couldn't be written."""
        record, said = self.folder / "k", "k is empty: no turn was stored"
        self.addCleanup(os.chdir, os.getcwd())
        os.chdir(self.folder)
        for stored, output, lines in (
            ("", "/dev/full", ["/dev/full: no space left", said]), ("1 10\n", "/dev/full", ["/dev/full: no space left"]),
        ):  # fmt: skip
            record.write_text(stored)
            hints = Hints(read_words(["run", "--record", "k", "-o", output, "bubble"]), "")
            self.assertEqual(hints.lines(4), lines)

    def test_devices(self) -> None:
        """The path of what is no plain file is told, and why it can't be opened; nothing is written to it."""
        pipe = self.folder / "pipe"
        os.mkfifo(pipe)
        (self.folder / "plain").write_text("")
        for path, why in ((str(pipe), "a pipe that nobody reads"), ("/dev/null", "it is no plain file, and refused what was written")):
            hints = Hints(read_words(["run", "-o", path, str(self.folder / "bubble")]), "")
            self.assertEqual(hints.lines(4), [f"{path}: {why}"])
        for path in (str(self.folder / "plain"), str(self.folder / "new")):
            hints = Hints(read_words(["run", "-o", path, str(self.folder / "bubble")]), "")
            self.assertIn(f"standard output or {path}: no room", hints.lines(4)[0])

    def test_a_reader_that_has_gone(self) -> None:
        """Of standard output: then it is that which couldn't be written."""
        reader, writer = os.pipe()
        os.close(reader)
        environment = os.environ | {"FAKE_STATUS": "4", "FAKE_SILENT": "1"}
        words = [str(self.launcher), "run", "-o", "r", "bubble"]
        done = subprocess.run(words, cwd=self.folder, env=environment, stdout=writer, stderr=subprocess.PIPE, text=True)
        os.close(writer)
        self.assertEqual(done.returncode, 4)
        self.assertIn("aprof: the reader of standard output ended before the run did", done.stderr)


if __name__ == "__main__":
    unittest.main()
