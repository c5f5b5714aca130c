"""Where output can't be written, and what an image adds to a fault."""
from __future__ import annotations

import subprocess
import tempfile
import unittest
from pathlib import Path

from tests.samples import ADDRESSES, NEEDS_CHARTS, ROOT, Call, Run
from tests.test_command import WORDS, show


class Output(unittest.TestCase):
    def test_output_that_cannot_be_written(self) -> None:
        """The shell's part of the command, and all that standard error says."""
        closed, full = "show: standard output is closed\n", "no space left on device\n"
        cases = [
            (f"show {WORDS} >&-", closed),
            ("show --help >&-", closed),
            (f"show {WORDS} > /dev/full", f"show: standard output: {full}"),
            ("show --help > /dev/full", f"show: standard output: {full}"),
            (f"show --csv {WORDS} > /dev/full", f"show: standard output: {full}"),
        ]
        for command, said in cases:
            with self.subTest(command):
                done = subprocess.run(f"./{command}", shell=True, capture_output=True, text=True, cwd=ROOT)
                self.assertEqual((done.returncode, done.stderr), (2, said))

    @NEEDS_CHARTS
    def test_a_page_that_cannot_be_written(self) -> None:
        done = subprocess.run(["./show", "--page", "/dev/full", WORDS], capture_output=True, text=True, cwd=ROOT)
        self.assertEqual((done.returncode, done.stderr), (2, "show: /dev/full: no space left on device\n"))

    @NEEDS_CHARTS
    def test_half_a_page_is_removed(self) -> None:
        with tempfile.TemporaryDirectory() as folder:
            page, link = Path(folder, "page.html"), Path(folder, "link.html")
            link.symlink_to(page)
            for path in (page, link):
                command = f"ulimit -f 8; ./show --page {path} {WORDS}"
                done = subprocess.run(["bash", "-c", command], capture_output=True, text=True, cwd=ROOT)
                self.assertEqual((done.returncode, done.stderr), (2, f"show: {path}: file too large\n"))
                self.assertFalse(page.exists())

    def test_a_reader_that_stops(self) -> None:
        done = subprocess.run(f"{ROOT}/show --csv {WORDS} | head -n 1", shell=True, capture_output=True, text=True, cwd=ROOT)
        self.assertEqual(done.stdout, "routine,entry,size,calls,least,most,cost,plain,thread,kernel,bare\n")
        self.assertEqual(done.stderr, "")

    def test_a_verdict_without_a_reader(self) -> None:
        """The status is told where standard output, or standard error, has no reader."""
        for end in ("| true", "2> >(true)"):
            command = f"set -o pipefail; {{ sleep 0.2; ./show --fail-above 1.1 {WORDS} {WORDS}; }} {end}"
            with self.subTest(end):
                self.assertEqual(subprocess.run(["bash", "-c", command], capture_output=True, cwd=ROOT).returncode, 1)


class Called(unittest.TestCase):
    def printed(self, *command: str, status: int = 0) -> str:
        done = subprocess.run(command, capture_output=True, text=True, cwd=ROOT)
        self.assertEqual(done.returncode, status)
        return done.stdout + done.stderr

    def test_the_name_is_the_one_that_can_be_called(self) -> None:
        for command, name in ((["./show"], "show"), (["./aprof", "show"], "./aprof show")):
            with self.subTest(command):
                text = self.printed(*command, "--help")
                self.assertIn(f"usage: {name} [options]", text)
                self.assertIn(f"\n  {name} --tree REPORT", text)
                self.assertEqual(self.printed(*command, status=2), f"show: a report is wanted; `{name} --help` tells more\n")

    def test_version(self) -> None:
        self.assertRegex(self.printed("./show", "--version"), r"^aprof \S+.*\n$")
        self.assertEqual(self.printed("./aprof", "show", "--version"), self.printed("./show", "--version"))


class Faults(unittest.TestCase):
    def test_a_fault_is_named_by_the_image(self) -> None:
        """The example's image has no lines."""
        with tempfile.TemporaryDirectory() as folder:
            path = Path(folder, "report")
            path.write_text(Run([Call("main")], ADDRESSES, names=False, end="fault 3 2 00012264").text())
            self.assertIn("the fault: no readable byte, thread 2, at 00012264\n", show(str(path)))
            image = str(ROOT / WORDS).replace("report.txt", "words")
            self.assertIn("the fault: no readable byte, thread 2, in find\n", show(str(path), "--image", image))


if __name__ == "__main__":
    unittest.main()
