"""Words, texts and statuses of the launcher, with a fake program: hints behind a refusal, and help."""
from __future__ import annotations

import os
import re
import subprocess
import unittest
from collections.abc import Sequence
from pathlib import Path
from unittest import mock

from aprof_copy import called
from aprof_launch import images, tables
from aprof_launch.commands import COMMANDS
from tests.launched import Launched
from tests.samples import ROOT

FAULT = "aprof 2\\nend fault 4 1 00011180\\nsteps 7\\nopen 1\\ndone 0\\n"

# the words, the status of the program and what the hint behind it has
HINTS: Sequence[tuple[str | Sequence[str], int, Sequence[str]]] = (
    ("run bubble", 1, ["aprof: -o PATH is missing\nusage: aprof run [--stdin PATH]"]),
    ("run -o r --bugdet 5 bubble", 1, ["aprof: no option --bugdet; there is --budget\n"]),
    ("run -o r --xyzzy bubble", 1, ["aprof: no option --xyzzy; for an argument of the program write =--xyzzy\n"]),
    ("run -o r bubble -n", 1, ["aprof: no option -n;", "write =-n\n"]),
    ("run -o r --sets 4 bubble", 1, ["aprof: --sets is an option of cache, not of run\n"]),
    ("cache --sets 63 --ways 4 --line 64 -o r bubble", 1, ["--sets 63: it takes a power of two, 1 to 65536\n"]),
    ("cache --ways 4 --line 64 -o r bubble", 1, ["aprof: --sets S is missing\n"]),
    ("cache -o r bubble", 1, ["aprof: --sets S and --ways W and --line L are missing\n"]),
    ("run --budget 1e9 -o r bubble", 1, ["aprof: --budget 1e9: it takes a whole number in digits, 1 to 1000000000000\n"]),
    ("run --budget=0 -o r bubble", 1, ["aprof: --budget 0: it takes 1 to"]),
    ("run --stamps 7 -o r bubble", 1, ["aprof: --stamps 7: it takes 8, 16 or 32\n"]),
    ("run --stats=1 -o r bubble", 1, ["aprof: --stats takes no value\n"]),
    ("run -o r -o s bubble", 1, ["aprof: -o stands twice\n"]),
    ("run -o r --stdin -x bubble", 1, ["aprof: --stdin wants a path behind it, and -x is none (a file of this name: ./-x)\n"]),
    ("run bubble -o", 1, ["aprof: -o wants a path behind it\n"]),
    ("-o r run bubble", 1, ["aprof: -o stands before the command: options stand behind it\n"]),
    ("rnu -o r bubble", 1, ["aprof: no command rnu; there is run\n", "`./aprof help` has the commands\n"]),
    ("replay -o r t u", 1,
     ["aprof: u is one word too many\n", "usage: aprof replay [--stamps 8|16|32] [--stats] -o PATH TRACE\n"]),
    ("demo 40001", 1, ["aprof: 40001: N is 1 to 40000\n", "usage: aprof demo N\n"]),
    ("demo", 1, ["aprof: N is missing\n"]),
    ("demo 1e3", 1, ["aprof: 1e3: N is a whole number in digits, 1 to 40000\n"]),
    ("run -o r bubble --bugdet 5", 1, ["aprof: no option --bugdet; there is --budget; for an argument of the program write =--bugdet\n"]),
    ("run -o r --stdin bubble", 1, ["aprof: IMAGE is missing (bubble was taken for --stdin)\n"]),
    ("run --output r bubble", 1, ["aprof: no option --output; there is -o\n"]),
    ("run --output=r bubble", 1, ["aprof: no option --output; there is -o\n"]),
    ("run -- -o r bubble", 1, ["aprof: -o PATH is missing (behind -- no word is an option)\n"]),
    ("version", 1, ["aprof: no command version; there is --version\n"]),
    ("-V", 1, ["aprof: no command -V; there is --version\n"]),
    (["run", "--quantum", "", "-o", "r", "bubble"], 1,
     ["aprof: --quantum: an empty word: it takes a whole number in digits, 1 to 1000000000\n"]),
    ([""], 1, ["aprof: an empty word is no command\n"]),
    (["run", "-o", "r", "bubble", ""], 2, ["aprof: an empty word names a file: write = for an empty argument\n"]),
    (["run", "-o", "r", ""], 2, ["aprof: an empty word names a file, and there is none\n"]),
    (["run", "-o", "r", "--stdin", "", "bubble"], 2, ["aprof: an empty word names a file, and there is none\n"]),
    (["run", "-o", "r", "bubble", "two words"], 2, ["a word names a file: write '=two words' for an argument\n"]),
    ("run -o /dev/full bubble", 4, ["aprof: /dev/full: no space left\n"]),
    ("run --record /dev/full -o r bubble", 4, ["aprof: /dev/full: no space left\n"]),
    ("run -o r bubble fine", 1, ["usage: aprof run"]),
    ("run -o r bubble 100", 2, ["aprof: 100: no such file; a word names a file: write =100 for an argument\n"]),
    ("run -o r nothing", 2, ["aprof: nothing: no such file\n"]),
    ("run -o r =bubble", 2, ["aprof: =bubble: no such file; IMAGE stands without `=`\n"]),
    ("run -o r . =1", 2, ["aprof: .: it is a folder\n"]),
    ("run -o r --stdin none bubble", 2, ["aprof: none: no such file\n"]),
    ("run -o r --stdin - bubble", 2, ["aprof: -: no such file; /dev/stdin is standard input\n"]),
    ("run -o r bubble =1", 4, ["no room"]),
    ("run -o r bubble =1", 6,
     ["ended after 1000000000 instructions", "./aprof contexts -o contexts.txt bubble =1\n", "./aprof show --open --image bubble contexts.txt\n"]),
    ("run --budget 9 --record k --stats -o r bubble", 6,
     ["after 9 instructions", "contexts --budget 9 --schedule k -o contexts.txt bubble\n"]),
    ("contexts -o bubble.txt bubble", 6, ["./aprof show --open --image bubble contexts.txt"]),
    ("cache --sets 4 --ways 4 --line 64 -o r bubble", 7, ["no thread can go on", "./aprof contexts -o contexts.txt bubble\n"]),
    ("run --stamps 8 -o r bubble", 8, ["--stamps 8 tells at most 84 open calls apart: leave --stamps out; what is stored is of the run so far\n"]),
    ("run -o r bubble", 10, ["too little memory free"]),
    ("run -o r bubble", 11, ["limits: 16 MiB a file"]),
    ("trace -o t bubble", 11, ["the trace has more than 64 MiB"]),
    ("contexts -o c bubble", 11, ["more than 4294967294 calling contexts"]),
    ("run -o r bubble large", 11, ["aprof: large has 16777217 bytes: a file has at most 16 MiB\n"]),
    ("run -o r bubble", 137, ["aprof: signal 9 ended the run; where memory is short"]),
    ("run -o r bubble", 153, ["aprof: signal 25 ended the run; a file has at most the size that `ulimit -f` says\n"]),
    ("run -o r bubble", 12, []),
    ("run -o r bubble", 0, []),
)

CUT = "it is cut off: copy or link it again"

# where a run has no code, and how it came there
NO_CODE = (
    ("00000010", "a call through a wrong function pointer, or a return over an overwritten stack"),
    ("fffffff0", "a call through a wrong function pointer, or a return over an overwritten stack"),
    ("00000000", "a null function pointer was called, or _start returned"),
)

# the first line of a schedule and what is wrong with it
LINES = (
    ("2 10", "a run begins with thread 1"),
    ("33 10", "a run begins with thread 1"),
    ("1 0", "STEPS is 1 to 1000000000000"),
    ("1 1000000000001", "STEPS is 1 to 1000000000000"),
    ("1 05", "a number begins with no 0"),
    ("01 5", "a number begins with no 0"),
    ("1  5", "there is one space, and it stands between the two numbers"),
    ("1 5\r", "lines end in LF, not CR LF"),
)


class Words(Launched):
    def test_hints(self) -> None:
        with open(self.folder / "large", "wb") as file:
            file.truncate((16 << 20) + 1)
        for words, status, parts in HINTS:
            with self.subTest(words=words, status=status):
                done = self.run_words(words, status, FAKE_TEXT="its text")
                shown = words if isinstance(words, str) else " ".join(words)
                self.assertEqual((done.returncode, done.stdout), (status, f"words: {shown}\n"))
                self.assertTrue(done.stderr.startswith("aprof: its text\n"))
                hint = done.stderr.removeprefix("aprof: its text\n")
                self.assertEqual(bool(hint), bool(parts))
                for part in parts:
                    self.assertIn(part, hint)

    def test_no_hints(self) -> None:
        for words, status, _ in HINTS[::7]:
            done = self.run_words(words, status, FAKE_TEXT="its text", APROF_HINTS="0")
            self.assertEqual((done.returncode, done.stderr), (status, "aprof: its text\n"))

    def test_fault(self) -> None:
        """The routine of the address, and for `run` the command that names the chain."""
        done = self.run_words("run -o r bubble", 5, FAKE_STORED=FAULT)
        self.assertIn("aprof: in bubble_sort; build with -g for the line: no writable byte", done.stderr)
        self.assertIn("  ./aprof contexts -o contexts.txt bubble\n  ./aprof show --open --image bubble contexts.txt\n", done.stderr)
        done = self.run_words("contexts -o r bubble", 5, FAKE_STORED=FAULT)
        self.assertIn("the calls that were open: ./aprof show --open --image bubble r\n", done.stderr)
        trace = "aprof trace 1\\n\\x0a\\x01\\x04\\0\\0\\0\\x01\\0\\0\\0\\x80\\x11\\x01\\0"
        done = self.run_words("trace -o r bubble", 5, FAKE_STORED=trace)
        self.assertIn("aprof: in bubble_sort;", done.stderr)
        for at, why in NO_CODE:
            done = self.run_words("run -o r bubble", 5, FAKE_STORED=FAULT.replace("4 1 00011180", f"2 1 {at}"))
            self.assertIn(f"aprof: {at} is no code: {why}\n", done.stderr)
        done = self.run_words("run -o r text", 5, FAKE_STORED=FAULT)
        self.assertIn("aprof: the image has no symbols: don't strip it; no writable byte", done.stderr)
        done = self.run_words("run -o /dev/null bubble", 5)
        self.assertIn("aprof: `llvm-symbolizer --obj=IMAGE", done.stderr)

    def test_numbers_of_the_text(self) -> None:
        """The row of README's table, the line of a schedule and what is wrong with a trace."""
        done = self.run_words("run -o r bubble", 3, FAKE_TEXT="image 7")
        self.assertIn("aprof: bubble: it is for another processor; to fix it: --target=riscv32\n", done.stderr)
        (self.folder / "turns").write_text("1 10\nx\n")
        done = self.run_words("run --schedule turns -o r bubble", 9, FAKE_TEXT="schedule 2")
        self.assertIn("aprof: line 2 of turns is 'x', and not of the form TID STEPS, as 1 10000: two numbers and one space\n", done.stderr)
        for line, why in LINES:
            (self.folder / "turns").write_text(f"{line}\n", newline="")
            done = self.run_words("run --schedule turns -o r bubble", 9, FAKE_TEXT="schedule 1")
            self.assertIn(f"aprof: line 1 of turns is {line!r}, and {why}\n", done.stderr)
        done = self.run_words("run --schedule turns -o r bubble", 9, FAKE_TEXT="schedule")
        self.assertIn("it waits, has ended or has not begun; the schedule was edited, and then has to end with the last edited line, or", done.stderr)
        done = self.run_words("replay -o r text", 13, FAKE_TEXT="trace 1")
        self.assertIn("aprof: text is not a trace as `aprof trace` stores it: its first line is another; store it again\n", done.stderr)

    def test_the_compiler_that_is_advised(self) -> None:
        for top, compiler in ((ROOT, "examples/musl/cc"), (Path("/usr/lib/aprof"), "aprof-cc")):
            with mock.patch.object(called, "TOP", top):
                self.assertEqual(images.compiler(), compiler)

    def test_files_of_no_use(self) -> None:
        """Images and traces that are empty or cut off, and a text."""
        bubble = (self.folder / "bubble").read_bytes()
        text = (b"int x;\n", "it is a text, not an executable: compile it first (examples/musl/cc)\n")
        report = (b"aprof 2\nend exit 0\n", "it is a report, not an executable: `./aprof show` shows it\n")
        trace = (b"aprof trace 1\n", "it is a trace, not an executable: `./aprof replay` makes a report of it\n")
        images = ((b"", "it is empty"), (bubble[:-1], CUT), (bubble[:9], CUT), text, report, trace)
        for data, why in images:
            (self.folder / "image").write_bytes(data)
            self.assertIn(f"aprof: image: {why}", self.run_words("run -o r image", 3, FAKE_TEXT="image 1").stderr)
        self.assertIn("aprof: bubble: it is no whole", self.run_words("run -o r bubble", 3, FAKE_TEXT="image 1").stderr)
        cut = "is cut off: store it again with `aprof trace`\n"
        traces = ((b"", 1, "is empty\n"), (b"aprof tr", 1, cut), (b"aprof trace 1\n\1", 4, cut))
        for data, number, why in traces:
            (self.folder / "trace").write_bytes(data)
            self.assertIn(f"aprof: trace {why}", self.run_words("replay -o r trace", 13, FAKE_TEXT=f"trace {number}").stderr)

    def test_other_machines(self) -> None:
        """Executables that aprof can't run: for what they are, and what they have."""
        bubble = (self.folder / "bubble").read_bytes()
        changes = (
            ("image 3", 4, b"\2", "it is a 64-bit little-endian executable for RISC-V: compile it for RV32"),
            ("image 7", 18, b"\x28\0", "it is a 32-bit little-endian executable for ARM: compile it for RV32"),
            ("image 7", 18, b"\x63\0", "it is a 32-bit little-endian executable for processor 99 (e_machine): compile it"),
            ("image 8", 36, b"\5", "it has compressed instructions and floats in registers: build it and its libraries with"),
            ("image 8", 36, b"\x08", "it has RV32E: build it"),
        )
        for text, place, new, why in changes:
            (self.folder / "image").write_bytes(bubble[:place] + new + bubble[place + len(new) :])
            self.assertIn(f"aprof: image: {why}", self.run_words("run -o r image", 3, FAKE_TEXT=text).stderr)

    def test_words_run_together(self) -> None:
        """`-output r` is `-o utput r` for the program."""
        for words, status, text in (("run -output r bubble", 2, "cannot read r"), ("run -output text bubble", 3, "image 2")):
            done = self.run_words(words, status, FAKE_TEXT=text)
            self.assertIn("(-output was read as -o utput: write -o PATH)\n", done.stderr)

    def test_an_image_as_the_output(self) -> None:
        """`-o` took the image, and the word behind it stands for the image then."""
        said = "it is no report, and is not overwritten; -o takes the path of the report: write -o PATH bubble"
        for words in ("run -o bubble text", "run -o bubble none"):
            done = self.run_words(words)
            self.assertEqual((done.returncode, done.stderr), (4, f"aprof: cannot write bubble: {said}\n"))

    def test_report_as_trace(self) -> None:
        (self.folder / "old").write_text("aprof 2\nend exit 0\nsteps 3\nopen 0\ndone 0\n")
        done = self.run_words("replay -o r old", 13, FAKE_TEXT="trace 1")
        self.assertIn("aprof: old is a report already: `./aprof show` shows it\n", done.stderr)

    def test_bytes(self) -> None:
        """A word that is not UTF-8 is told by its escapes."""
        for words, text in ((["run", "-o", "r", "bubble", "=\udcff"], "aprof: word 5 is not UTF-8 ('=\\377'): rename the file"),
                            (["help", "\udcff"], "aprof: no command \\377")):
            environment = os.environ | {"FAKE_STATUS": "1"}
            done = subprocess.run([str(self.launcher), *words], cwd=self.folder, env=environment, capture_output=True)
            self.assertEqual(done.returncode, 1)
            self.assertIn(text, done.stderr.decode())

    def test_tables(self) -> None:
        """README has the same tables."""
        rows = re.findall(r"^\| ([0-9][0-9a-z, ]*) \| (.*?) \| (.*?) \|$", (ROOT / "README.md").read_text(), re.MULTILINE)
        texts = {(what.replace("`", ""), cure.replace("`", "")) for _, what, cure in rows}
        for numbers, what, cure in tables.IMAGES:
            self.assertIn((what, cure), texts, numbers)
        self.assertEqual(sorted(number for numbers, _, _ in tables.IMAGES for number in numbers), list(range(1, 19)))

    def test_help(self) -> None:
        whole = self.run_words("help")
        for words in ("", "help", "-h", "--help"):
            done = self.run_words(words)
            self.assertEqual((done.returncode, done.stdout, done.stderr), (0, whole.stdout, ""))
        self.assertIn("`aprof --version` prints the version", whole.stdout)
        done = self.run_words("--version")
        self.assertEqual(done.returncode, 0)
        self.assertRegex(done.stdout, r"^aprof \S+.*\n$")
        for command in COMMANDS:
            self.assertIn(f"  {command.name} ", whole.stdout)
            for words in (f"help {command.name}", f"{command.name} --help", f"{command.name} -o r x -h"):
                done = self.run_words(words)
                self.assertEqual((done.returncode, done.stderr), (0, ""))
                self.assertTrue(done.stdout.startswith(f"usage: aprof {command.name} "))
                self.assertLessEqual(max(map(len, done.stdout.splitlines())), 84)
        self.assertIn("show [options] REPORT", self.run_words("help show").stdout)

    def test_help_of_nothing(self) -> None:
        for words, text in (("nothing", "no command nothing"), ("rnu", "no command rnu; there is run"),
                            ("run extra", "extra is one word too many"), ("show extra", "extra is one word too many")):
            done = self.run_words(f"help {words}")
            said = f"aprof: {text}\n`./aprof help` has the commands\n"
            self.assertEqual((done.returncode, done.stdout, done.stderr), (1, "", said))

    def test_help_that_goes_nowhere(self) -> None:
        """A full or closed standard output."""
        for words in ("help", "help run", "--version", "run -o r x --help"):
            for where, why in ((">/dev/full", "standard output: no space left"), (">&-", "standard output is closed")):
                text = f"{self.launcher} {words} {where}"
                done = subprocess.run(["bash", "-c", text], cwd=self.folder, capture_output=True, text=True)
                self.assertEqual((done.returncode, done.stderr), (4, f"aprof: cannot write: {why}\n"), text)

    def test_show(self) -> None:
        done = self.run_words(["show", str(ROOT / "examples/bubble/report.txt")])
        self.assertEqual(done.returncode, 0)
        self.assertIn("bubble_sort", done.stdout)


if __name__ == "__main__":
    unittest.main()
