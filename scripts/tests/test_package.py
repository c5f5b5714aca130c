"""The package: what it refuses, what is in it, and that the same sources give the same bytes."""
from __future__ import annotations

import contextlib
import io
import os
import shutil
import subprocess
import tarfile
import tempfile
import unittest
from pathlib import Path

from aprof_package import PROGRAM, STAMP, Refused, check, depends_of, make

SCRIPT = "#!/bin/sh\n"
SOURCES = {
    "aprof": SCRIPT,
    "show": SCRIPT,
    "README.md": "read\n",
    "docs/aprof.1": ".TH APROF 1\n",
    "scripts/aprof_show/command.py": "",
    "scripts/tests/test_x.py": "",
    "examples/musl/cc": SCRIPT,
    "examples/musl/c++": SCRIPT,
    "examples/bubble/bubble.c": "",
    "crates/one/src/one.rt": "",
}
ELF = b"\x7fELF\x02"


def make_clone(top: Path) -> None:
    """A clone of one commit, with a program that is built."""
    for name, text in SOURCES.items():
        path = top / name
        path.parent.mkdir(parents=True, exist_ok=True)
        path.write_text(text)
        path.chmod(0o755 if text == SCRIPT else 0o644)
    (top / ".gitignore").write_text("out/\n")
    git = ["git", "-C", str(top), "-c", "user.name=Ann", "-c", "user.email=ann@example.org"]
    environment = os.environ | {"GIT_COMMITTER_DATE": "1764430140 +0000", "GIT_AUTHOR_DATE": "1764430140 +0000"}
    for words in (["init", "-q"], ["add", "-A"], ["commit", "-q", "-m", "all"]):
        subprocess.run([*git, *words], check=True, env=environment)
    for name in (PROGRAM, STAMP):
        path = top / name
        path.parent.mkdir(parents=True, exist_ok=True)
        path.write_bytes(ELF + b"\0libc.so.6\0GLIBC_2.34\0")
        path.chmod(0o755)


class Clone(unittest.TestCase):
    def setUp(self) -> None:
        folder = tempfile.TemporaryDirectory()
        self.addCleanup(folder.cleanup)
        self.top = Path(folder.name, "clone")
        self.top.mkdir()
        make_clone(self.top)

    def refused(self, text: str) -> None:
        with self.assertRaisesRegex(Refused, text):
            check(self.top)


@unittest.skipUnless(shutil.which("git"), "no git")
class Refusals(Clone):
    def test_a_program_that_is_built_of_the_commit_is_taken(self) -> None:
        check(self.top)
        (self.top / "crates/one/notes.txt").write_text("not a source")
        check(self.top)

    def test_no_program(self) -> None:
        (self.top / PROGRAM).unlink()
        self.refused("^the program is not built: there is no crates/aprof/out/aprof")

    def test_a_program_of_no_proved_build(self) -> None:
        (self.top / STAMP).unlink()
        self.refused("^the program is not built")

    def test_a_source_that_is_newer(self) -> None:
        os.utime(self.top / "crates/one/src/one.rt", (2e9, 2e9))
        self.refused("^the program is older than crates/one/src/one.rt; ./aprof or .ci/run builds it anew")

    def test_what_is_not_committed(self) -> None:
        for name in ("show", "crates/one/src/one.rt"):
            with self.subTest(name):
                (self.top / name).write_text("other\n")
                os.utime(self.top / name, (0, 0))
                self.refused(f"^{name} is not as in the last commit")
                (self.top / name).write_text(SOURCES[name])
                os.utime(self.top / name, (0, 0))
        (self.top / "crates/one/src/more.rt").write_text("new\n")
        os.utime(self.top / "crates/one/src/more.rt", (0, 0))
        self.refused("^crates/one/src/more.rt is not as in the last commit")

    def test_a_library_that_is_not_known(self) -> None:
        self.assertEqual(depends_of(ELF + b"\0libm.so.6\0GLIBC_2.4\0\0GLIBC_2.34\0"), "libc6 (>= 2.34), python3 (>= 3.11)")
        self.assertEqual(depends_of(ELF), "python3 (>= 3.11)")
        with self.assertRaisesRegex(Refused, "wants libz.so.1"):
            depends_of(ELF + b"\0libz.so.1\0")
        with self.assertRaisesRegex(Refused, "no 64-bit ELF"):
            depends_of(b"#!/bin/sh\n")


@unittest.skipUnless(shutil.which("git") and shutil.which("dpkg-deb"), "no git or no dpkg-deb")
class Made(Clone):
    def make(self, folder: str) -> list[Path]:
        with contextlib.redirect_stderr(io.StringIO()):
            return make(self.top, self.top.parent / folder)

    def test_the_same_bytes_twice_and_what_is_in_them(self) -> None:
        package, archive = self.make("first")
        os.utime(self.top / "README.md", (1, 1))
        again = self.make("second")
        self.assertEqual([path.read_bytes() for path in again], [package.read_bytes(), archive.read_bytes()])
        self.assertRegex(package.name, r"^aprof_20251129\.1529\+g[0-9a-f]{7}_amd64\.deb$")
        listed = told(package, "-c")
        for part in (
            " root/root 0 2025-11-29 15:29 ./usr/bin/aprof -> ../lib/aprof/aprof",
            "-rwxr-xr-x root/root 27 2025-11-29 15:29 ./usr/lib/aprof/bin/aprof",
            " ./usr/lib/aprof/examples/musl/cc",
            " ./usr/share/doc/aprof/examples/bubble/bubble.c",
            " ./usr/share/man/man1/aprof.1.gz",
        ):
            self.assertIn(part, listed)
        self.assertNotIn("crates", listed)
        self.assertNotIn("tests", listed)
        self.assertIn("Depends: libc6 (>= 2.34), python3", told(package, "-I"))
        with tarfile.open(archive) as tar:
            names = {member.name.partition("/")[2] for member in tar if member.uname == "root" and member.mtime == 1764430140}
        self.assertLessEqual({"aprof", "show", "bin/aprof", "VERSION", "docs/aprof.1", "examples/bubble/bubble.c"}, names)


def told(package: Path, what: str) -> str:
    """What dpkg-deb tells of a package, with one blank where there are several."""
    environment = os.environ | {"TZ": "UTC"}
    done = subprocess.run(["dpkg-deb", what, str(package)], capture_output=True, text=True, check=True, env=environment)
    return "\n".join(" ".join(line.split()) for line in done.stdout.splitlines())


if __name__ == "__main__":
    unittest.main()
