"""A copy of the launcher with a fake program, for its tests."""
from __future__ import annotations

import os
import subprocess
import tempfile
import unittest
from collections.abc import Sequence
from pathlib import Path

from tests.samples import ROOT

BUBBLE = ROOT / "examples/bubble/bubble"

# Says its words, reads standard input where that is asked, stores a text at the path behind -o, and ends as it is told.
PROGRAM = """#!/usr/bin/env bash
[ -z "${FAKE_SILENT-}" ] || exit "$FAKE_STATUS"
echo "words: $*"
[ -z "${FAKE_READ-}" ] || cat
while [ "${1-}" != -o ] && [ $# -gt 0 ]; do shift; done
[ -z "${FAKE_STORED-}" ] || { read -rt 0.03 <> <(:); printf "$FAKE_STORED" > "$2"; }
[ -z "${FAKE_TEXT-}" ] || echo "aprof: $FAKE_TEXT" >&2
[ -z "${FAKE_SLEEP-}" ] || exec sleep "$FAKE_SLEEP"
exit "${FAKE_STATUS-0}"
"""


class Launched(unittest.TestCase):
    """A copy of the launcher with a fake program, and a folder to run it in."""

    def setUp(self) -> None:
        folder = tempfile.TemporaryDirectory()
        self.addCleanup(folder.cleanup)
        self.top, self.folder = Path(folder.name, "top"), Path(folder.name, "here")
        program = self.top / "crates/aprof/out/aprof"
        program.parent.mkdir(parents=True)
        program.write_text(PROGRAM)
        program.chmod(0o755)
        (program.parent / "launcher.stamp").touch()
        self.launcher = self.top / "aprof"
        self.launcher.write_bytes((ROOT / "aprof").read_bytes())
        self.launcher.chmod(0o755)
        for name in ("scripts", "show"):
            (self.top / name).symlink_to(ROOT / name)
        self.folder.mkdir()
        (self.folder / "bubble").write_bytes(BUBBLE.read_bytes())
        (self.folder / "link").symlink_to("bubble")
        (self.folder / "dangling").symlink_to("no/where")
        (self.folder / "folder").mkdir()
        (self.folder / "text").write_text("a text\n")

    def run_words(self, words: str | Sequence[str], status: int = 0, text: str = "", **more: str) -> subprocess.CompletedProcess[str]:
        listed = words.split() if isinstance(words, str) else words
        environment = os.environ | {"FAKE_STATUS": str(status)} | more
        done = subprocess.run(
            [str(self.launcher), *listed], cwd=self.folder, env=environment, capture_output=True, text=True, input=text
        )
        done.stderr = done.stderr.replace(str(self.launcher), "./aprof")
        return done
