"""The place of the C library, and what its set-up refuses."""
from __future__ import annotations

import os
import subprocess
import tempfile
import unittest
from pathlib import Path
from unittest import mock

from musl_library import MUSL, library


class Places(unittest.TestCase):
    def test_the_library_is_where_the_variable_says(self) -> None:
        for value, place in (("", MUSL / "library"), ("/a/../b", Path("/b")), ("c", Path.cwd() / "c")):
            with self.subTest(value), mock.patch.dict(os.environ, {"APROF_MUSL": value}):
                self.assertEqual(library(), place)

    def test_a_folder_of_others_is_refused(self) -> None:
        with tempfile.TemporaryDirectory() as folder:
            kept = Path(folder, "lib", "kept")
            kept.parent.mkdir()
            kept.touch()
            done = subprocess.run([MUSL / "setup.sh"], env=os.environ | {"APROF_MUSL": folder}, capture_output=True, text=True)
            self.assertEqual((done.returncode, kept.exists()), (1, True))
            self.assertIn("name another folder by APROF_MUSL", done.stderr)

    def test_the_site_of_debian(self) -> None:
        """It is Debian's, even where another one's packages come first."""
        lines = "https://download.example/debian bookworm Other\nhttp://mirror/debian bookworm-updates Debian\nhttp://mirror/debian bookworm Debian"
        with tempfile.TemporaryDirectory() as folder:
            apt = Path(folder, "apt-get")
            apt.write_text(f"#!/bin/sh\necho '{lines}'\n")
            apt.chmod(0o755)
            command = ["bash", "-c", '. "$1/debian.sh"; site_of_debian', "site", str(MUSL)]
            path = f"{folder}:{os.environ['PATH']}"
            self.assertEqual(subprocess.check_output(command, env=os.environ | {"PATH": path}, text=True), "http://mirror/debian\n")


if __name__ == "__main__":
    unittest.main()
