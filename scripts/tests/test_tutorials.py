"""The tutorials' check: how a page is read, and what is said of a page that is wrong."""
from __future__ import annotations

import contextlib
import io
import os
import subprocess
import tempfile
import time
import unittest
from pathlib import Path
from unittest import mock

import check_tutorials
from check_tutorials import BadPage, Command, blocks_of, check, commands_folder, fits

PAGE = """# A page

```console
$ echo one
one
$ for i in 1 2 3; do
>   echo $i
> done
1
...
$ false
$ echo $?
1
```
```sh
$ not run
```
```console needs no-such-tool
$ no-such-tool
```
"""


def checked(page: str, fresh: bool = False) -> tuple[bool, str, str]:
    """Whether the page is right, what is said, and the page then."""
    with tempfile.TemporaryDirectory() as folder, contextlib.redirect_stdout(io.StringIO()) as out:
        scratch = Path(folder, "scratch")
        scratch.mkdir()
        tutorial = Path(folder, "page")
        tutorial.mkdir()
        (tutorial / "README.md").write_text(page)
        is_right = check(tutorial, commands_folder(scratch / "commands", Path("/bin/true")), scratch, fresh)
        return is_right, out.getvalue(), (tutorial / "README.md").read_text()


class Pages(unittest.TestCase):
    def test_blocks(self) -> None:
        first, last = blocks_of(PAGE.splitlines())
        self.assertEqual(first.commands[1], Command(6, "for i in 1 2 3; do\n  echo $i\ndone", ["1", "..."]))
        self.assertEqual((last.needs, last.commands), (["no-such-tool"], [Command(19, "no-such-tool")]))
        for text in ("```console\none\n```", "```console\n$ one"):
            self.assertRaises(BadPage, list, blocks_of(text.splitlines()))

    def test_dots_are_any_lines(self) -> None:
        self.assertTrue(fits(["a", "...", "d"], ["a", "b", "c", "d"]))
        self.assertTrue(fits(["..."], []))
        self.assertFalse(fits(["a"], ["a", "b"]))
        self.assertFalse(fits(["a.c"], ["abc"]))

    def test_a_page_that_is_right(self) -> None:
        is_right, said, _ = checked(PAGE)
        self.assertTrue(is_right, said)
        self.assertIn("left out: page/README.md, line 19: no no-such-tool", said)
        self.assertIn("4 commands ran", said)

    def test_pages_that_are_wrong(self) -> None:
        for old, new, what in (
            ("one\none", "one\ntwo", "line 4: $ echo one"),
            ("$ echo $?\n1\n", "", "status 1"),
            ("$ echo $?\n1", "$ echo 1\n1", "before line 12: status 1"),
        ):
            is_right, said, page = checked(PAGE.replace(old, new), fresh=True)
            self.assertFalse(is_right)
            self.assertIn(what, said)
        is_right, _, page = checked(PAGE.replace("one\none", "one\ntwo\nthree"), fresh=True)
        self.assertEqual((is_right, page), (False, PAGE))

    @mock.patch.object(check_tutorials, "LONGEST", 0.1)
    def test_what_takes_too_long_ends_with_all_that_it_started(self) -> None:
        late = "(sleep 0.3; touch late) & wait"
        self.assertIn("line 2: more than 0.1 seconds", checked(f"```console\n$ {late}\n```\n")[1])
        with tempfile.TemporaryDirectory() as folder:
            with self.assertRaises(subprocess.TimeoutExpired):
                check_tutorials.run_in(Path(folder), late, dict(os.environ))
            time.sleep(0.4)
            self.assertEqual(os.listdir(folder), [])


if __name__ == "__main__":
    unittest.main()
