#!/usr/bin/env python3
"""Writes aprof_show/musl-names.txt: the functions of musl and libgcc, global and static, that `show` folds into one line.

Run it after examples/musl/setup.sh, where another version of musl is taken. It needs llvm-nm.
"""
from __future__ import annotations

import subprocess
import textwrap
from pathlib import Path

from musl_library import library

HERE = Path(__file__).resolve().parent


def functions(archive: Path) -> set[str]:
    """Names of the functions that the objects of an archive define. Labels (.L1, $x) are none."""
    text = subprocess.run(["llvm-nm", "--defined-only", archive], capture_output=True, text=True, check=True).stdout
    rows = [line.split() for line in text.splitlines()]
    return {row[2] for row in rows if len(row) == 3 and row[1] in "TtWw" and row[2][0] not in ".$"}


def main() -> None:
    names = set().union(*(functions(library() / "lib" / name) for name in ("libc.a", "libgcc.a", "crt1.o")))
    text = textwrap.fill(" ".join(sorted(names)), 120, break_long_words=False, break_on_hyphens=False)
    (HERE / "aprof_show/musl-names.txt").write_text(text + "\n", encoding="ascii")


if __name__ == "__main__":
    main()
