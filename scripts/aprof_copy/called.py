"""How this copy of aprof was called, and its version: what the launcher and `show` both tell."""
from __future__ import annotations

import os
import shutil
import subprocess
from pathlib import Path

TOP = Path(__file__).resolve().parents[2]
UNKNOWN = "without a version"


def launcher() -> str:
    """The launcher as it can be called again."""
    name = os.environ.get("APROF_NAME", "./aprof")
    found = shutil.which("aprof")
    return "aprof" if found and os.path.exists(name) and os.path.samefile(found, name) else name


def version() -> str:
    """What names this copy: a file VERSION, or else git."""
    if (TOP / "VERSION").is_file():
        return (TOP / "VERSION").read_text().strip()
    if not (TOP / ".git").exists():
        return UNKNOWN
    try:
        words = ["git", "-C", str(TOP), "describe", "--always", "--dirty"]
        done = subprocess.run(words, capture_output=True, text=True)
    except OSError:
        return UNKNOWN
    return done.stdout.strip() or UNKNOWN
