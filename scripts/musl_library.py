"""Where the C library is that examples/musl/setup.sh makes."""
from __future__ import annotations

import subprocess
from pathlib import Path

MUSL = Path(__file__).resolve().parent.parent / "examples" / "musl"


def library() -> Path:
    """The folder of the C library, as debian.sh decides it for the scripts of examples/musl."""
    words = ["bash", "-c", '. "$1/debian.sh"; library_of "$1"', "library", str(MUSL)]
    return Path(subprocess.run(words, stdout=subprocess.PIPE, text=True, check=True).stdout.removesuffix("\n"))
