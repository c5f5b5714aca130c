"""How `show` was called, and the version of the copy that it is in."""
from __future__ import annotations

import os
import sys
from pathlib import Path

from aprof_copy import called

PACKAGED = "aprof-show"
"""The command of the Debian package."""


def name() -> str:
    """As it was called: the launcher, which starts it as `aprof show`, says how it was called itself."""
    if "APROF_NAME" in os.environ:
        return f"{called.launcher()} show"
    return command()


def command() -> str:
    """What a message begins with."""
    return PACKAGED if Path(sys.argv[0]).name == PACKAGED else "show"


def version() -> str:
    return f"aprof {called.version()}"
