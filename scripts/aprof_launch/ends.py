"""How a run ended, by what it stored."""
from __future__ import annotations

import os
import re
import struct
from dataclasses import dataclass


@dataclass(frozen=True)
class Fault:
    kind: int
    thread: int
    at: int


def fault_in(path: str) -> Fault | None:
    """The fault that a stored report or trace ends with."""
    try:
        if not os.path.isfile(path):
            return None
        with open(path, "rb") as file:
            head = file.read(200)
            file.seek(max(0, os.path.getsize(path) - 14))
            tail = file.read()
    except OSError:
        return None
    if head.startswith(b"aprof trace ") and tail[:2] == b"\n\1":
        return Fault(*struct.unpack("<3I", tail[2:]))
    found = re.search(rb"^end fault ([1-7]) ([0-9]+) ([0-9a-f]{8})$", head, re.MULTILINE)
    return Fault(int(found[1]), int(found[2]), int(found[3], 16)) if found else None
