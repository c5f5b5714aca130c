"""What is wrong with a file that is no image, where README's table tells less."""
from __future__ import annotations

import os
import struct
from pathlib import Path

from aprof_copy import called
from aprof_copy.called import launcher

HEAD = b"\x7fELF"
REPORTS, TRACE = (b"aprof 1\n", b"aprof 2\n", b"aprof cache 1\n"), b"aprof trace 1\n"
"""How what aprof stores begins."""

NUMBERS = (1, 2, 3, 4, 5, 7, 8, 9, 10, 12)
"""What the program says of such files: `image K`."""

PROCESSORS = {3: "x86", 8: "MIPS", 20: "PowerPC", 40: "ARM", 62: "x86-64", 183: "AArch64", 243: "RISC-V"}
"""By e_machine."""

COMPRESSED, FLOATS, FEW_REGISTERS = 1, 6, 8
"""The bits of e_flags that a file is refused for."""


def is_elf(path: str) -> bool:
    """Whether a plain file is an executable, by its begin."""
    try:
        with open(path if os.path.isfile(path) else os.devnull, "rb") as file:
            return file.read(len(HEAD)) == HEAD
    except OSError:
        return False


def why_bad(path: str) -> str:
    """What it is instead, or nothing."""
    try:
        data = Path(path).read_bytes()
    except OSError:
        return ""
    if not data:
        return "it is empty"
    if is_cut(data):
        return "it is cut off: copy or link it again"
    if data.startswith(REPORTS):
        return f"it is a report, not an executable: `{launcher()} show` shows it"
    if data.startswith(TRACE):
        return f"it is a trace, not an executable: `{launcher()} replay` makes a report of it"
    if is_text(data):
        return f"it is a text, not an executable: compile it first ({compiler()})"
    return foreign(data) or unsupported(data)


def compiler() -> str:
    """Where a compiler for such executables is: in the package, or in a clone."""
    return "aprof-cc" if called.TOP.is_relative_to("/usr") else "examples/musl/cc"


def foreign(data: bytes) -> str:
    """Which other machine an ELF file is for, or nothing."""
    if not data.startswith(HEAD) or data[4:5] not in (b"\1", b"\2") or data[5:6] not in (b"\1", b"\2") or len(data) < 20:
        return ""
    bits, order = 32 * data[4], "little" if data[5] == 1 else "big"
    (machine,) = struct.unpack_from("<H" if data[5] == 1 else ">H", data, 18)
    if (bits, order, machine) == (32, "little", 243):
        return ""
    name = PROCESSORS.get(machine, f"processor {machine} (e_machine)")
    return f"it is a {bits}-bit {order}-endian executable for {name}: compile it for RV32 ({compiler()})"


def unsupported(data: bytes) -> str:
    """What an executable for RV32 has that the program has not, or nothing."""
    if not data.startswith(HEAD) or len(data) < 40:
        return ""
    (flags,) = struct.unpack_from("<I", data, 36)
    named = ((COMPRESSED, "compressed instructions"), (FLOATS, "floats in registers"), (FEW_REGISTERS, "RV32E"))
    found = [what for bit, what in named if flags & bit]
    return f"it has {' and '.join(found)}: build it and its libraries with -march=rv32ima -mabi=ilp32" if found else ""


def is_text(data: bytes) -> bool:
    try:
        return data[:4] != HEAD and "\0" not in data.decode()
    except UnicodeDecodeError:
        return False


def is_cut(data: bytes) -> bool:
    """Whether a 32-bit little-endian ELF file ends before what its headers tell of."""
    if not (data.startswith(HEAD) or HEAD.startswith(data)) or data[4:6] not in (b"\1\1", b"\1", b""):
        return False
    try:
        return max(ends_of(data)) > len(data)
    except struct.error:
        return True


def ends_of(data: bytes) -> list[int]:
    """Where the tables of segments and sections end, and each of these that is in the file."""
    segments, sections = struct.unpack_from("<2I", data, 28)
    segment_size, segment_count, section_size, section_count = struct.unpack_from("<4H", data, 42)
    ends = [segments + segment_size * segment_count, sections + section_size * section_count]
    for number in range(segment_count):
        _, offset, _, _, size = struct.unpack_from("<5I", data, segments + segment_size * number)
        ends.append(offset + size)
    for number in range(section_count):
        _, kind, _, _, offset, size = struct.unpack_from("<6I", data, sections + section_size * number)
        ends.append(offset + (0 if kind in (0, 8) else size))
    return ends
