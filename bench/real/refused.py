"""Which calls of the kernel answer ENOSYS in a run, found by the program itself: each `ecall` of the guest whose number the
written kernel doesn't have is made an `ebreak`, and the run ends with fault 7 at the first that is reached; that one is
noted and made an `ecall` again, and so on until the guest ends as before. A number is known where `li a7` stands before the
`ecall`, or `li a0` before a call of the C library's `__syscall_cp`, through which its waiting calls go. How many others
there are is told, if any; what is refused by another answer than ENOSYS, as a file that is opened for writing, is not looked
at."""
from __future__ import annotations

import re
import struct
import subprocess
from collections.abc import Iterator, Sequence
from pathlib import Path
from typing import TYPE_CHECKING

from guests import jal_offset, signed
from host import TOP
from musl_library import library
from real.building import LeftOut

if TYPE_CHECKING:
    from real.measuring import GuestBench

TABLE = TOP / "crates/guest_calls/specs/Table.antt"
ECALL, EBREAK = 0x00000073, 0x00100073
A0, A7 = 10, 17
AUIPC, JAL, JALR, ADDI, LOAD, OP, LUI = 0x17, 0x6F, 0x67, 0x13, 0x03, 0x33, 0x37
FAR = 40
"""How many instructions before a call its number is looked for."""


def known() -> set[int]:
    """The numbers of the written kernel, from its table."""
    return {int(number) for number in re.findall(r"^\s+[∷]?\s*\((\d+), \w+\)", TABLE.read_text(), re.MULTILINE)}


def names() -> dict[int, str]:
    """The names of the kernel's calls, from the C library."""
    text = (library() / "include/bits/syscall.h").read_text()
    return {int(number): name for name, number in re.findall(r"#define __NR_(\w+)\s+(\d+)", text)}


def segments(image: bytes) -> Iterator[tuple[int, int, int]]:
    """Address, offset and size in the file of each executable segment."""
    (begin,), (size, count) = struct.unpack_from("<I", image, 28), struct.unpack_from("<HH", image, 42)
    for k in range(count):
        kind, offset, address, _, held, _, flags, _ = struct.unpack_from("<8I", image, begin + k * size)
        if kind == 1 and flags & 1:
            yield address, offset, held


def constant(code: list[int], at: int, register: int) -> int | None:
    """What `li` put into a register before an instruction, or None where another instruction did or none is near."""
    for word in reversed(code[max(0, at - FAR) : at]):
        opcode, written = word & 127, word >> 7 & 31
        if written == register and opcode in (AUIPC, JAL, JALR, ADDI, LOAD, OP, LUI):
            return signed(word >> 20, 12) if opcode == ADDI and word >> 12 & 255 == 0 else None
    return None


def target(code: list[int], at: int, address: int) -> int | None:
    """Where the call at an instruction goes: `jal`, or `auipc` and `jalr`, with ra."""
    word = code[at]
    if word & 0xFFF == JALR | 1 << 7 and at and code[at - 1] & 127 == AUIPC and code[at - 1] >> 7 & 31 == word >> 15 & 31:
        return (address - 4 + (code[at - 1] & 0xFFFFF000) + signed(word >> 20, 12)) % 2**32
    if word & 0xFFF == JAL | 1 << 7:
        return (address + jal_offset(word)) % 2**32
    return None


def sites(image: bytes, waiting: set[int]) -> dict[int, tuple[int, int | None]]:
    """By address, the offset in the file and the number, if it is known, of each call of the kernel; waiting are the
    addresses of the routines that take it as their first argument."""
    found: dict[int, tuple[int, int | None]] = {}
    for address, offset, size in segments(image):
        code = list(struct.unpack_from(f"<{size // 4}I", image, offset))
        for k, word in enumerate(code):
            here = address + 4 * k
            if word == ECALL:
                found[here] = offset + 4 * k, constant(code, k, A7)
            elif word & 127 in (JAL, JALR) and target(code, k, here) in waiting:
                found[here] = offset + 4 * k, constant(code, k, A0)
    return found


def waiting_routines(guest: Path) -> set[int]:
    """The addresses of the C library's routines that take the number of a call of the kernel."""
    said = subprocess.run(["llvm-nm", guest], capture_output=True, text=True).stdout
    taking = ("__syscall_cp", "__syscall_cp_c", "syscall")
    return {int(line.split()[0], 16) for line in said.splitlines() if line.split()[-1] in taking}


class Probe:
    """An executable whose unknown calls of the kernel are breakpoints, each until it is reached."""

    def __init__(self, bench: GuestBench, scale: int) -> None:
        self.bench, self.scale = bench, scale
        self.image = bytearray(bench.guest.read_bytes())
        waiting, taken = waiting_routines(bench.guest), known()
        every = sites(bytes(self.image), waiting)
        # The one `ecall` of the waiting routines has the numbers of the calls that lead there.
        self.unknown = [number for _, number in every.values()].count(None) - bool(waiting)
        numbered = ((at, offset, number) for at, (offset, number) in every.items() if number is not None)
        self.asked = {at: (offset, number) for at, offset, number in numbered if number not in taken}
        self.before = {offset: bytes(self.image[offset : offset + 4]) for offset, _ in self.asked.values()}
        for offset in self.before:
            self.put(offset, struct.pack("<I", EBREAK))

    def put(self, offset: int, word: bytes) -> None:
        """Changes an instruction."""
        self.image[offset : offset + 4] = word

    def end(self, words: Sequence[str]) -> str:
        """How a run by these words ends."""
        path, report = self.bench.folder / "asked", self.bench.folder / "asked-report"
        path.write_bytes(self.image)
        report.unlink(missing_ok=True)
        command = self.bench.words("run", self.scale, report.name, path, words)
        subprocess.run(command, cwd=self.bench.folder, capture_output=True)
        return report.read_text().splitlines()[1].removeprefix("end ") if report.exists() else "no report"

    def numbers(self, words: Sequence[str]) -> tuple[set[int], str]:
        """The numbers of the unknown calls that a run makes, and how it ends when they are answered. A breakpoint of the guest
        itself ends it too."""
        found: set[int] = set()
        while fault := re.fullmatch(r"fault 7 \d+ ([0-9a-f]{8})", end := self.end(words)):
            asked = self.asked.pop(int(fault[1], 16), None)
            if asked is None:
                break
            offset, number = asked
            self.put(offset, self.before[offset])
            found.add(number)
        return found, end


def told(numbers: set[int]) -> str:
    """The names of calls."""
    named = names()
    return ", ".join(named.get(number, str(number)) for number in sorted(numbers)) or "none"


def calls(bench: GuestBench, scale: int) -> str:
    """The names of the calls that answer ENOSYS in a run, and in one that reads its input as a file, if there is such a
    one."""
    expected = f"exit {bench.recipe.status}"
    probe = Probe(bench, scale)
    found, end = probe.numbers(bench.recipe.words)
    if end != expected:
        raise LeftOut(f"the run that looks for refused calls ended with {end}")
    told_first = told(found) + (f" ({probe.unknown} of unknown number)" if probe.unknown else "")
    if not bench.recipe.by_file:
        return told_first
    more, end = Probe(bench, scale).numbers(bench.recipe.by_file)
    return f"{told_first}; a file: {told(more)}" + (f" ({end})" if end != expected else "")
