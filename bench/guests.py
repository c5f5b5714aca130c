"""What the guests of bench/ are made of: instructions as words, code with labels, and the executable of a code."""
from __future__ import annotations

import struct
from collections.abc import Callable
from dataclasses import dataclass, field

BASE = 0x10000
HEADERS = 84
"""The bytes of the headers, behind which the code begins."""
STACK = 0x7FC00000
"""In the middle of the stack: there is room above and below."""


def i_type(opcode: int, funct3: int, rd: int, rs1: int, immediate: int) -> int:
    return (immediate & 0xFFF) << 20 | rs1 << 15 | funct3 << 12 | rd << 7 | opcode


def addi(rd: int, rs1: int, immediate: int) -> int:
    return i_type(0x13, 0, rd, rs1, immediate)


def slli(rd: int, rs1: int, count: int) -> int:
    return i_type(0x13, 1, rd, rs1, count)


def add(rd: int, rs1: int, rs2: int) -> int:
    return rs2 << 20 | rs1 << 15 | rd << 7 | 0x33


def lui(rd: int, value: int) -> int:
    return (value & 0xFFFFF) << 12 | rd << 7 | 0x37


def lw(rd: int, offset: int, rs1: int) -> int:
    return i_type(0x03, 2, rd, rs1, offset)


def sw(rs2: int, offset: int, rs1: int) -> int:
    return (offset >> 5 & 0x7F) << 25 | rs2 << 20 | rs1 << 15 | 2 << 12 | (offset & 0x1F) << 7 | 0x23


def branch(funct3: int, rs1: int, rs2: int, offset: int) -> int:
    return (
        (offset >> 12 & 1) << 31 | (offset >> 5 & 0x3F) << 25 | rs2 << 20 | rs1 << 15
        | funct3 << 12 | (offset >> 1 & 0xF) << 8 | (offset >> 11 & 1) << 7 | 0x63
    )


def jal(rd: int, offset: int) -> int:
    return (
        (offset >> 20 & 1) << 31 | (offset >> 1 & 0x3FF) << 21 | (offset >> 11 & 1) << 20
        | (offset >> 12 & 0xFF) << 12 | rd << 7 | 0x6F
    )


def signed(value: int, bits: int) -> int:
    """A field of so many bits as a number with a sign."""
    return value - (1 << bits) if value >> (bits - 1) else value


def jal_offset(word: int) -> int:
    """How many bytes from itself a `jal` goes."""
    return signed(word >> 31 << 20 | (word >> 12 & 0xFF) << 12 | (word >> 20 & 1) << 11 | (word >> 21 & 0x3FF) << 1, 21)


def jalr(rd: int, rs1: int) -> int:
    return i_type(0x67, 0, rd, rs1, 0)


ECALL = 0x73
RETURN = jalr(0, 1)
BEQ, BNE = 0, 1


def number(rd: int, value: int) -> list[int]:
    """Puts any number into a register, by two instructions."""
    low = (value & 0xFFF) - (0x1000 if value & 0x800 else 0)
    return [lui(rd, value - low >> 12), addi(rd, rd, low)]


def syscall(nr: int) -> list[int]:
    """A system call, whose arguments are in x10 to x15."""
    return [addi(17, 0, nr), ECALL]


EXIT = [addi(10, 0, 0), *syscall(94)]


@dataclass(frozen=True)
class Late:
    """A place that waits for its label, and what stands there, by how many bytes the label is behind it."""

    place: int
    label: str
    make: Callable[[int], list[int]]


@dataclass
class Code:
    """Code whose jumps go to labels."""

    words: list[int] = field(default_factory=list)
    labels: dict[str, int] = field(default_factory=dict)
    late: list[Late] = field(default_factory=list)

    def put(self, *words: int) -> None:
        self.words += words

    def label(self, name: str) -> None:
        self.labels[name] = len(self.words)

    def put_late(self, label: str, size: int, make: Callable[[int], list[int]]) -> None:
        """Leaves `size` words free until the label is known."""
        self.late.append(Late(len(self.words), label, make))
        self.put(*[0] * size)

    def jump(self, rd: int, label: str) -> None:
        self.put_late(label, 1, lambda offset: [jal(rd, offset)])

    def branch(self, funct3: int, rs1: int, rs2: int, label: str) -> None:
        self.put_late(label, 1, lambda offset: [branch(funct3, rs1, rs2, offset)])

    def address(self, rd: int, label: str) -> None:
        """Puts the address of a label into a register."""
        here = BASE + HEADERS + 4 * len(self.words)
        self.put_late(label, 2, lambda offset: number(rd, here + offset))

    def finish(self) -> list[int]:
        for late in self.late:
            made = late.make(4 * (self.labels[late.label] - late.place))
            self.words[late.place : late.place + len(made)] = made
        return self.words


def image(code: list[int]) -> bytes:
    """The file of a code: one segment at 0x10000, which holds the headers and the code, and can be read, written and run."""
    size = HEADERS + 4 * len(code)
    header = b"\x7fELF\x01\x01\x01" + bytes(9)
    header += struct.pack("<HHIIIIIHHHHHH", 2, 243, 1, BASE + HEADERS, 52, 0, 0, 52, 32, 1, 40, 0, 0)
    header += struct.pack("<IIIIIIII", 1, 0, BASE, BASE, size, size, 7, 4096)
    return header + struct.pack(f"<{len(code)}I", *code)
