#!/usr/bin/env python3
"""bench/hostile.py PROGRAM: executables that are made to cost much, each with the time that it took, of the clock and of the
processor, and the most memory: 65534 load headers; 400000 symbols of as many values, whose names are long and overlap in a
string table of 1 MiB; a routine of 100000 sizes that fall one by one; and 100000 routines that are called from the highest
address down, by `run`, and by `cache` where each writes a word. Of the last three, the host's instructions for one of the
guest's are counted too, on shorter runs."""
from __future__ import annotations

import struct
import subprocess
import sys
import tempfile
from collections.abc import Callable, Sequence
from pathlib import Path

import host
from guests import BASE, BNE, EXIT, HEADERS, RETURN, addi, branch, image, jal, jalr, lw, number, sw
from host import CACHE, RUN, TOP, Bench


def headers() -> bytes:
    """The file of the worked row."""
    with tempfile.TemporaryDirectory() as folder:
        subprocess.run([sys.executable, TOP / "rows/headers-65534/setup.py"], cwd=folder, check=True)
        return (Path(folder) / "img").read_bytes()


def symbols(count: int) -> bytes:
    """The smallest guest with a symbol table and its strings behind it."""
    file = bytearray((TOP / "crates/aprof/data/img").read_bytes())
    file += bytes(-len(file) % 4)
    strings = bytearray(b"\0" + (b"n" * 1000 + b"\0") * 1047)
    table = len(file)
    for i in range(count):
        # st_name, st_value, st_size, st_info (a global function), st_other, st_shndx
        file += struct.pack("<IIIBBH", 1 + i % 1000 + 1001 * (i % 1047), 0x10000 + i, 0, 0x12, 0, 1)
    text = len(file)
    file += strings
    file += bytes(-len(file) % 4)
    sections = len(file)
    file += bytes(40)
    # sh_name, sh_type, sh_flags, sh_addr, sh_offset, sh_size, sh_link, sh_info, sh_addralign, sh_entsize
    file += struct.pack("<10I", 0, 2, 0, 0, table, 16 * count, 2, 0, 4, 16)
    file += struct.pack("<10I", 0, 3, 0, 0, text, len(strings), 0, 0, 1, 0)
    struct.pack_into("<I", file, 32, sections)  # e_shoff
    struct.pack_into("<HHH", file, 46, 40, 3, 0)  # e_shentsize, e_shnum, e_shstrndx
    return bytes(file)


def falling(levels: int) -> bytes:
    """A routine that writes a word and calls itself; the innermost one reads the words of all. So the sizes fall by one from
    each that ends to the next."""
    leaf = [addi(5, 2, 0), lw(6, 4, 5), addi(5, 5, 16), branch(1, 5, 9, -8), jal(0, -28)]
    down = [addi(2, 2, -16), sw(1, 0, 2), sw(0, 4, 2), branch(0, 10, 0, 24), addi(10, 10, -1), jal(1, -20)]
    back = [lw(1, 0, 2), addi(2, 2, 16), RETURN]
    begin = number(10, levels) + [addi(9, 2, 0), jal(1, 4 * (1 + len(EXIT)))] + EXIT
    return image(begin + down + back + leaf)


def routines(count: int, body: list[int]) -> bytes:
    """Routines of this body, called from the highest address down, so that each comes before all that were called."""
    size = 4 * len(body)
    loop = [jalr(1, 8), addi(8, 8, -size), branch(BNE, 8, 9, -8)]
    first = BASE + HEADERS + 4 * (4 + len(loop) + len(EXIT))
    return image(number(8, first + size * (count - 1)) + number(9, first - size) + loop + EXIT + body * count)


def returning(count: int) -> bytes:
    """Routines that only return."""
    return routines(count, [RETURN])


def writing(count: int) -> bytes:
    """Routines that write a word of the stack, so that each accesses a cache line."""
    return routines(count, [sw(0, -4, 2), RETURN])


def count_host(bench: Bench, name: str, guest: Callable[[int], bytes]) -> None:
    """Prints the host's instructions for one of the guest's, as the guest grows."""
    for size in (2500, 5000):
        few, many = (bench.cost(guest(count)) for count in (size, 2 * size))
        print(f"from {size} to {2 * size} {name}: {many.beyond(few).a_step:.0f} host instructions a step")


def first_routine(report: Path) -> list[str]:
    """The line of the report's first routine, if there is one."""
    lines = report.read_text().splitlines() if report.exists() else []
    return [line for line in lines if line.startswith("routine")][:1]


def measure(program: Path, name: str, file: bytes, command: Sequence[str] = RUN) -> None:
    """Prints what a run of a file takes."""
    with tempfile.TemporaryDirectory() as folder:
        guest, report = Path(folder, "img"), Path(folder, "r")
        guest.write_bytes(file)
        ended = host.run([program, *command, "-o", report, guest], stderr=subprocess.DEVNULL, every=0.002)
        took = f"{ended.clock:.2f} s ({ended.processor:.2f} s of the processor), {ended.memory / 1024:.0f} MiB"
        print(f"{name}: {len(file)} bytes, status {ended.status}, {took}, {str(first_routine(report))[:60]}")


def main() -> None:
    """Prints all."""
    parser = host.parser(__doc__)
    parser.add_argument("program", metavar="PROGRAM", type=host.program, help="the built aprof")
    program = parser.parse_args().program
    measure(program, "65534 headers", headers())
    measure(program, "400000 symbols", symbols(400_000))
    measure(program, "100000 falling sizes", falling(100_000))
    measure(program, "100000 falling routines", returning(100_000))
    measure(program, "100000 falling routines, cache", writing(100_000), CACHE)
    with tempfile.TemporaryDirectory() as made:
        folder = Path(made)
        count_host(Bench(program, folder), "falling sizes", falling)
        count_host(Bench(program, folder), "falling routines", returning)
        count_host(Bench(program, folder, CACHE), "falling routines, cache", writing)


if __name__ == "__main__":
    main()
