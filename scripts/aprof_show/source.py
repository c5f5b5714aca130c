"""What an executable and other programs tell of a routine: its name, its file and line, and its name as it was written."""
from __future__ import annotations

import json
import re
import shutil
import struct
import subprocess
from bisect import bisect_right
from collections.abc import Iterable, Sequence

from aprof_show.model import Routine

SYMBOLIZERS = ("llvm-symbolizer", "riscv64-linux-gnu-addr2line", "riscv64-unknown-elf-addr2line", "addr2line")
DEMANGLERS = (["c++filt", "--format=auto"], ["llvm-cxxfilt"], ["rustfilt"])
RANKS = {1: 0, 2: 1, 0: 2}
"""Of a symbol's binding: global names go before weak ones, and these before local ones, as in aprof."""


class BadImage(Exception):
    """A file that is no 32-bit executable with symbols."""


def read_symbols(path: str) -> list[tuple[int, str]]:
    """The functions of an ELF file of 32 bits, addresses rising, one name each."""
    with open(path, "rb") as file:
        data = file.read()
    if data[:6] != b"\x7fELF\x01\x01":
        raise BadImage(f"{path} is no 32-bit little-endian ELF file")
    try:
        return symbols_of(data)
    except (struct.error, IndexError, ValueError) as error:
        raise BadImage(f"{path}: its symbol table can't be read") from error


def symbols_of(data: bytes) -> list[tuple[int, str]]:
    (place,) = struct.unpack_from("<I", data, 32)
    entry_size, count = struct.unpack_from("<HH", data, 46)
    sections = [struct.unpack_from("<10I", data, place + entry_size * number) for number in range(count)]
    tables = [section for section in sections if section[1] == 2]
    best: dict[int, tuple[int, str]] = {}
    for section in tables[:1]:
        texts = sections[section[6]]
        strings = data[texts[4] : texts[4] + texts[5]]
        for name, value, _, info, _, index in struct.iter_unpack("<IIIBBH", data[section[4] : section[4] + section[5]]):
            if info & 15 != 2 or index == 0:
                continue
            text = strings[name : strings.index(b"\0", name)].decode("ascii", "replace")
            rank = RANKS.get(info >> 4, 3), text
            best[value] = min(best.get(value, rank), rank)
    return [(value, best[value][1]) for value in sorted(best)]


def name_routines(routines: Iterable[Routine], symbols: Sequence[tuple[int, str]], path: str) -> None:
    """Gives a routine without a name that of the symbol at its entry, or of the one below with the distance, or its address where
    none is below. The names that there are have to be the image's."""
    addresses = [address for address, _ in symbols]
    for routine in routines:
        place = bisect_right(addresses, routine.entry) - 1
        at_it = place >= 0 and addresses[place] == routine.entry
        if routine.name is not None:
            if not at_it or symbols[place][1] != routine.name:
                raise BadImage(f"{path} is not the image of this report: it has no {routine.name} at {routine.entry:08x}")
        elif at_it:
            routine.name = symbols[place][1]
        elif place >= 0:
            routine.shown = f"{symbols[place][1]}+{routine.entry - addresses[place]:#x}"
        else:
            routine.shown = f"{routine.entry:08x}"


def run(command: Sequence[str], text: str) -> str | None:
    """What a program prints for a text, or None where it isn't there or fails."""
    if shutil.which(command[0]) is None:
        return None
    done = subprocess.run(command, input=text, capture_output=True, text=True, errors="replace")
    return done.stdout if done.returncode == 0 else None


def demangle(routines: Iterable[Routine]) -> None:
    """Shows names of C++ and Rust as they are written, by the first program that can."""
    mangled = [routine for routine in routines if (routine.shown or routine.name or "").startswith(("_Z", "_R"))]
    left = mangled
    for command in DEMANGLERS:
        if not left:
            return
        names = [routine.shown or routine.name or "" for routine in left]
        lines = (run(command, "\n".join(names) + "\n") or "").splitlines()
        if len(lines) != len(names):
            continue
        for routine, name, line in zip(left, names, lines):
            if line != name:
                routine.shown = line
        left = [routine for routine, name, line in zip(left, names, lines) if line == name]


def lines_of_image(path: str, addresses: Iterable[int], of_entries: bool) -> dict[int, str]:
    """`file:line` of each address that has one (`-g`), by one call of the first program that knows any: of entries where the
    routine begins, and else where the address is."""
    wanted = sorted(set(addresses))
    text = "".join(f"{address:#x}\n" for address in wanted)
    known: dict[int, str] = {}
    for program in SYMBOLIZERS:
        if program == "llvm-symbolizer":
            places = places_of_llvm(run([program, f"--obj={path}", "--output-style=JSON", "--no-inlines"], text) or "", of_entries)
        else:
            places = [line.split(" (discriminator")[0] for line in (run([program, "-e", path], text) or "").splitlines()]
        if len(places) == len(wanted):
            known = {address: place for address, place in zip(wanted, places) if re.fullmatch(r"[^?].*:[1-9][0-9]*", place)}
        if known:
            break
    return known


def places_of_llvm(text: str, of_entries: bool) -> list[str]:
    """The file and the line of each address; of an entry, where that is known, those where the routine begins."""
    places = []
    for line in text.splitlines():
        symbol = (json.loads(line).get("Symbol") or [{}])[0]
        if of_entries and symbol.get("StartLine"):
            places.append(f"{symbol.get('StartFileName') or symbol.get('FileName')}:{symbol['StartLine']}")
        else:
            places.append(f"{symbol.get('FileName')}:{symbol.get('Line')}")
    return places
