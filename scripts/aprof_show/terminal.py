"""Text for a terminal: its width, tables of aligned columns, and numbers that fit."""
from __future__ import annotations

import math
import shutil
import sys
from collections.abc import Sequence
from dataclasses import dataclass
from textwrap import wrap

NARROWEST = 80


def width() -> int:
    """The columns of the terminal that standard output is, at least 80; 80 where it is none."""
    return max(NARROWEST, shutil.get_terminal_size().columns) if sys.stdout.isatty() else NARROWEST


def can_print(text: str) -> bool:
    """Whether the encoding of standard output has the characters of a text."""
    try:
        text.encode(sys.stdout.encoding or "ascii")
    except (UnicodeEncodeError, LookupError):
        return False
    return True


@dataclass
class Column:
    """A column of a table: its heading, of a line or two, over its cells, numbers at the right. `tails` are what stands behind the
    cells of the last column where there is room."""

    heading: str
    cells: list[str]
    left: bool = False
    tails: Sequence[str] = ()

    def texts(self, lines_of_head: int) -> list[str]:
        """All its texts, with so many lines for the heading, which stands at their foot."""
        head = self.heading.split("\n")
        return [""] * (lines_of_head - len(head)) + head + self.cells


def table(columns: Sequence[Column], room: int) -> list[str]:
    """The lines of a table. In the last column a tail is left out, and then the text cut in the middle, where the room isn't
    enough."""
    lines_of_head = max(column.heading.count("\n") + 1 for column in columns)
    texts = [column.texts(lines_of_head) for column in columns]
    widths = [max(map(len, cells)) for cells in texts]
    rest = max(room - sum(widths[:-1]) - len(widths) + 1, 16)
    tails = [""] * lines_of_head + list(columns[-1].tails or [""] * len(columns[-1].cells))
    lines = []
    for row, tail in zip(zip(*texts), tails):
        aligned = [text.ljust(wide) if column.left else text.rjust(wide) for column, wide, text in zip(columns, widths, row)]
        last = aligned[-1].rstrip()
        last = last + tail if len(last + tail) <= rest else cut(last, rest)
        lines.append(" ".join([*aligned[:-1], last]).rstrip())
    return lines


def with_remarks(lines: Sequence[str], remarks: Sequence[str], place: int, room: int) -> list[str]:
    """The lines of a table, each below the heading with its remark: behind it where that fits, else under it, from `place` on."""
    head = len(lines) - len(remarks)
    told = list(lines[:head])
    for line, remark in zip(lines[head:], remarks):
        if len(line) + 2 + len(remark) <= room:
            told.append(f"{line}  {remark}".rstrip())
        else:
            indent = " " * min(place, max(room - len(remark), 2))
            told += [line, *wrap(remark, room, initial_indent=indent, subsequent_indent=f"{indent} ")]
    return told


def cut(text: str, room: int) -> str:
    """The text, or its begin and its end where it is too long."""
    if len(text) <= room:
        return text
    kept = room - 3
    return f"{text[: kept - kept // 2]}...{text[len(text) - kept // 2 :]}"


UNITS = ((1e18, "E"), (1e15, "P"), (1e12, "T"), (1e9, "G"), (1e6, "M"))


def short(number: float) -> str:
    """A number in at most seven characters; whole below ten millions."""
    if number < 10_000_000:
        return str(round(number))
    for unit, name in UNITS:
        if number >= unit:
            return f"{number / unit:.1f}{name}" if number < 1e21 else f"{number:.0e}"
    return str(round(number))


def about(*numbers: float) -> list[str]:
    """Numbers in two digits that count, all with the unit of the least of them."""
    least = min(numbers)
    unit, name = next(((unit, name) for unit, name in UNITS if unit <= least < 1000 * unit), (1.0, ""))
    return [decimal(float(f"{number:.2g}") / unit) + name for number in numbers]


def decimal(number: float) -> str:
    """Without a digit behind the point where it is 0."""
    if number >= 1e15:
        return f"{number:.1e}"
    return f"{number:.1f}" if number < 9.95 and round(number, 1) != round(number) else str(round(number))


def percent(share: float) -> str:
    return f"{100 * share:.1f}%"


def plural(number: int, noun: str) -> str:
    return f"{number} {noun}" if number == 1 else f"{number} {noun}s"


def factor_text(factor: float, digits: int = 1) -> str:
    """`x2.2`, `x84`, and `x>99` for what is out of all bounds. A half is rounded up, as on the page."""
    if factor > 99.5 and digits == 1:
        return "x>99"
    if factor >= 9.95 and digits == 1:
        return f"x{math.floor(factor + 0.5)}"
    return f"x{math.floor(10**digits * factor + 0.5) / 10**digits:.{digits}f}"
