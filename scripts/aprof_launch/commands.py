"""The commands of aprof and their options: what the usage, the man page's check and the search for a wrong word read."""
from __future__ import annotations

from dataclasses import dataclass
from enum import Enum


class Use(Enum):
    """What the path behind an option is for."""

    NONE = "no path"
    READ = "read"
    WRITTEN = "written"


@dataclass(frozen=True)
class Option:
    """An option: without a metavar it takes no value, and without a greatest number any."""

    name: str
    text: str
    metavar: str = ""
    least: int = 1
    greatest: int = 0
    among: tuple[int, ...] = ()
    power: bool = False
    required: bool = False
    use: Use = Use.NONE

    def wanted(self, value: str = "0") -> str:
        """The values that it takes, told to who gave this one."""
        if self.among:
            return " or ".join([", ".join(map(str, self.among[:-1])), str(self.among[-1])])
        form = "" if value.isascii() and value.isdigit() else "a whole number in digits, "
        return f"{form}{'a power of two, ' if self.power else ''}{self.least} to {self.greatest}"

    def takes(self, value: str) -> bool:
        """Whether the program takes the value."""
        if not self.greatest:
            return True
        if not (value.isascii() and value.isdigit() and len(value) <= 20):
            return False
        number = int(value)
        is_allowed = number in self.among or not self.among
        return self.least <= number <= self.greatest and is_allowed and not (self.power and number & (number - 1))


@dataclass(frozen=True)
class Command:
    """A command. Behind its first positional word there may be any number of further ones where `further` names them."""

    name: str
    text: str
    options: tuple[Option, ...]
    positional: str
    further: str = ""

    def option(self, name: str) -> Option | None:
        return next((option for option in self.options if option.name == name), None)


OUTPUT = Option("-o", "the file for the report (or trace); an older one there is overwritten", "PATH", required=True, use=Use.WRITTEN)
STAMPS_TEXT = "bits of a stamp: 32; 16 or 8 take less memory, for at most 21844 or 84 open calls"
STAMPS = Option("--stamps", STAMPS_TEXT, "8|16|32", 8, 32, (8, 16, 32))
STATS = Option("--stats", "says how often stamps were renumbered")
GUEST = (
    Option("--stdin", "the program's standard input: empty without it; /dev/stdin for aprof's own", "PATH", use=Use.READ),
    Option("--quantum", "a turn of a thread has at most Q instructions, 1 to 1000000000; 10000 without it", "Q", 1, 10**9),
    Option("--schedule", "takes the turns that --record stored", "PATH", use=Use.READ),
    Option("--budget", "the run has at most N instructions, 1 to 1000000000000; 1000000000 without it", "N", 1, 10**12),
)
RECORD = Option("--record", "stores the turns of the threads", "PATH", use=Use.WRITTEN)
CACHE = (
    Option("--sets", "sets of the cache: a power of two up to 65536", "S", 1, 65536, power=True, required=True),
    Option("--ways", "lines of a set: 1 to 64", "W", 1, 64, required=True),
    Option("--line", "bytes of a line: a power of two, 4 to 4096", "L", 4, 4096, power=True, required=True),
)
IMAGE, WORDS = "IMAGE", "[FILE | =ARGUMENT ...]"

COMMANDS = (
    Command("run", "runs a program and stores its report", (*GUEST, RECORD, STAMPS, STATS, OUTPUT), IMAGE, WORDS),
    Command("contexts", "stores the report and who called whom", (*GUEST, STAMPS, OUTPUT), IMAGE, WORDS),
    Command("cache", "stores the misses of a cache, by routine", (*CACHE, *GUEST, OUTPUT), IMAGE, WORDS),
    Command("trace", "stores each instruction, access and call, in a binary file", (*GUEST, OUTPUT), IMAGE, WORDS),
    Command("replay", "stores the report of a stored trace", (STAMPS, STATS, OUTPUT), "TRACE"),
    Command("demo", "profiles a built-in program of N routines, 1 to 40000", (), "N"),
)
BY_NAME = {command.name: command for command in COMMANDS}
DEMO = Option("N", "", "N", 1, 40000)
