"""The words of a command line as the program reads them, and what is wrong with them."""
from __future__ import annotations

import difflib
import os
from dataclasses import dataclass, field

from aprof_launch.commands import BY_NAME, COMMANDS, DEMO, Command, Option, Use

OUTPUT_NAMES = ("--output", "--out", "--report")
"""What `-o` is called elsewhere."""


@dataclass
class Words:
    """What was read. Where a word is wrong the reading stops, and `complaint` says what is."""

    command: Command | None = None
    values: dict[str, str] = field(default_factory=dict)
    positionals: list[str] = field(default_factory=list)
    complaint: str = ""

    def paths(self, use: Use) -> list[str]:
        """The paths behind the options of this use."""
        options = self.command.options if self.command else ()
        return [self.values[option.name] for option in options if option.use is use and option.name in self.values]

    def inputs(self) -> list[str]:
        """The files that the program reads: the image or the trace, the further words that are files, standard input and the
        schedule."""
        if self.command is None or self.command.name == "demo":
            return []
        files = [word for word in self.positionals[1:] if not word.startswith("=")]
        return [*self.positionals[:1], *files, *self.paths(Use.READ)]

    def outputs(self) -> list[str]:
        return self.paths(Use.WRITTEN)


def read_words(words: list[str]) -> Words:
    """Reads the words behind `aprof`."""
    read = Words()
    if not words:
        read.complaint = "a command is wanted"
    elif words[0] not in BY_NAME:
        read.complaint = no_command(words[0])
    else:
        read.command = BY_NAME[words[0]]
        read.complaint = read_options(read, read.command, words[1:]) or lacking(read, read.command)
    return read


def not_utf8(words: list[str]) -> str:
    """Which word is not UTF-8: the program reads no such word."""
    for number, word in enumerate(words, 1):
        if any("\udc80" <= letter <= "\udcff" for letter in word):
            return f"word {number} is not UTF-8 ('{word}'): rename the file, or give the bytes by --stdin"
    return ""


def no_command(word: str) -> str:
    if not word:
        return "an empty word is no command"
    if word in ("-V", "version"):
        return f"no command {word}; there is --version"
    if word.startswith("-"):
        return f"{word} stands before the command: options stand behind it"
    return f"no command {word}" + nearest(word, [command.name for command in COMMANDS])


def nearest(word: str, names: list[str]) -> str:
    near = difflib.get_close_matches(word, names, 1)
    return f"; there is {near[0]}" if near else ""


def read_options(read: Words, command: Command, words: list[str]) -> str:
    """Reads the words behind the command, up to the first that is wrong."""
    left = list(words)
    while left:
        word = left.pop(0)
        if word == "--":
            read.positionals += left
            return ""
        if word.startswith("-") and word != "-":
            complaint = read_option(read, command, word, left)
        else:
            read.positionals.append(word)
            complaint = ""
        if complaint:
            return complaint
    return ""


def read_option(read: Words, command: Command, word: str, left: list[str]) -> str:
    """Reads an option and its value, which may be in the same word."""
    is_long = word.startswith("--")
    name, equals, value = word.partition("=") if is_long else (word[:2], word[2:], word[2:].removeprefix("="))
    option = command.option(name)
    if option is None:
        return no_option(command, word, name, bool(command.further and read.positionals))
    if name in read.values:
        return f"{name} stands twice"
    if not option.metavar:
        read.values[name] = ""
        return f"{name} takes no value" if equals else ""
    if not equals:
        if not left or (left[0].startswith("-") and left[0] != "-"):
            return no_value(option, left)
        value = left.pop(0)
    read.values[name] = value
    shown = f"{name} {value}" if value else f"{name}: an empty word"
    return "" if option.takes(value) else f"{shown}: it takes {option.wanted(value)}"


def no_option(command: Command, word: str, name: str, is_behind: bool) -> str:
    """What is said of a word that may be meant for the program where it stands behind the image."""
    others = [other.name for other in COMMANDS if other.option(name)]
    if others:
        takes_turns = name == "--record" and command.option("--schedule")
        instead = "; store the turns there, and take them here by --schedule" if takes_turns else ""
        return f"{name} is an option of {' and '.join(others)}, not of {command.name}{instead}"
    is_output = name in OUTPUT_NAMES and command.option("-o")
    near = "; there is -o" if is_output else nearest(name, [option.name for option in command.options])
    word = name if is_output else word
    return f"no option {word}{near}" + (f"; for an argument of the program write ={word}" if is_behind or not near else "")


def no_value(option: Option, left: list[str]) -> str:
    behind = f", and {left[0]} is none" if left else ""
    hint = f" (a file of this name: ./{left[0]})" if left and option.use is not Use.NONE and left[0] != "--" else ""
    return f"{option.name} wants {'a path' if option.use is not Use.NONE else option.wanted()} behind it{behind}{hint}"


def taken_for(read: Words, command: Command) -> str:
    """Which option took a file that may be meant for the image: one whose own path was forgotten."""
    paths = [(name, value) for name, value in read.values.items() if (option := command.option(name)) and option.use is not Use.NONE]
    found = next(((name, value) for name, value in reversed(paths) if os.path.isfile(value)), None)
    return f" ({found[1]} was taken for {found[0]})" if found else ""


def lacking(read: Words, command: Command) -> str:
    """What has to be there and isn't, or is too much."""
    required = [option for option in command.options if option.required]
    missing = [f"{option.name} {option.metavar}" for option in required if option.name not in read.values]
    if not read.positionals:
        missing.append(command.positional)
    if missing:
        is_behind = any(len(word) > 1 and word[0] == "-" for word in read.positionals)
        behind = " (behind -- no word is an option)" if is_behind else ""
        taken = taken_for(read, command) if not read.positionals else ""
        return f"{' and '.join(missing)} {'is' if len(missing) == 1 else 'are'} missing{behind}{taken}"
    if not command.further and len(read.positionals) > 1:
        return f"{read.positionals[1]} is one word too many"
    if command.name == "demo" and not DEMO.takes(read.positionals[0]):
        return f"{read.positionals[0]}: N is {DEMO.wanted(read.positionals[0])}"
    return ""
