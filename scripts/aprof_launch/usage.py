"""What `aprof help` prints."""
from __future__ import annotations

import textwrap

from aprof_copy.called import version
from aprof_launch.commands import BY_NAME, COMMANDS, Command, Option
from aprof_launch.words import no_command

WIDTH = 80

WORDS = """IMAGE is a static executable for RV32IMA. FILE is an argument of it and a file that
it can open by just that name; =ARGUMENT is the argument behind the `=` alone, as
=-n for -n."""

HEAD = """aprof: how the cost of each routine of a program grows with its input

  aprof run -o REPORT IMAGE [FILE | =ARGUMENT ...]
  aprof show REPORT
"""

TAIL = """Of the launcher itself: `--progress` tells on standard error that a run goes on, also
where that is no terminal; APROF_HINTS=0 in the environment keeps out its hints;
`aprof --version` prints the version."""


def shown(option: Option) -> str:
    """The option as the usage has it."""
    text = f"{option.name} {option.metavar}".rstrip()
    return text if option.required else f"[{text}]"


def usage_parts(command: Command) -> list[str]:
    """The parts of a command's usage behind its name; a line isn't broken within one."""
    parts = [shown(option) for option in command.options]
    return [*parts, command.positional, *([command.further] if command.further else [])]


def usage(command: Command, head: str = "usage: ") -> list[str]:
    """The usage of a command, in lines."""
    lines, line = [], f"{head}aprof {command.name}"
    indent = " " * (len(head) + 8)
    for part in usage_parts(command):
        if len(line) + 1 + len(part) > WIDTH:
            lines.append(line)
            line = indent + part
        else:
            line += f" {part}"
    return [*lines, line]


def entry(name: str, text: str) -> str:
    """A name, and behind it what it is."""
    wrapped = textwrap.wrap(text, WIDTH - 20)
    first = f"  {name:<16}  " if len(name) <= 16 else f"  {name}\n{'':20}"
    return first + f"\n{'':20}".join(wrapped)


def command_help(command: Command) -> str:
    lines = [*usage(command), "", f"aprof {command.name} {command.text}.", ""]
    lines += [entry(f"{option.name} {option.metavar}".rstrip(), option.text) for option in command.options]
    return "\n".join([*lines, *(["", WORDS] if command.further else [])]).rstrip()


def whole_help() -> str:
    lines = [HEAD, *(entry(command.name, command.text) for command in COMMANDS)]
    lines += [entry("show", "shows what is stored: `aprof show --help`"), entry("help COMMAND", "the options of a command"), ""]
    return "\n".join([*lines, WORDS, "", TAIL])


def complaint(words: list[str]) -> str:
    """What is wrong with words that begin with `help` or an option that asks for it."""
    named = words[1:] if words[:1] == ["help"] else []
    if named and named[0] not in (*BY_NAME, "show", "help", "-h", "--help"):
        return no_command(named[0])
    return f"{named[1]} is one word too many" if len(named) > 1 else ""


def text_for(words: list[str]) -> str:
    """What is printed for words that ask for help."""
    if "--version" in words[:1]:
        return f"aprof {version()}"
    named = [word for word in words if word in BY_NAME]
    return command_help(BY_NAME[named[0]]) if named else whole_help()
