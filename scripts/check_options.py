#!/usr/bin/env python3
"""Checks that each command's options are the same in the program, in `aprof help`, in README and in the man page, and those of
`show` in its man page and in its own help; and that `./aprof` knows which commands store something. Status 0 where all is so."""
from __future__ import annotations

import re
import sys
from collections.abc import Iterator
from dataclasses import dataclass
from pathlib import Path

from aprof_launch.commands import COMMANDS, OUTPUT
from aprof_launch.usage import usage
from aprof_show.options import parser

TOP = Path(__file__).resolve().parent.parent


@dataclass(frozen=True, order=True)
class Option:
    """An option, whether a value stands behind it, and whether it has to be there."""

    name: str
    has_value: bool
    is_required: bool = False

    def __str__(self) -> str:
        text = self.name + (" VALUE" if self.has_value else "")
        return text if self.is_required else f"[{text}]"


Options = dict[str, set[Option]]


def of_usage(text: str) -> set[Option]:
    """The options of a usage line: `[--stats]`, `[--budget N]`, `-o PATH`."""
    found = re.findall(r"(?<![^\s\[])(\[?)(--?[a-z][a-z-]*)( [A-Z0-9|]+)?(?=[\]\s]|$)", text)
    return {Option(name, bool(value), not bracket) for bracket, name, value in found}


def of_help() -> Options:
    return {command.name: of_usage(" ".join(usage(command))) for command in COMMANDS}


def of_readme(text: str) -> Options:
    """The command lines: each begins with `aprof COMMAND`, and those of `show` are examples. What all commands that run a guest
    share is the line `GUEST:`."""
    shared = re.search(r"^    GUEST: (.*)$", text, re.MULTILINE)
    found = re.findall(r"^    aprof ([a-z]+)((?: .*)?)$", text, re.MULTILINE)
    return {name: of_usage(rest.replace("GUEST", shared[1] if shared else "")) for name, rest in found if name != "show"}


def of_synopsis(text: str) -> Options:
    """The man page's synopsis of each command. What begins with an option is none."""
    synopsis = text[text.index(".Sh SYNOPSIS") : text.index(".Sh DESCRIPTION")]
    found: Options = {}
    for part in synopsis.split(".Nm\n")[1:]:
        macro, name = part.split(maxsplit=2)[:2]
        if macro == ".Cm":
            found[name] = {option for line in part.splitlines()[1:] for option in of_macro(line)}
    return found


def of_macro(line: str) -> Iterator[Option]:
    """The options of a line of mdoc: `.Op Fl -budget Ar N`, `.Fl o Ar PATH IMAGE`, `.It Fl h , Fl -help`."""
    if line.startswith((".Op Fl ", ".Fl ", ".It Fl ")):
        for name in re.findall(r"Fl (\S+)", line):
            yield Option(f"-{name}", " Ar " in line, line.startswith(".Fl "))


def of_list(text: str) -> set[Option]:
    """The options that the man page explains."""
    return {option for line in text.splitlines() if line.startswith(".It") for option in of_macro(line)}


def of_program(text: str) -> Options:
    """The commands that the program's command line has: a function makes an option, or a command of some and of those of another
    command."""
    bodies = dict(re.findall(r"^(?:pub\(crate\) )?fn (\w+).*?^\{\n(.*?)^\}", text, re.MULTILINE | re.DOTALL))

    def options(body: str) -> set[Option]:
        kinds = re.findall(r"(value_option|required_option|flag)\(alloc, \"(\w+)\"\)", body)
        found = {Option(f"--{name}", kind != "flag", kind == "required_option") for kind, name in kinds}
        if "output_option(alloc)" in body:
            found.add(Option("-o", True, True))
        return found.union(*(options(bodies[other]) for other in re.findall(r"(\w+_subcommand|with_options)\(", body)))

    commands: Options = {}
    for function, name in re.findall(r"\b(\w+_subcommand)\(alloc(?:, \"(\w+)\")?\)", bodies["whole_command"]):
        own = re.search(r"(?:guest_subcommand|Command::new)\(alloc, \"(\w+)\"\)", bodies[function])
        commands[name or (own[1] if own else function)] = options(bodies[function])
    return commands


def of_launcher(text: str) -> set[str]:
    """The commands of which `./aprof` itself looks whether the output can be written."""
    found = re.search(r"^ *([a-z |]+)\) is_writable ;;$", text, re.MULTILINE)
    return set(found[1].split(" | ")) if found else set()


def differences(what: str, wanted: Options, found: Options) -> Iterator[str]:
    for name in sorted(wanted.keys() | found.keys()):
        if name not in found or name not in wanted:
            yield f"{what}: the command {name} is {'not there' if name in wanted else 'not one of the program'}"
            continue
        yield from (f"{what}: {name} lacks {option}" for option in sorted(wanted[name] - found[name]))
        yield from (f"{what}: {name} has {option}, and the program has not" for option in sorted(found[name] - wanted[name]))


def of_show() -> set[Option]:
    actions = [action for action in parser()._actions if action.option_strings]
    return {Option(name, action.nargs != 0) for action in actions for name in action.option_strings}


def all_differences(top: Path = TOP) -> Iterator[str]:
    program = of_program((top / "crates/command_line/src/app.rt").read_text())
    manual = (top / "docs/aprof.1").read_text()
    synopsis = {name: options for name, options in of_synopsis(manual).items() if name not in ("show", "help")}
    yield from differences("aprof help", program, of_help())
    yield from differences("README.md", program, of_readme((top / "README.md").read_text()))
    yield from differences("docs/aprof.1", program, synopsis)
    explained = {option.name for option in of_list(manual)}
    named = {option.name for options in program.values() for option in options}
    yield from (f"docs/aprof.1: no text on {name}" for name in sorted(named - explained))
    yield from (f"docs/aprof.1: {name} is no option of the program" for name in sorted(explained - named))
    storing = {command.name for command in COMMANDS if OUTPUT in command.options}
    looked = of_launcher((top / "aprof").read_text())
    yield from (f"aprof: need_no_look lacks {name}" for name in sorted(storing - looked))
    yield from (f"aprof: need_no_look has {name}, which stores nothing" for name in sorted(looked - storing))
    shown = of_list((top / "docs/aprof-show.1").read_text())
    yield from differences("docs/aprof-show.1", {"show": of_show()}, {"show": shown})


def main() -> int:
    found = list(all_differences())
    for line in found:
        print(f"scripts/check_options: {line}")
    return 1 if found else 0


if __name__ == "__main__":
    sys.exit(main())
