"""The files of definitions that the contract of the headline rests on, by the names that it and they use."""
from __future__ import annotations

import re
from dataclasses import dataclass, field
from pathlib import Path

IMPORT = re.compile(r"^(?:ghost )?use Rattle\.(\w+)\.specs\.([\w.]+?)(?:\.\{(.*)\}| as (\w+));?$", re.MULTILINE)
WORD = r"[^\W\d][\w']*"
HEAD = re.compile(rf"(?:(?:abbrev|opaque|pub|record|data)\s+)*({WORD})")
KEYWORDS = {"use", "pub", "module", "syntax"}

Module = tuple[str, str]
"""A crate, and the name of a file under its specs/, with dots between folders."""


@dataclass
class Source:
    """What a file imports and what it defines."""

    names: dict[str, tuple[Module, str]] = field(default_factory=dict)
    modules: dict[str, Module] = field(default_factory=dict)
    texts: dict[str, str] = field(default_factory=dict)
    """By name, all text that defines it."""

    def uses(self, text: str) -> set[tuple[Module, str]]:
        """The imported definitions that a text names."""
        used = {self.names[word] for word in re.findall(WORD, text) if word in self.names}
        for alias, name in re.findall(rf"({WORD})\.({WORD})", text):
            if alias in self.modules:
                used.add((self.modules[alias], name))
        return used


def read_imports(text: str) -> Source:
    source = Source()
    for crate, module, names, alias in IMPORT.findall(text):
        if alias:
            source.modules[alias] = (crate, module)
        for each in filter(None, map(str.strip, names.split(","))):
            theirs, _, ours = each.partition(" as ")
            source.names[ours or theirs] = ((crate, module), theirs)
    return source


def read_definitions(text: str) -> Source:
    """A file of definitions. Those of a module with parameters count as one."""
    text = re.sub(r"--.*", "", text)
    source = read_imports(text)
    for part in re.split(r"\n(?=\S)", text):
        lines = re.findall(r"^  (?=\S)(.*)", part, re.MULTILINE) if part.startswith("module") else [part]
        for head in filter(None, map(HEAD.match, lines)):
            if head[1] not in KEYWORDS:
                source.texts[head[1]] = source.texts.get(head[1], "") + part
    return source


def sources(crates: Path) -> dict[Module, Source]:
    found: dict[Module, Source] = {}
    for path in crates.glob("*/specs/**/*.antt"):
        crate, *folders = path.relative_to(crates).with_suffix("").parts
        found[crate, ".".join(folders[1:])] = read_definitions(path.read_text())
    return found


def reached(found: dict[Module, Source], first: set[tuple[Module, str]]) -> set[Module]:
    """The files of all definitions that these rest on, themselves included."""
    seen: set[tuple[Module, str]] = set()
    waiting = list(first)
    while waiting:
        definition = waiting.pop()
        (module, name), source = definition, found.get(definition[0])
        if definition in seen or source is None or name not in source.texts:
            continue
        seen.add(definition)
        text = source.texts[name]
        waiting.extend(source.uses(text))
        waiting.extend((module, word) for word in re.findall(WORD, text) if word in source.texts)
    return {module for module, _ in seen}


def headline_files(crates: Path) -> set[Module]:
    """The files that the contract of `aprof_top::aprof` rests on."""
    text = (crates / "aprof_top/src/top.rt").read_text()
    contract = re.search(r"^pub fn aprof\b.*?^\{", text, re.MULTILINE | re.DOTALL)
    assert contract, "aprof_top/src/top.rt has no aprof"
    return reached(sources(crates), read_imports(text).uses(contract[0]))


def unnamed(modules: set[Module], text: str) -> list[str]:
    """Those of them that a text of definitions names nowhere in parentheses, and those that nobody should have to read."""
    words = set(re.findall(r"\w+", " ".join(re.findall(r"\(([^()]*)\)", text))))
    files = [(crate, module) for crate, module in sorted(modules) if "Private" in module or module.split(".")[-1] not in words]
    return [f"{crate}/specs/{module.replace('.', '/')}.antt" for crate, module in files]
