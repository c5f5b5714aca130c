#!/usr/bin/env python3
"""scripts/crate_graph.py: prints the crates of crates.txt as a Mermaid graph, an arrow from each crate to those that it stands on.
An arrow that others imply is left out, and so are the crates that hold tests or trials alone. scripts/crate_graph.py --write puts
it into docs/ARCHITECTURE.md, between its two marks."""
from __future__ import annotations

import sys
from pathlib import Path

TOP = Path(__file__).resolve().parent.parent
PAGE = TOP / "docs" / "ARCHITECTURE.md"
BEGIN, END = "```mermaid\n", "```\n"
TESTS = {"unit_tests", "program_tests", "profile_trials", "worked_rows", "written_images"}

Graph = dict[str, set[str]]


def read(text: str) -> Graph:
    """The crates with those of the repository that they name."""
    lines = [line.split(":", 1) for line in text.splitlines() if line.strip() and not line.startswith("#")]
    names = {name.strip() for name, _ in lines}
    return {name.strip(): set(words.split()) & names for name, words in lines}


def below(graph: Graph, name: str) -> set[str]:
    """All crates that this one stands on."""
    found: set[str] = set()
    todo = list(graph[name])
    while todo:
        crate = todo.pop()
        if crate not in found:
            found.add(crate)
            todo.extend(graph[crate])
    return found


def reduced(graph: Graph) -> Graph:
    """The arrows that no others imply."""
    whole = {name: below(graph, name) for name in graph}
    return {name: {dep for dep in deps if not any(dep in whole[other] for other in deps)} for name, deps in graph.items()}


def without(graph: Graph, names: set[str]) -> Graph:
    """The graph without these crates; what stands on one stands on what that does."""
    kept = {name: below(graph, name) - names for name in graph if name not in names}
    return reduced(kept)


def mermaid(graph: Graph) -> str:
    """The graph as Mermaid's text."""
    arrows = [f"    {name} --> {dep}\n" for name in graph for dep in sorted(graph[name])]
    return BEGIN + "graph TD\n" + "".join(arrows) + END


def page_with(page: str, picture: str) -> str:
    """The page with this picture in place of the one that it has."""
    start = page.index(BEGIN)
    end = page.index(END, start + len(BEGIN)) + len(END)
    return page[:start] + picture + page[end:]


def picture() -> str:
    return mermaid(without(read((TOP / "crates.txt").read_text()), TESTS))


def main(words: list[str]) -> int:
    if words == ["--write"]:
        PAGE.write_text(page_with(PAGE.read_text(), picture()))
    elif words:
        print(__doc__, file=sys.stderr)
        return 2
    else:
        print(picture(), end="")
    return 0


if __name__ == "__main__":
    sys.exit(main(sys.argv[1:]))
