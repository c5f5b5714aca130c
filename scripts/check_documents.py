#!/usr/bin/env python3
"""Checks what the documents name and count: each name in backquotes stands somewhere in the sources, each file exists, each clause
in the table of PROOFS.md is one of its crate, each file of definitions that the headline rests on is named in DEFINITIONS.md, and
each count below is that of the sources. Status 0 where all is so."""
from __future__ import annotations

import os
import re
import sys
from collections.abc import Callable, Iterator
from dataclasses import dataclass
from fnmatch import fnmatch
from functools import cache
from pathlib import Path

from headline_files import headline_files, unnamed

TOP = Path(__file__).resolve().parent.parent
CRATES = TOP / "crates"
PROVED = (".rt", ".antt", ".edit")
SOURCES = (*PROVED, ".py", ".sh", ".c", ".h", ".txt", ".ld", "")


@cache
def text_of(path: Path) -> str:
    try:
        return path.read_text()
    except UnicodeDecodeError:
        return ""


@cache
def ignored() -> tuple[str, ...]:
    """The patterns of .gitignore, which names what is built, fetched and measured, without the slash of folders."""
    return (".git", *(line.rstrip("/") for line in text_of(TOP / ".gitignore").split()))


def is_source(path: Path) -> bool:
    """Whether no pattern of .gitignore matches: one with a slash is compared with the path, another one with the name."""
    whole = path.relative_to(TOP).as_posix()
    return not any(fnmatch(whole if "/" in pattern else path.name, pattern.lstrip("/")) for pattern in ignored())


@cache
def sources() -> tuple[Path, ...]:
    """All files of the repository."""
    found = []
    for folder, folders, names in os.walk(TOP):
        folders[:] = [name for name in folders if is_source(Path(folder, name))]
        found += [path for name in names if is_source(path := Path(folder, name)) and path.is_file()]
    return tuple(sorted(found))


@cache
def files(folder: Path, *suffixes: str) -> tuple[Path, ...]:
    """The files of a folder and all under it with these suffixes."""
    return tuple(path for path in sources() if path.suffix in suffixes and path.is_relative_to(folder))


@cache
def words_of(folder: Path) -> frozenset[str]:
    """The words of the sources under a folder, and the names of their files."""
    found: set[str] = set()
    for path in files(folder, *SOURCES):
        found.update(re.findall(r"\w+", text_of(path)), path.relative_to(TOP).parts, [path.stem])
    return frozenset(found)


def documents() -> list[Path]:
    return [*sorted(TOP.glob("*.md")), *sorted((TOP / "docs").glob("*.md")), *sorted(CRATES.glob("*/README.md"))]


def spans(text: str) -> Iterator[str]:
    """What stands in backquotes, but for blocks of code."""
    yield from re.findall(r"`([^`\n]+)`", re.sub(r"^```.*?^```", "", text, flags=re.MULTILINE | re.DOTALL))


def unknown_names(text: str) -> Iterator[str]:
    """Names in backquotes of which a part is no word of the sources: `Machine::run_known`, `IsAnswered`, `no_allocation`."""
    for span in spans(text):
        if re.fullmatch(r"[A-Za-z]\w*((::|\.)[A-Za-z_]\w*)*", span) and re.search(r"::|_|[a-z][A-Z]", span):
            if not set(re.split(r"::|\.", span)) <= words_of(TOP):
                yield span


def missing_files(text: str) -> Iterator[str]:
    """Files of src/, specs/ and proofs/ that no crate has."""
    have = [path.as_posix() for path in files(CRATES, ".rt", ".antt")]
    for name in re.findall(r"\b[\w/]+\.(?:rt|antt)\b", text):
        if not any(path.endswith(f"/{name}") for path in have):
            yield name


@cache
def clauses_of(crate: str) -> frozenset[str]:
    """The names of a crate's clauses, of its traits' laws, and of what its specs define, as the fields of a clause's record."""
    found: set[str] = set()
    for path in files(CRATES / crate / "src", ".rt"):
        found.update(re.findall(r"\b(?:ensures|requires) (\w+) \{", text_of(path)), re.findall(r"\bghost (\w+):", text_of(path)))
    for path in files(CRATES / crate / "specs", ".antt"):
        found.update(re.findall(r"\bpub (?:record |data )?(\w+)", text_of(path)))
    return frozenset(found)


def unknown_clauses(table: str) -> Iterator[str]:
    """The names in the last column of a table's rows `| promise | crate | function | clauses |` that are no clause of the crate,
    and the crates that are not there."""
    for line in table.splitlines():
        cells = [cell.strip("| ") for cell in line.strip().strip("|").split(" | ")]
        if not line.startswith("|") or len(cells) != 4 or cells[1] in ("Crate", "all"):
            continue
        crate = cells[1]
        if not (CRATES / crate / "src").is_dir():
            yield f"no crate {crate}"
            continue
        for name in spans(cells[3]):
            if re.fullmatch(r"\w+", name) and name not in clauses_of(crate):
                yield f"no clause {crate}: {name}"


# What is counted.


def in_file(path: str, pattern: str) -> int:
    return len(re.findall(pattern, text_of(TOP / path), re.MULTILINE))


def edits() -> int:
    return sum(1 for path in files(CRATES, ".edit") if path.parent.name == "must-fail")


def tests() -> int:
    return sum(text_of(path).count("#[test]") for path in files(CRATES, ".rt"))


def rows() -> int:
    return sum(1 for path in (TOP / "rows").iterdir() if path.is_dir())


def naming(word: str) -> int:
    """How many files of the crates have the word."""
    return sum(1 for path in files(CRATES, *PROVED) if re.search(rf"\b{word}\b", text_of(path)))


def forms() -> int:
    """How many forms of instructions there are."""
    return in_file("crates/rv_isa/specs/Table.antt", r"\brow 0x")


def cited(own: str, text: str) -> set[tuple[str, str]]:
    """The modules of proofs that a file of the crate `own` cites from other crates here, each with its crate."""
    found = re.findall(r"\bRattle\.(\w+)\.proofs\.([\w.]*\w)", text)
    return {(crate, module) for crate, module in found if crate != own and (CRATES / crate).is_dir()}


def cited_modules() -> int:
    """How many modules of proofs another crate cites."""
    found: set[tuple[str, str]] = set()
    for path in files(CRATES, ".rt", ".antt"):
        found |= cited(path.relative_to(CRATES).parts[0], text_of(path))
    return len(found)


def limit(name: str) -> int:
    found = re.search(rf"\b{name}: \w+ = ([\d_]+)", text_of(CRATES / "guest_words/src/limits.rt"))
    return int(found[1]) if found else -1


@dataclass(frozen=True)
class Count:
    """A number of a document, which stands in the pattern's group, and what it has to be."""

    document: str
    pattern: str
    right: Callable[[], int]


COUNTS = [
    Count("docs/ARCHITECTURE.md", r"(\d+)\s+must-fail\s+edits", edits),
    Count("docs/PERFORMANCE.md", r"of\s+the\s+(\d+)\s+edits", edits),
    Count("docs/ARCHITECTURE.md", r"table of (\d+) forms", forms),
    Count("crates/rv_isa/README.md", r"table of (\d+) forms", forms),
    Count("crates/rv_exec/README.md", r"all (\d+) forms", forms),
    Count("docs/DECISIONS.md", r"one of (\d+) variants", lambda: in_file("crates/guest_memory/specs/Code.antt", r"^known_of ")),
    Count("docs/DECISIONS.md", r"\((\d+) modules are cited so\)", cited_modules),
    Count("docs/ARCHITECTURE.md", r"\(`Fill`\): (\d+) files", lambda: naming("Fill")),
    Count("docs/ARCHITECTURE.md", r"\(`TRACE_BYTES`\): (\d+) files", lambda: naming("TRACE_BYTES")),
    Count("docs/DEFINITIONS.md", r"(\d+) calls by number", lambda: in_file("crates/guest_calls/specs/Table.antt", r"\(\d+, \w+\)$")),
    Count("docs/DEFINITIONS.md", r"(\d+) tests, each over", lambda: in_file("crates/elf_image/src/error.rt", r"^    \w+ = [1-9]")),
    Count("docs/DEFINITIONS.md", r"at most (\d+) mapped pages", lambda: limit("PAGES")),
    Count("docs/DEFINITIONS.md", r"(\d+) of them its stack", lambda: limit("STACK_PAGES")),
    Count("docs/DEFINITIONS.md", r"and (\d+) live threads", lambda: limit("THREADS")),
    Count("docs/PROOFS.md", r"what (\d+) rows come to", lambda: in_file("crates/worked_rows/stdout", r"^[^#\n]")),
    Count("docs/PROOFS.md", r"(\d+) worked rows \(rows/\)", rows),
    Count("docs/PROOFS.md", r"\*\*(\d+) tests\*\*", tests),
]


def wrong_count(count: Count) -> str | None:
    found = re.search(count.pattern, text_of(TOP / count.document))
    if found is None:
        return f"{count.document}: nothing is like {count.pattern}"
    right = count.right()
    return None if int(found[1]) == right else f"{count.document}: {found[0]!r}, but there are {right}"


def mistakes() -> Iterator[str]:
    for document in documents():
        text, name = text_of(document), document.relative_to(TOP)
        yield from (f"{name}: `{span}` is no name of the sources" for span in unknown_names(text))
        yield from (f"{name}: no file {path}" for path in missing_files(text))
        yield from (f"{name}: {place} is to be filled in" for place in re.findall(r"@[A-Z]+@", text))
    yield from (f"docs/PROOFS.md: {mistake}" for mistake in unknown_clauses(text_of(TOP / "docs/PROOFS.md")))
    definitions = text_of(TOP / "docs/DEFINITIONS.md")
    yield from (f"docs/DEFINITIONS.md: does not name {file}" for file in unnamed(headline_files(CRATES), definitions))
    yield from (mistake for mistake in map(wrong_count, COUNTS) if mistake)


def main() -> int:
    found = sorted(set(mistakes()))
    for mistake in found:
        print(f"scripts/check_documents.py: {mistake}")
    return 1 if found else 0


if __name__ == "__main__":
    sys.exit(main())
