"""The reports that a command line names: files, folders of files, and names from an image."""
from __future__ import annotations

import os
import re
from collections.abc import Sequence
from pathlib import Path

from aprof_show.address import place_text
from aprof_show.joining import CannotJoin, join
from aprof_show.model import CacheReport, Profile, Report
from aprof_show.reading import NotAReport, read_file
from aprof_show.source import name_routines, read_symbols
from aprof_show.words import Refused

ROUTINE_HINT = " (for a routine called as a file: --routine NAME)"
FOLDER_HINT = ": all files of a folder must be reports"


def read_all(paths: Sequence[str], hint: str = "") -> list[Report | CacheReport]:
    """`hint` is for a file that is no report."""
    return [read_one(file, FOLDER_HINT if os.path.isdir(path) else hint) for path in paths for file in files_of(path)]


def read_one(file: str, hint: str) -> Report | CacheReport:
    try:
        return read_file(file)
    except NotAReport as error:
        raise Refused(f"{error}{hint}") from error


def files_of(path: str) -> list[str]:
    """The path itself, or the files of a folder by name, where 400 comes before 1600."""
    if not os.path.isdir(path):
        return [path]
    entries = sorted(Path(path).iterdir(), key=lambda entry: re.sub("[0-9]+", lambda digits: digits[0].zfill(20), entry.name))
    files = [str(entry) for entry in entries if entry.is_file() and not entry.name.startswith(".")]
    if not files:
        raise Refused(f"{path}: no file in this folder")
    return files


def joined(reports: Sequence[Report | CacheReport]) -> Profile:
    profiles = [report for report in reports if isinstance(report, Report)]
    if len(profiles) < len(reports):
        raise CannotJoin("reports of `aprof cache` can't be joined with others")
    return join(profiles)


def name_by_image(reports: Sequence[Report | CacheReport], image: str) -> None:
    """Names what has no name and where a fault was."""
    symbols = read_symbols(image)
    routines = [routine for report in reports if isinstance(report, Report) for routine in report.routines]
    name_routines(routines, symbols, image)
    for report in reports:
        if isinstance(report, Report) and report.end.startswith("fault"):
            report.place = place_text(image, int(report.end.split()[-1], 16))
