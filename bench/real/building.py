"""Fetches source packages and builds the guests."""
from __future__ import annotations

import os
import shutil
import subprocess
from collections.abc import Sequence
from pathlib import Path

import host
from musl_library import MUSL, library
from real.recipes import Recipe

FETCH = """
. "$1"
script=$2 folder=$3
shift 3
need_tools "$script" apt-get dpkg-source
begin_apt "$script" bookworm
for package; do
  rm -rf "$folder/$package"
  mkdir -p "$folder/$package"
  cd "$folder/$package"
  { apt-get source --download-only "$package" && dpkg-source --no-check -x *.dsc source; } > "../$package.log" 2>&1 ||
    rm -rf "$folder/$package"
done
"""
"""apt works in a folder and with a list of its own, as for the C library. It checks what it loads; the unpacking need not
again."""


class LeftOut(Exception):
    """A program that can't be fetched, built or run, with the reason."""


def compiler() -> Path:
    """The compiler of the guests."""
    if not (library() / "lib" / "libc.a").exists():
        raise SystemExit(f"{host.script()}: there is no C library yet; this makes one: examples/musl/setup.sh")
    return MUSL / "cc"


def fetch(recipes: Sequence[Recipe], folder: Path) -> None:
    """Fetches and unpacks the packages that are not there yet; what fails leaves no folder."""
    missing = [recipe.package for recipe in recipes if not (folder / recipe.package / "source").is_dir()]
    if not missing:
        return
    folder.mkdir(parents=True, exist_ok=True)
    with (folder / "fetch.log").open("w") as log:
        command = ["bash", "-c", FETCH, "fetch", str(MUSL / "debian.sh"), host.script(), str(folder), *dict.fromkeys(missing)]
        subprocess.run(command, stdout=log, stderr=subprocess.STDOUT)


def version(recipe: Recipe, sources: Path) -> str:
    """The package of a recipe with its version, by the name of its description."""
    description = next((sources / recipe.package).glob("*.dsc"), None)
    if description is None:
        raise LeftOut(f"its package {recipe.package} has no description in {sources / recipe.package}")
    return " ".join(description.stem.split("_", 1))


def last_line(log: Path) -> str:
    """The last line of a log that says something."""
    lines = [line.strip() for line in log.read_text(errors="replace").splitlines() if line.strip()] if log.exists() else []
    return f"{lines[-1] if lines else 'nothing was said'} ({log})"


def build(recipe: Recipe, sources: Path, guests: Path) -> Path:
    """The guest of a recipe, built unless this very line has built it before. It is built in a copy of the source, so that
    an earlier build leaves nothing in it."""
    source = sources / recipe.package / "source"
    guest = guests / recipe.name.split()[0]
    said = guest.with_suffix(".made")
    if guest.exists() and said.exists() and said.read_text() == recipe.make:
        return guest
    if not source.is_dir():
        own, common = sources / f"{recipe.package}.log", sources / "fetch.log"
        raise LeftOut(f"its package {recipe.package} could not be fetched: {last_line(own if own.exists() else common)}")
    guests.mkdir(parents=True, exist_ok=True)
    work = guests / "work"
    shutil.rmtree(work, ignore_errors=True)
    shutil.copytree(source, work, symlinks=True)
    names = {"CC": str(compiler()), "GUEST": str(guest), "DRIVERS": str(Path(__file__).parent / "drivers")}
    names["APROF_MUSL"] = str(library())  # absolute, as the build runs in another folder
    log = guest.with_suffix(".log")
    with log.open("w") as file:
        command = ["bash", "-c", recipe.make]
        done = subprocess.run(command, cwd=work, env={**os.environ, **names}, stdout=file, stderr=subprocess.STDOUT)
    shutil.rmtree(work)
    if done.returncode or not guest.exists():
        raise LeftOut(f"it could not be built: {last_line(log)}")
    said.write_text(recipe.make)
    return guest
