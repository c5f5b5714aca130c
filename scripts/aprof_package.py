"""Makes a Debian package and an archive of the built program, with what stands around it."""
from __future__ import annotations

import argparse
import gzip
import hashlib
import io
import os
import re
import shutil
import subprocess
import sys
import tarfile
import tempfile
import time
from dataclasses import dataclass
from pathlib import Path

TOP = Path(__file__).resolve().parent.parent
PROGRAM = "crates/aprof/out/aprof"
STAMP = "crates/aprof/out/launcher.stamp"

TOOLS = ("aprof", "show", "scripts/aprof_copy", "scripts/aprof_launch", "scripts/aprof_show", "examples/musl")
"""What runs: it stands in /usr/lib/aprof, in the order of a clone."""
TEXTS = ("README.md", "docs", "examples")
"""What is read or copied: in /usr/share/doc/aprof."""
PAGES = ("aprof.1", "aprof-show.1")
COMMANDS = {"aprof": "aprof", "aprof-show": "show", "aprof-cc": "examples/musl/cc", "aprof-c++": "examples/musl/c++"}
"""The commands of the package, links to what runs."""

OF_LIBRARIES = {"libc.so.6": "libc6", "libm.so.6": "libc6", "libgcc_s.so.1": "libgcc-s1", "ld-linux-x86-64.so.2": "libc6"}
"""The Debian packages of the libraries that a built program may want."""

USAGE = """./package [-o FOLDER]

Makes FOLDER/aprof_VERSION_amd64.deb and FOLDER/aprof-VERSION-amd64.tar.gz, of the program that ./aprof or .ci/run has
built. FOLDER is `out` without -o. The version is the time and the name of the last commit; the same commit and program give
the same bytes."""

CONTROL = """Package: aprof
Version: {version}
Architecture: amd64
Maintainer: {maintainer}
Installed-Size: {size}
Depends: {depends}
Recommends: libjs-chart.js
Suggests: binutils, clang, lld, llvm, make, parallel, xz-utils
Section: devel
Priority: optional
Description: proved input-sensitive profiler
 aprof runs a static RV32IMA Linux executable instruction by instruction, and
 stores a report of how the cost of each of its routines grows with the input
 that the routine really read. `aprof show` shows it. A run that calls a
 routine on inputs of several sizes tells whether it is quadratic, and counts
 are the same in each run.
"""

COPYRIGHT = """aprof {version}, of commit {commit}. Its sources name no license.

The program has parts of the crates anyhow, byteorder, clap, indexmap, itoa, memchr and thiserror, by their authors, under
the MIT license or the Apache License 2.0; see /usr/share/common-licenses/Apache-2.0. Some executables in examples/ have
parts of musl (MIT license), of libc++ (Apache License 2.0 with LLVM Exceptions) and of GCC's libgcc (GPL 3 with the GCC
Runtime Library Exception 3.1).
"""

POSTINST = """#!/bin/sh
set -e
if [ "$1" = configure ] && command -v py3compile > /dev/null; then
  py3compile -p aprof /usr/lib/aprof
fi
"""

PRERM = """#!/bin/sh
set -e
if command -v py3clean > /dev/null; then
  py3clean -p aprof
fi
find /usr/lib/aprof -depth -type d -name __pycache__ -exec rm -r {} +
"""


class Refused(Exception):
    """Why there is no package."""


@dataclass(frozen=True)
class Commit:
    name: str
    time: int
    author: str

    @property
    def version(self) -> str:
        return time.strftime("%Y%m%d.%H%M", time.gmtime(self.time)) + f"+g{self.name[:7]}"


def output_of(*words: str, top: Path = TOP) -> str:
    done = subprocess.run(words, cwd=top, capture_output=True, text=True)
    if done.returncode:
        raise Refused(f"{' '.join(words)}: {done.stderr.strip() or f'status {done.returncode}'}")
    return done.stdout


def last_commit(top: Path) -> Commit:
    name, seconds, author = output_of("git", "log", "-1", "--format=%H%n%ct%n%an <%ae>", top=top).splitlines()
    return Commit(name, int(seconds), author)


def sources_of(top: Path) -> list[str]:
    """The files of the last commit that are packed."""
    return output_of("git", "ls-files", "-z", "--", *dict.fromkeys(TOOLS + TEXTS), top=top).split("\0")[:-1]


def changed(top: Path) -> str:
    """A file that is not as in the last commit: of what is packed or of what the program is built from."""
    places = (*dict.fromkeys(TOOLS + TEXTS), "crates", "crates.txt", "HANDLES")
    lines = output_of("git", "status", "--porcelain", "--untracked-files=all", "--", *places, top=top).splitlines()
    # a new file is one of the program only where it is a source
    return next((line[3:] for line in lines if not line.startswith("??") or line.endswith((".rt", ".antt"))), "")


def newer_source(top: Path) -> Path | None:
    """A source of the program that changed after it was built. The launcher has this rule too, and looks at folders for a source
    that was deleted, which `changed` reports here."""
    built = (top / STAMP).stat().st_mtime_ns
    found = [top / "crates.txt", top / "HANDLES"]
    for folder, folders, files in os.walk(top / "crates"):
        folders[:] = [name for name in folders if name != "out"]
        found += [Path(folder, name) for name in files if name.endswith((".rt", ".antt"))]
    return next((path for path in found if path.exists() and path.stat().st_mtime_ns > built), None)


def check(top: Path) -> None:
    """Refuses where the program isn't the one of the present sources."""
    if not os.access(top / PROGRAM, os.X_OK) or not (top / STAMP).exists():
        raise Refused(f"the program is not built: there is no {PROGRAM} of a proved build; ./aprof or .ci/run makes it")
    newer = newer_source(top)
    if newer:
        raise Refused(f"the program is older than {newer.relative_to(top)}; ./aprof or .ci/run builds it anew")
    different = changed(top)
    if different:
        raise Refused(f"{different} is not as in the last commit, whose name the package has; commit it first")


def depends_of(program: bytes) -> str:
    """What the program wants of Debian, by the libraries that it names and the greatest version of glibc's symbols."""
    if program[:5] != b"\x7fELF\x02":
        raise Refused(f"{PROGRAM} is no 64-bit ELF file")
    names = {name.decode() for name in re.findall(rb"\0((?:lib|ld-)[a-z0-9_+-]+\.so\.[0-9]+)(?=\0)", program)}
    unknown = sorted(names - set(OF_LIBRARIES))
    if unknown:
        raise Refused(f"{PROGRAM} wants {unknown[0]}, whose Debian package is not known here")
    packages = {OF_LIBRARIES[name] for name in names}
    versions = [tuple(map(int, found)) for found in re.findall(rb"\0GLIBC_([0-9]+)\.([0-9]+)(?=[.\0])", program)]
    if versions:
        packages = packages - {"libc6"} | {"libc6 (>= {}.{})".format(*max(versions))}
    return ", ".join([*sorted(packages), "python3 (>= 3.11)"])


def put(path: Path, data: bytes | str, executable: bool = False) -> None:
    path.parent.mkdir(parents=True, exist_ok=True)
    path.write_bytes(data.encode() if isinstance(data, str) else data)
    path.chmod(0o755 if executable else 0o644)


def copy_files(top: Path, names: list[str], among: tuple[str, ...], to: Path) -> None:
    for name in names:
        if name.startswith(tuple(f"{part}/" for part in among)) or name in among:
            put(to / name, (top / name).read_bytes(), os.access(top / name, os.X_OK))


def put_tools(top: Path, names: list[str], commit: Commit, to: Path) -> None:
    """The program, and the scripts that run around it."""
    copy_files(top, names, TOOLS, to)
    put(to / "bin" / "aprof", (top / PROGRAM).read_bytes(), True)
    put(to / "VERSION", f"{commit.version}\n")


def settle(tree: Path, commit: Commit) -> None:
    """Gives the commit's time to all, and folders their rights."""
    for path in sorted(tree.rglob("*"), reverse=True):
        if path.is_dir() and not path.is_symlink():
            path.chmod(0o755)
        os.utime(path, (commit.time, commit.time), follow_symlinks=False)
    tree.chmod(0o755)
    os.utime(tree, (commit.time, commit.time))


def put_manual(names: list[str], top: Path, to: Path) -> None:
    for page in PAGES:
        if f"docs/{page}" in names:
            put(to / f"{page}.gz", gzip.compress((top / "docs" / page).read_bytes(), 9, mtime=0))
        else:
            print(f"package: left out: there is no docs/{page}", file=sys.stderr)


def put_control(tree: Path, commit: Commit, depends: str) -> None:
    """The package's own files, of the tree as it stands."""
    files = sorted(path for path in tree.rglob("*") if path.is_file() and not path.is_symlink())
    size = sum(-(-path.stat().st_size // 1024) for path in files)
    sums = "".join(f"{hashlib.md5(path.read_bytes()).hexdigest()}  {path.relative_to(tree)}\n" for path in files)
    control = tree / "DEBIAN"
    text = CONTROL.format(version=commit.version, maintainer=commit.author, size=size, depends=depends)
    put(control / "control", text)
    put(control / "md5sums", sums)
    put(control / "postinst", POSTINST, True)
    put(control / "prerm", PRERM, True)


def debian_tree(top: Path, names: list[str], commit: Commit, tree: Path) -> None:
    usr = tree / "usr"
    put_tools(top, names, commit, usr / "lib" / "aprof")
    (usr / "bin").mkdir(parents=True)
    for command, target in COMMANDS.items():
        (usr / "bin" / command).symlink_to(f"../lib/aprof/{target}")
    doc = usr / "share" / "doc" / "aprof"
    copy_files(top, names, TEXTS, doc)
    put(doc / "copyright", COPYRIGHT.format(version=commit.version, commit=commit.name))
    put_manual(names, top, usr / "share" / "man" / "man1")
    put_control(tree, commit, depends_of((top / PROGRAM).read_bytes()))


def make_package(top: Path, names: list[str], commit: Commit, folder: Path) -> Path:
    package = folder / f"aprof_{commit.version}_amd64.deb"
    with tempfile.TemporaryDirectory() as scratch:
        tree = Path(scratch, "tree")
        debian_tree(top, names, commit, tree)
        settle(tree, commit)
        words = ["dpkg-deb", "--root-owner-group", "-Zxz", "-z6", "--threads-max=1", "--build", str(tree), str(package)]
        done = subprocess.run(words, env=os.environ | {"SOURCE_DATE_EPOCH": str(commit.time)}, capture_output=True, text=True)
    if done.returncode:
        raise Refused(done.stderr.strip())
    return package


def make_archive(top: Path, names: list[str], commit: Commit, folder: Path) -> Path:
    """The same in the order of a clone, for any folder of any Linux on amd64."""
    root = f"aprof-{commit.version}"
    archive = folder / f"{root}-amd64.tar.gz"
    with tempfile.TemporaryDirectory() as scratch:
        tree = Path(scratch, root)
        put_tools(top, names, commit, tree)
        copy_files(top, names, TEXTS, tree)
        put(tree / "COPYRIGHT", COPYRIGHT.format(version=commit.version, commit=commit.name))
        settle(tree, commit)
        plain = io.BytesIO()
        with tarfile.open(fileobj=plain, mode="w", format=tarfile.GNU_FORMAT) as tar:
            for path in [tree, *sorted(tree.rglob("*"))]:
                tar.add(path, str(path.relative_to(scratch)), recursive=False, filter=as_root)
        archive.write_bytes(gzip.compress(plain.getvalue(), 9, mtime=commit.time))
    return archive


def as_root(member: tarfile.TarInfo) -> tarfile.TarInfo:
    member.uid = member.gid = 0
    member.uname = member.gname = "root"
    return member


def make(top: Path, folder: Path) -> list[Path]:
    check(top)
    if shutil.which("dpkg-deb") is None:
        raise Refused("dpkg-deb is missing, which makes Debian packages; it is in Debian's package dpkg")
    commit, names = last_commit(top), sources_of(top)
    folder.mkdir(parents=True, exist_ok=True)
    return [make_package(top, names, commit, folder), make_archive(top, names, commit, folder)]


def main() -> int:
    parser = argparse.ArgumentParser(prog="package", usage=USAGE.replace("%", "%%"), add_help=True)
    parser.add_argument("-o", dest="folder", metavar="FOLDER", default=str(TOP / "out"), help="where they are put")
    options = parser.parse_args()
    os.umask(0o022)
    try:
        for path in make(TOP, Path(options.folder)):
            print(f"{path}: {path.stat().st_size} bytes, sha256 {hashlib.sha256(path.read_bytes()).hexdigest()}")
        return 0
    except (Refused, OSError) as error:
        print(f"package: {error}", file=sys.stderr)
        return 1
