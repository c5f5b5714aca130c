"""The paths that are written: whether they can be, before a run, and what an interrupted one left of them."""
from __future__ import annotations

import fcntl
import os
import re
import stat
import termios
from collections.abc import Iterable
from pathlib import Path

from aprof_launch.commands import Use
from aprof_launch.images import is_elf
from aprof_launch.places import why_barred
from aprof_launch.words import Words

RECORDING = re.compile(rb"(?:[0-9]{1,7} [0-9]+\n)*(?:[0-9]{1,7}(?: [0-9]*)?)?\Z")


def problem(path: str) -> str:
    """Why the path can't be written, or nothing."""
    why = why_barred(path, os.W_OK)
    return why if why is not None else problem_of_new(path)


def problem_of_new(path: str) -> str:
    """The same for a path where there is nothing yet."""
    if not path:
        return "the path is empty"
    if path.endswith("/"):
        return "no such folder"
    folder = os.path.dirname(os.path.realpath(path))
    if not os.path.isdir(folder):
        return "no such folder"
    if f"{folder}/".startswith(("/proc/", "/sys/")):
        return "it can't be created there"
    return "" if os.access(folder, os.W_OK | os.X_OK) else "no right to write into its folder"


def is_same(one: str, other: str) -> bool:
    """Whether both are one plain file, or one path where there is none yet."""
    if not os.path.exists(one) and not os.path.exists(other):
        return os.path.realpath(one) == os.path.realpath(other)
    return os.path.isfile(one) and os.path.exists(other) and os.path.samefile(one, other)


def role(read: Words, path: str) -> str:
    """What the command reads the path as."""
    if is_same(path, read.positionals[0]):
        return "the trace itself" if read.command and read.command.name == "replay" else "the program itself"
    for name, what in (("--stdin", "the standard input itself"), ("--schedule", "the schedule itself")):
        if name in read.values and is_same(path, read.values[name]):
            return what
    return "one of the input files"


def refusals(read: Words) -> Iterable[str]:
    """Why what the words name can't be written, or nothing."""
    outputs = read.outputs()
    if len(outputs) == 2 and is_same(*outputs):
        yield f"aprof: cannot write {outputs[0]}: --record and -o name the same file"
        return
    for path in outputs:
        why = problem(path)
        if not why and is_stdout(path):
            why = "it is standard output, a file, where what the program prints goes"
        if not why and any(is_same(path, other) for other in read.inputs()):
            why = f"it is {role(read, path)}"
        if not why and is_of_others(path, path == read.values.get("-o")):
            why = f"it is no {what_is_stored(read, path)}, and is not overwritten{took_image(read, path)}"
        if why:
            yield f"aprof: cannot write {path}: {why}"
            return


def what_is_stored(read: Words, path: str) -> str:
    if path != read.values.get("-o"):
        return "recording"
    return "trace" if read.command and read.command.name == "trace" else "report"


def took_image(read: Words, path: str) -> str:
    """What is said where `-o` took an executable, so that the word behind it was taken for the image."""
    return f"; -o takes the path of the report: write -o PATH {path}" if path == read.values.get("-o") and is_elf(path) else ""


def is_of_others(path: str, is_output: bool) -> bool:
    """Whether there is a plain file with something in it that no run stored, as far as it can be read."""
    try:
        return os.path.isfile(path) and os.path.getsize(path) > 0 and not is_of_run(path, is_output)
    except OSError:
        return False


def is_stdout(path: str) -> bool:
    """Whether standard output is a plain file, and this one."""
    try:
        own = os.fstat(1)
        return stat.S_ISREG(own.st_mode) and os.path.samestat(own, os.stat(path))
    except OSError:
        return False


def notes(read: Words) -> list[str]:
    """What is told before a run that is not refused."""
    if os.environ.get("APROF_HINTS") == "0":
        return []
    is_dash = read.values.get("-o") == "-"
    told = ["aprof: `-o -` is a file of that name; /dev/stdout is standard output"] if is_dash else []
    takes_input = read.command is not None and read.command.option("--stdin") is not None
    return told + (unread_input() if takes_input and "--stdin" not in read.values else [])


def unread_input() -> list[str]:
    """What is told where standard input, which the program is not told to read, is a file or a pipe with something left in it."""
    try:
        own = os.fstat(0)
        if stat.S_ISREG(own.st_mode) and own.st_size > os.lseek(0, 0, os.SEEK_CUR):
            return ["aprof: the program does not read `< FILE`; --stdin FILE gives it the file"]
        if stat.S_ISFIFO(own.st_mode) and any(fcntl.ioctl(0, termios.FIONREAD, bytes(4))):
            return ["aprof: the program does not read the pipe; --stdin /dev/stdin gives it what comes (`< /dev/null`: nothing)"]
    except OSError:
        pass
    return []


def has_trace_end(data: bytes) -> bool:
    """Whether the last record is that of a trace's end: 10, a number for each kind of end, and what that end has."""
    heads = {b"\n\0": 4, b"\n\1": 12, b"\n\2": 0, b"\n\3": 0, b"\n\4": 0, b"\n\5": 8}
    return any(data[len(data) - 2 - size :][:2] == head for head, size in heads.items())


def is_begun_trace(path: str) -> bool:
    """Whether a file begins as a trace, as far as it goes."""
    head, data = b"aprof trace 1\n", b""
    if os.path.isfile(path):
        with open(path, "rb") as file:
            data = file.read(len(head))
    return os.path.isfile(path) and head.startswith(data)


def is_whole(path: str) -> bool:
    """Whether what the program stored by `-o` has its end."""
    data = Path(path).read_bytes()
    if data.startswith(b"aprof trace 1\n"):
        return has_trace_end(data)
    return re.search(rb"\ndone [0-9]+\n\Z", data) is not None


def is_whole_report(path: str) -> bool:
    """Whether a file is a report of any version, or one of cache misses, and has its end."""
    if not os.path.isfile(path) or not is_whole(path):
        return False
    return re.match(rb"aprof (?:[12]|cache 1)\n", Path(path).read_bytes()) is not None


def remove_halves(read: Words, began: float) -> list[str]:
    """Removes what a run that a signal ended wrote in part. `began` is the time at which it began."""
    removed = []
    for path in read.paths(Use.WRITTEN):
        try:
            if not is_after(path, began) or not is_of_run(path, path == read.values.get("-o")):
                continue
            if path != read.values.get("-o") and is_after(read.values.get("-o", ""), began):
                continue
            if path != read.values.get("-o") or not is_whole(path):
                os.remove(path)
                removed.append(path)
        except OSError:
            continue
    return removed


def unfinished(read: Words, began: float) -> str:
    """What is said where a signal ended the run before its output was stored, or nothing."""
    path = read.values.get("-o", "")
    if not path or read.command is None or (is_after(path, began) and is_whole(path)):
        return ""
    what = "trace" if read.command.name == "trace" else "report"
    budget = f"; with --budget N a run ends after N instructions, and its {what} is stored"
    return f"no {what} is stored" + (budget if read.command.option("--budget") else "")


def is_after(path: str, began: float) -> bool:
    """Whether the file was written since. A file's time may lie behind the clock's, never before it."""
    return os.path.isfile(path) and os.stat(path).st_mtime > began


def is_of_run(path: str, is_output: bool) -> bool:
    """Whether the file begins as what a run stores: anything else is another's."""
    with open(path, "rb") as file:
        head = file.read(4096)
    if not is_output:
        return RECORDING.match(head) is not None
    return head.startswith(b"aprof ") or b"aprof ".startswith(head)
