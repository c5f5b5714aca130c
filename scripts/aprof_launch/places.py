"""Why a file can't be read, a disk be written, or a stream be read by no one."""
from __future__ import annotations

import errno
import os
import select
import stat


RIGHTS = {os.R_OK: "read", os.W_OK: "write"}


def why_barred(path: str, right: int) -> str | None:
    """Why what is there can't be used with this right, or nothing; None where there is nothing."""
    try:
        mode = os.stat(path).st_mode
    except FileNotFoundError:
        return None
    except NotADirectoryError:
        return "no such folder"
    except OSError as error:
        return (error.strerror or "").lower()
    if stat.S_ISDIR(mode):
        return "it is a folder"
    return "" if os.access(path, right) else f"no right to {RIGHTS[right]} it"


def why_unread(path: str) -> str:
    """Why the file can't be read, or nothing."""
    why = why_barred(path, os.R_OK)
    return "no such file" if why is None else why


def is_full(path: str) -> bool:
    """Whether the disk of a file has no room."""
    try:
        system = os.statvfs(os.path.dirname(os.path.realpath(path)))
        return system.f_blocks > 0 and system.f_bavail == 0
    except OSError:
        return False


def takes_nothing(place: str | int) -> bool:
    """Whether a path or a descriptor is /dev/full, or the descriptor a file of a full disk."""
    try:
        found = os.stat(place)
        if stat.S_ISCHR(found.st_mode):
            return found.st_rdev == os.makedev(1, 7)
        return isinstance(place, int) and stat.S_ISREG(found.st_mode) and os.statvfs(place).f_bavail == 0
    except OSError:
        return False


def why_device(path: str) -> str:
    """Why what is no plain file may have refused a write, or nothing where the path is a plain file or none. It is opened, and
    not written."""
    try:
        mode = os.stat(path).st_mode
        if stat.S_ISREG(mode) or stat.S_ISDIR(mode):
            return ""
        os.close(os.open(path, os.O_WRONLY | os.O_NONBLOCK | os.O_NOCTTY))
    except FileNotFoundError:
        return ""
    except OSError as error:
        is_unread = error.errno == errno.ENXIO and stat.S_ISFIFO(mode)
        return "a pipe that nobody reads" if is_unread else (error.strerror or "").lower()
    return "it is no plain file, and refused what was written"


def has_reader(descriptor: int) -> bool:
    """Whether what is written there may still be read."""
    poll = select.poll()
    poll.register(descriptor, 0)
    return not any(event & select.POLLERR for _, event in poll.poll(0))
