"""Why a file can't be read or written, as far as the system tells: the program's line says only that it failed."""

from __future__ import annotations

import difflib
import errno
import os
import pwd
import resource
import stat
from pathlib import Path

MOST_BYTES = 16_777_216             # of a study, a series file, a file of orders, a script
MOST_BUNDLE_BYTES = 1_073_741_824
NOT_REGULAR = {
    stat.S_IFIFO: "a named pipe: reading it waits until somebody writes into it",
    stat.S_IFSOCK: "a socket, which can't be opened as a file",
    stat.S_IFBLK: "a block device", stat.S_IFCHR: "a device",
}


def read_fault(path: str, most: int | None = None) -> str | None:
    """Why a file can't be read, or None where nothing stands in the way now. `most` is how many bytes it may have."""
    fault = path_fault(path)
    if fault is not None:
        return fault
    try:
        found = os.stat(path)
    except OSError as error:
        return system_words(path, error)
    if stat.S_ISDIR(found.st_mode):
        return f"{path} is a folder, and is to be a file"
    if not os.access(path, os.R_OK, effective_ids=True):
        return f"no leave to read {path}: {leave_of(path)}"
    kind = NOT_REGULAR.get(stat.S_IFMT(found.st_mode))
    if kind is not None:
        return f"{path} is {kind}"
    if most is not None and found.st_size > most:
        return f"{path} has {found.st_size:,} bytes, and may have {most:,}"
    try:
        with open(path, "rb") as file:
            file.read(1)
    except OSError as error:
        return system_words(path, error)
    return None


def path_fault(path: str) -> str | None:
    """Why the way to a file can't be gone: a name that is too long, a folder that isn't there, no leave, a loop of
    links."""
    if path == "":
        return "the name is empty"
    parts = Path(path).parts
    for count in range(1, len(parts) + 1):
        here = Path(*parts[:count])
        try:
            found = os.stat(here)
        except OSError as error:
            return missing_words(here, error)
        if count < len(parts) and not stat.S_ISDIR(found.st_mode):
            return f"{here} is no folder, so there is no {path}"
        if count < len(parts) and not os.access(here, os.X_OK, effective_ids=True):
            return f"no leave to go into the folder {here}: {leave_of(here)}"
    return None


def missing_words(path: Path, error: OSError) -> str:
    """What the system says of the first part of a path that isn't found."""
    if error.errno == errno.ENOENT and path.is_symlink():
        return f"{path} is a link to {os.readlink(path)}, which isn't there"
    if error.errno == errno.ENOENT:
        return f"there is no {path}" + near_name(path)
    return system_words(str(path), error)


def system_words(path: str, error: OSError) -> str:
    """What the system says."""
    words = {errno.ELOOP: "its links lead in a circle", errno.ENAMETOOLONG: f"the name is too long: {len(path)} "
                                                                            "characters",
             errno.EIO: "the disk can't be read there (input/output error)"}
    return f"{path[:200]}: {words.get(error.errno or 0, error.strerror or str(error))}"


def near_name(path: Path) -> str:
    """A question for a file beside it of nearly the same name, or nothing."""
    try:
        names = os.listdir(path.parent)
    except OSError:
        return ""
    near = difflib.get_close_matches(path.name, names, 1, 0.6)
    return f"; did you mean {path.parent / near[0]}?" if near else ""


def leave_of(path: str | Path) -> str:
    """Who may do what with a file, and who asks."""
    found = os.stat(path)
    return f"it is {stat.filemode(found.st_mode)} of {user_name(found.st_uid)}, and this is {user_name(os.geteuid())}"


def user_name(number: int) -> str:
    """The name of a user, or the number where none has it."""
    try:
        return f"user {pwd.getpwuid(number).pw_name}"
    except KeyError:
        return f"user number {number}"


# ---------------------------------------------------------------- writing

NOTHING_NOW = ("nothing stands in the way now. What failed then isn't to be seen any more: a pipe whose reader ended "
               "before (`| head`), a disk that was full, a quota")
PIPE = ("standard output took no more: where it was a pipe, its reader ended before (`| head` does); send the output "
        "to a file. Where it was a file, name it: why --write FILE")


def write_fault(path: str | None) -> str:
    """Why writing to a path failed, as far as the system tells now; None and "-" are a pipe."""
    if path in (None, "-"):
        return PIPE
    assert path is not None
    folder = os.path.dirname(path) or "."
    fault = folder_fault(path, folder) or target_fault(path)
    if fault is not None:
        return fault
    if not os.path.exists(path) and not os.access(folder, os.W_OK | os.X_OK, effective_ids=True):
        return f"no leave to write in the folder {folder}: {leave_of(folder)}"
    return room_fault(path, folder) or f"{path}: {NOTHING_NOW}"


def folder_fault(path: str, folder: str) -> str | None:
    """Why there is no writing into a folder whatever the file, or None."""
    fault = path_fault(folder)
    if fault is None and not os.path.isdir(folder):
        return f"{folder} is no folder, so {os.path.basename(path)} can't be written there"
    return fault


def target_fault(path: str) -> str | None:
    """Why what has the name already can't be written to, or None."""
    if not os.path.lexists(path):
        return None
    try:
        mode = os.stat(path).st_mode
    except OSError as error:
        return missing_words(Path(path), error)
    if stat.S_ISDIR(mode):
        return f"{path} is a folder, and is to be a file"
    if not os.access(path, os.W_OK, effective_ids=True):
        return f"no leave to write {path}: {leave_of(path)}"
    if stat.S_ISFIFO(mode):
        return f"{path} is a named pipe: its reader ended before"
    if os.path.realpath(path) == "/dev/full":
        return f"{path} is the device that is always full"
    return None


def room_fault(path: str, folder: str) -> str | None:
    """That a file system is full or can't be written to, or that a file is as long as it may get; or None."""
    system = os.statvfs(path if os.path.exists(path) else folder)
    if system.f_flag & os.ST_RDONLY:
        return f"the file system of {path} can only be read"
    if system.f_blocks and not system.f_bavail:
        size = system.f_blocks * system.f_frsize
        return f"the disk is full: the file system of {path} has no room left of {size:,} bytes"
    if system.f_files and not system.f_favail:
        return f"the file system of {path} can take no more files ({system.f_files:,} are there)"
    most = resource.getrlimit(resource.RLIMIT_FSIZE)[0]
    if most != resource.RLIM_INFINITY and os.path.exists(path) and os.path.getsize(path) >= most:
        return f"{path} has {os.path.getsize(path):,} bytes, and a file may have {most:,} here (ulimit -f)"
    return None
