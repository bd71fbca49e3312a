"""The cache of bundles: what `biqsolur.run` wrote, found again by study, series file, program and version.

It lies in `$XDG_CACHE_HOME/biqsolur/runs` (`~/.cache/biqsolur/runs` where that is not set). An entry is a bundle with
the record of its run beside it. Together they have at most `BIQSOLUR_CACHE_BYTES` bytes (2,000,000,000 where nothing is
said; 0 turns the cache off): what was longest not used goes first. A file that is in use stays readable when it goes,
since it is mapped.
"""

from __future__ import annotations

import contextlib
import fcntl
import hashlib
import os
import secrets
import tempfile
import time
import warnings
import weakref
from collections.abc import Iterator
from dataclasses import dataclass
from pathlib import Path

from biqsolur.bundle import Bundle, read
from biqsolur.errors import BundleError, CacheError
from biqsolur.provenance import ENDING as RECORD_ENDING
from biqsolur.provenance import Provenance, record_fault, record_path
from biqsolur.wording import counted

LIMIT_NAME = "BIQSOLUR_CACHE_BYTES"
LIMIT = 2_000_000_000       # bytes
ENDING = ".bundle"
PART = ".part"
warned = False              # whether this process said already that the cache can't be written


class CacheWarning(UserWarning):
    """The cache can't be written; runs go on without it."""


def now() -> int:
    """The time at which an entry is used, in nanoseconds: those of the least go first."""
    return time.time_ns()


def cache_limit() -> int:
    """How many bytes the cache may have. Raises CacheError where BIQSOLUR_CACHE_BYTES is no number."""
    text = os.environ.get(LIMIT_NAME, "").strip()
    if not text:
        return LIMIT
    if not text.isascii() or not text.isdigit():
        raise CacheError(f"{LIMIT_NAME} is {text!r}: give a whole number of bytes, 0 for no cache")
    return int(text)


def cache_folder() -> Path | None:
    """Where the cache lies, or None where neither XDG_CACHE_HOME nor a home is known."""
    base = os.environ.get("XDG_CACHE_HOME", "")
    if os.path.isabs(base):
        return Path(base) / "biqsolur" / "runs"
    home = os.path.expanduser("~")
    return Path(home) / ".cache" / "biqsolur" / "runs" if os.path.isabs(home) else None


def key_of(*parts: bytes) -> str:
    """The key of an entry: a sum over these parts, each with its length before it."""
    sum_ = hashlib.sha256()
    for part in parts:
        sum_.update(len(part).to_bytes(8, "big"))
        sum_.update(part)
    return sum_.hexdigest()


def entry_path(folder: Path, key: str) -> Path:
    """Where the bundle of an entry lies; the record of its run lies beside it."""
    return folder / f"{key}{ENDING}"


def kept_bundle(folder: Path, key: str) -> Bundle | None:
    """The bundle of a key, or None. A damaged entry is taken away."""
    path = entry_path(folder, key)
    if not path.exists():
        remove_entry(path)
        return None
    try:
        bundle = read(path)
        fault = record_fault(bundle)
    except (BundleError, OSError) as error:
        fault = str(error)
    if fault is not None:
        remove_entry(path)
        return None
    with contextlib.suppress(OSError):
        os.utime(path, ns=(now(), now()))
    return bundle


def remove_entry(path: Path) -> None:
    """Takes an entry away, its record first: without one it is no entry."""
    for gone in (record_path(path), path):
        with contextlib.suppress(OSError):
            gone.unlink()


# ---------------------------------------------------------------- a new entry

@dataclass
class Part:
    """A file that one run writes, and its descriptor. kept: whether it is to stay when the run is over."""

    path: Path
    descriptor: int
    kept: bool = False


@contextlib.contextmanager
def part_file(folder: Path) -> Iterator[Part]:
    """A new file that only this run writes: renamed once it is whole, or kept under its name, else nothing of it stays.

    It is locked as long as this process or the program that writes it is there, so that `remove_stale` knows which
    files nobody uses any more. Raises OSError.
    """
    part = new_part(folder)
    try:
        yield part
    finally:
        finish(part)


def new_part(folder: Path) -> Part:
    """A new file, locked."""
    while True:
        path = folder / f"biqsolur-{secrets.token_hex(16)}{PART}"
        descriptor = os.open(path, os.O_RDWR | os.O_CREAT | os.O_EXCL | os.O_CLOEXEC, 0o600)
        if lock(descriptor) and path.exists():
            return Part(path, descriptor)
        os.close(descriptor)    # another process took it for one that nobody uses, before it was locked


def lock(descriptor: int) -> bool:
    """Locks a file where nobody else has it locked; whether that went well. A file system without locks has none."""
    try:
        fcntl.flock(descriptor, fcntl.LOCK_EX | fcntl.LOCK_NB)
    except BlockingIOError:
        return False
    except OSError:
        pass
    return True


@contextlib.contextmanager
def part_for(limit: int) -> Iterator[tuple[Part, Path | None]]:
    """A new file in the cache, and the cache's folder; or in a folder for temporary files, and None: where the cache may
    have no bytes, or can't be written, which is said once in a process."""
    folder = cache_folder() if limit else None
    try:
        if folder is not None:
            folder.mkdir(mode=0o700, parents=True, exist_ok=True)
            part = new_part(folder)
        elif limit:
            raise OSError("no home is known")
    except OSError as error:
        folder = None
        warn(error, 5)      # here, part_for, the context's __enter__, run, its caller
    with contextlib.ExitStack() as stack:
        if folder is None:
            part = temporary_part()
        stack.callback(finish, part)
        yield part, folder


def finish(part: Part) -> None:
    """Takes a file away, unless it was kept."""
    if not part.kept:
        os.close(part.descriptor)
        part.path.unlink(missing_ok=True)


def warn(error: OSError, level: int) -> None:
    """Says, once in a process, that the cache can't be written; `level` leads to who called `run`."""
    global warned
    if not warned:
        warned = True
        warnings.warn(f"bundles are not kept in the cache: {error}. Set XDG_CACHE_HOME to a folder that may be "
                      f"written, or {LIMIT_NAME}=0 for no cache", CacheWarning, stacklevel=level)


def temporary_part() -> Part:
    """A new file for a run that isn't kept. Raises CacheError where there is no place for it."""
    try:
        folder = Path(tempfile.gettempdir())
        remove_stale(folder)
        return new_part(folder)
    except OSError as error:
        raise CacheError(f"there is no folder for the program's output: {error}; set TMPDIR to one that may be "
                         "written") from None


def keep(folder: Path | None, key: str, part: Part, bundle: Bundle, record: Provenance, limit: int) -> None:
    """Makes an entry of a written file, whose bundle was read already, and keeps the cache within its limit; without a
    folder, or where that fails, the file is the bundle's alone. Two that make one entry write the same bytes."""
    try:
        if folder is None:
            keep_for_now(part, bundle, record)
            return
        make_entry(folder, key, part, bundle, record)
        shrink(folder, limit)
    except OSError as error:
        warn(error, 4)      # here, keep, run, its caller
        if part.path.exists():
            keep_for_now(part, bundle, record)


def make_entry(folder: Path, key: str, part: Part, bundle: Bundle, record: Provenance) -> None:
    """Makes an entry of a written file: its record first, as a bundle without one is no entry."""
    path = entry_path(folder, key)
    with part_file(folder) as beside:
        with open(beside.descriptor, "wb", closefd=False) as file:
            file.write(record.to_json().encode())
        os.replace(beside.path, record_path(path))
    os.utime(part.path, ns=(now(), now()))
    os.replace(part.path, path)
    bundle.path = bundle.frames.path = str(path)
    bundle.ran_as(record)


def keep_for_now(part: Part, bundle: Bundle, record: Provenance) -> None:
    """Leaves a written file to its bundle: it is removed with it, at the latest when this process ends."""
    part.kept = True
    weakref.finalize(bundle, remove_own, part, os.getpid())
    bundle.ran_as(record)


def remove_own(part: Part, process: int) -> None:
    """Removes a file, in the process that made it alone and not in one that was forked off."""
    with contextlib.suppress(OSError):
        os.close(part.descriptor)
        if os.getpid() == process:
            part.path.unlink()


# ---------------------------------------------------------------- its size

def entries(folder: Path) -> list[tuple[int, int, Path]]:
    """(when it was last used, bytes with its record, path of the bundle) of each entry, the longest unused first."""
    found = []
    for path in sorted(folder.glob(f"*{ENDING}")) if folder.is_dir() else []:
        with contextlib.suppress(FileNotFoundError):
            state = path.stat()
            beside = record_path(path)
            found.append((state.st_mtime_ns, state.st_size + (beside.stat().st_size if beside.exists() else 0), path))
    return sorted(found)


def shrink(folder: Path, limit: int) -> None:
    """Takes entries away, the longest unused first, until all together have at most `limit` bytes."""
    remove_stale(folder)
    found = entries(folder)
    total = sum(size for _, size, _ in found)
    for _, size, path in found:
        if total <= limit:
            return
        remove_entry(path)
        total -= size


def remove_stale(folder: Path) -> None:
    """Takes away what killed runs left behind in a folder: files that nobody has locked."""
    for path in folder.glob(f"biqsolur-*{PART}"):
        with contextlib.suppress(OSError):
            descriptor = os.open(path, os.O_RDWR | os.O_CLOEXEC)
            try:
                if lock(descriptor):
                    path.unlink(missing_ok=True)
            finally:
                os.close(descriptor)


def clear(folder: Path) -> tuple[int, int]:
    """Takes all entries away, and what killed runs left; gives the number of entries and their bytes."""
    found = entries(folder)
    for _, _, path in found:
        remove_entry(path)
    remove_stale(folder)
    for path in folder.glob(f"*{RECORD_ENDING}"):       # of a run that was killed before its bundle had its name
        with contextlib.suppress(OSError):
            path.unlink()
    return len(found), sum(size for _, size, _ in found)


# ---------------------------------------------------------------- the command

def main(action: str) -> int:
    """The command `cache show` or `cache clear`."""
    folder = cache_folder()
    if folder is None:
        raise CacheError("there is no folder for a cache: neither XDG_CACHE_HOME nor HOME is set to an absolute path")
    if action == "clear":
        number, size = clear(folder)
        print(f"{folder}: {counted(number, 'bundle')}, {size:,} bytes removed")
        return 0
    found = entries(folder)
    size = sum(size for _, size, _ in found)
    print(f"{folder}: {counted(len(found), 'bundle')}, {size:,} bytes of at most {cache_limit():,}")
    return 0
