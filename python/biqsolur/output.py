"""Files and folders that are written: never over what is there already."""

from __future__ import annotations

import contextlib
import os
import re
import secrets
from collections.abc import Iterator
from pathlib import Path
from typing import BinaryIO

from biqsolur.errors import OutputExistsError, OutputFolderError

PLAIN_NAME = re.compile(r"[A-Za-z0-9_-][A-Za-z0-9._-]*")


def new_folder(path: str | Path) -> Path:
    """Makes a folder that is not there yet."""
    folder = Path(path)
    try:
        folder.mkdir()
    except FileExistsError:
        raise OutputExistsError(f"{folder} is there already; nothing was written") from None
    return folder


def refuse_existing(path: str | Path) -> None:
    """Raises OutputExistsError where something has this name already, be it a link that leads nowhere."""
    if os.path.lexists(path):
        raise OutputExistsError(f"{path} is there already; nothing was written")


@contextlib.contextmanager
def new_file(path: str | Path) -> Iterator[BinaryIO]:
    """Opens a file that is not there yet. It stands under its name once all is written: the bytes are written to a file
    beside it, of which nothing stays where writing fails or is interrupted. Raises OutputExistsError and
    OutputFolderError."""
    path = Path(path)
    refuse_existing(path)
    beside = path.with_name(f".{path.name[:100]}.{secrets.token_hex(8)}.part")
    try:
        with opened(beside, path) as file:
            yield file
        put_in_place(beside, path)
    finally:
        with contextlib.suppress(NotADirectoryError):
            beside.unlink(missing_ok=True)


def opened(beside: Path, path: Path) -> BinaryIO:
    """The file beside a path. Raises OutputFolderError, in words about that path, where it can't be there."""
    try:
        return open(beside, "xb")
    except OSError as error:
        from biqsolur.file_faults import write_fault
        raise OutputFolderError(f"{path} can't be written: {write_fault(str(path)) or error.strerror}") from None


def put_in_place(beside: Path, path: Path) -> None:
    """Gives a written file its name, unless that name was given to another one in the meantime."""
    try:
        os.link(beside, path)
    except FileExistsError:
        raise OutputExistsError(f"{path} is there already; nothing was written") from None
    except OSError:                         # a file system without hard links
        os.rename(beside, path)


def plain_name(name: str, number: int, kind: str) -> str:
    """A name as part of a path: itself where it has plain characters alone, else the kind and the number, with a `+`
    between them, which no plain name has."""
    return name if PLAIN_NAME.fullmatch(name) else f"{kind}+{number}"


def write_new(path: str | Path, data: bytes) -> None:
    """Writes a file that is not there yet, whole or not at all. Raises OutputExistsError."""
    with new_file(path) as file:
        file.write(data)
