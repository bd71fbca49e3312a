"""Which program the package runs, and what it is: its path, its sum, the kit that proved it, this package's version."""

from __future__ import annotations

import functools
import hashlib
import os
import subprocess
from dataclasses import dataclass
from pathlib import Path

from biqsolur.statuses import OtherProgramError, ProgramMissingError

PACKAGE = Path(__file__).resolve().parent
CHECKOUT = PACKAGE.parent.parent
NAMED_BY = "BIQSOLUR_PROGRAM"
WHEEL_PROGRAM = PACKAGE / "bin" / "abides"
USAGE = "usage: abides COMMAND STUDY [MORE...] [--workers N] [--places N]"

# How the C library gets memory for the program, as `./abides` says it: in huge pages and large pieces, which makes long
# runs faster. What the caller says in GLIBC_TUNABLES stands.
TUNABLES = "glibc.malloc.hugetlb=1:glibc.malloc.mmap_threshold=131072:glibc.malloc.top_pad=1048576"


@dataclass(frozen=True)
class Program:
    """A program that can be run.

    path: absolute. found: "named" (by BIQSOLUR_PROGRAM or by the caller, so that nothing ties it to these sources),
    "checkout" (what `./abides` would run, which is of these very sources) or "wheel" (installed with the package).
    """

    path: Path
    found: str

    @property
    def sum(self) -> str:
        """SHA-256 of the program's file, 64 hexadecimal digits."""
        state = os.stat(self.path)
        return sum_of_file(str(self.path), state.st_mtime_ns, state.st_size, state.st_ino)


def find_program() -> Path:
    """The path of the program: the one that BIQSOLUR_PROGRAM names, else the one that `./abides` of the checkout would
    run, else the one that came with the installed package. Raises ProgramMissingError or OtherProgramError."""
    return program_of(None).path


def program_of(given: str | os.PathLike[str] | None) -> Program:
    """The program that a caller gave, or where None was given the one of `find_program`."""
    if given is not None:
        return Program(real_program(Path(given), "the program that was given"), "named")
    named = os.environ.get(NAMED_BY)
    if named:
        path = real_program(Path(named), NAMED_BY)
        state = os.stat(path)
        check_version(str(path), state.st_mtime_ns, state.st_size, state.st_ino)
        return Program(path, "named")
    return own_program()


def real_program(path: Path, who: str) -> Path:
    """The absolute path of a program, of a checkout's script `abides` that of the program behind it."""
    path = path.absolute()
    if not path.is_file() or not os.access(path, os.X_OK):
        raise ProgramMissingError(f"{who} names no program that can be started: {path}")
    script = path.resolve()
    if script.name == "abides" and (script.parent / "release" / "common.sh").is_file():
        return program_of_checkout(script.parent, os.environ.get(NAMED_BY))
    return path


@functools.lru_cache(maxsize=64)
def check_version(path: str, *state: int) -> None:
    """Asks a named program, with no words, for the line that this version has. `state` is when it was changed, and the
    like."""
    try:
        answer = subprocess.run([path], stdin=subprocess.DEVNULL, stdout=subprocess.DEVNULL, stderr=subprocess.PIPE)
    except OSError as error:
        raise ProgramMissingError(f"{path} can't be started: {error.strerror}") from None
    said = answer.stderr.decode(errors="replace").strip()
    if (answer.returncode, said) != (2, USAGE):
        raise OtherProgramError(
            f"{path}, which {NAMED_BY} names, is no program of this version: with no words it ended with status "
            f"{answer.returncode} and said {said[:200]!r}, where this package (version {version()}) knows status 2 and "
            f"{USAGE!r}; unset {NAMED_BY}, or name a program built from the package's own sources")


@functools.lru_cache(maxsize=1)
def own_program() -> Program:
    """The program of the checkout, else the installed one; it is looked for once in a process."""
    if (CHECKOUT / "abides").is_file() and (CHECKOUT / "release" / "common.sh").is_file():
        return Program(program_of_checkout(CHECKOUT, None), "checkout")
    if WHEEL_PROGRAM.is_file() and os.access(WHEEL_PROGRAM, os.X_OK):
        return Program(WHEEL_PROGRAM, "wheel")
    raise ProgramMissingError(f"this installation has no program: there is no {WHEEL_PROGRAM}. Install the package from "
                              f"a checkout of the repository (pip install ./python), or name a program in {NAMED_BY}")


@functools.lru_cache(maxsize=64)
def program_of_checkout(folder: Path, named: str | None) -> Path:
    """What `./abides` of a checkout would run. `named` is what BIQSOLUR_PROGRAM says, which the script heeds."""
    unnamed = {name: value for name, value in os.environ.items() if name != NAMED_BY}
    try:
        answer = subprocess.run([folder / "abides", "--program"], stdin=subprocess.DEVNULL, capture_output=True,
                                env=unnamed)
    except OSError as error:
        raise ProgramMissingError(f"{folder / 'abides'} can't be started: {error.strerror}") from None
    path = Path(os.fsdecode(answer.stdout.removesuffix(b"\n")))
    if answer.returncode or not path.is_file():
        said = answer.stderr.decode(errors="replace").strip() or f"it ended with status {answer.returncode}"
        raise ProgramMissingError(f"{folder / 'abides'} has no program: {said.removeprefix('abides: ')}")
    return path


@functools.lru_cache(maxsize=64)
def sum_of_file(path: str, *state: int) -> str:
    """SHA-256 of a file; `state` tells whether it was changed since it was last asked for."""
    with open(path, "rb") as file:
        return hashlib.file_digest(file, "sha256").hexdigest()


@functools.lru_cache(maxsize=1)
def version() -> str:
    """The package's version."""
    return (PACKAGE / "VERSION").read_text().strip()


@functools.lru_cache(maxsize=1)
def kit() -> str | None:
    """The line of the kit by which the released program was proved and built, or None where this installation has
    none."""
    for path in (CHECKOUT / "release" / "KIT", PACKAGE / "bin" / "KIT"):
        if path.is_file():
            return path.read_text().strip()
    return None


def environment() -> dict[str, str]:
    """The environment in which the program runs."""
    return {"GLIBC_TUNABLES": TUNABLES, **os.environ}
