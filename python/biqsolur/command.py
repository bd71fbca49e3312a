"""The command `abides` of an installed package: it becomes the program, with the allocator's words as ./abides has them."""

from __future__ import annotations

import os
import sys
from pathlib import Path

HELP = ("--help", "-h", "help")
HERE = Path(__file__).resolve().parent


def main() -> int:
    """Helps, tells the version, or becomes the program with the words of the command line."""
    words = sys.argv[1:]
    if not words or words[0] in HELP:
        print((HERE / "help.txt").read_text(), end="")
        return 0
    if words[0] == "--version":
        print(f"abides {(HERE / 'VERSION').read_text().strip()}")
        print(f"kit: {(HERE / 'bin' / 'KIT').read_text().strip()}")
        return 0
    if words[0] in ("explore", "why"):
        from biqsolur.__main__ import main as package_main

        return package_main(words)
    return become_program(words)


def become_program(words: list[str]) -> int:
    """Becomes the program; returns only where there is none, or where its path is all that is asked."""
    from biqsolur.errors import InputError
    from biqsolur.program import TUNABLES, find_program

    try:
        program = str(find_program())
    except InputError as error:
        print(f"abides: {error}", file=sys.stderr)
        return 1
    if words == ["--program"]:
        print(program)
        return 0
    os.environ.setdefault("GLIBC_TUNABLES", TUNABLES)
    os.execv(program, [program, *words])
