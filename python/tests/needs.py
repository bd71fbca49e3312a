"""What the tests need that isn't here: Python's packages, by python/pyproject.toml, and a few programs.

    python3 python/tests/needs.py [--browser] pip|debian|tools|debian-tools

prints what is missing for the Python that runs it, a name a line, and nothing where all is there: packages as pip takes
them or as Debian calls them, and the programs by their names or as Debian calls them. It needs Python 3.11 alone.
"""

from __future__ import annotations

import importlib.metadata
import re
import shutil
import sys
from pathlib import Path

PROJECT = Path(__file__).resolve().parent.parent / "pyproject.toml"
REQUIREMENT = re.compile(r"([A-Za-z0-9._-]+)(?:\[[^]]*\])?\s*(.*)")
# Debian's names where they aren't `python3-` and the name of the package.
DEBIAN = {"snakemake": "snakemake", "pyyaml": "python3-yaml"}
# The programs that tests run, with Debian's packages. pip has none of them.
TOOLS = {"tshark": "tshark", "shellcheck": "shellcheck", "xz": "xz-utils"}
BROWSER_TOOLS = {"chromium": "chromium", "chromedriver": "chromium-driver"}
BROWSER_EXTRA = "browser"


def requirements(browser: bool) -> list[str]:
    """All that pyproject.toml asks for: the package's own needs, and those of its extras."""
    import tomllib

    project = tomllib.loads(PROJECT.read_text())["project"]
    extras = project.get("optional-dependencies", {})
    wanted = [line for name, lines in extras.items() if browser or name != BROWSER_EXTRA for line in lines]
    return list(dict.fromkeys([*project["dependencies"], *wanted]))


def parts(requirement: str) -> tuple[str, str]:
    """The name of a requirement, and its least version, empty where it has none."""
    match = REQUIREMENT.fullmatch(requirement)
    if match is None:
        raise ValueError(f"pyproject.toml has a requirement of another form: {requirement}")
    least = re.search(r">=\s*([0-9.]+)", match[2])
    return match[1], least[1] if least else ""


def numbers(version: str) -> list[int]:
    """The numbers of a version, to be compared."""
    return [int(part) for part in re.findall(r"\d+", version)[:3]]


def is_there(requirement: str) -> bool:
    """Whether this Python has the package, in that version or a later one."""
    name, least = parts(requirement)
    try:
        return numbers(importlib.metadata.version(name)) >= numbers(least)
    except importlib.metadata.PackageNotFoundError:
        return False


def missing(kind: str, browser: bool) -> list[str]:
    """The names of what isn't there: of a kind that is `pip`, `debian`, `tools` or `debian-tools`."""
    tools = {**TOOLS, **(BROWSER_TOOLS if browser else {})}
    absent = {tool: package for tool, package in tools.items() if shutil.which(tool) is None}
    wanted = [requirement for requirement in requirements(browser) if not is_there(requirement)]
    names = [parts(requirement)[0].lower() for requirement in wanted]
    return {
        "pip": wanted,
        "debian": [DEBIAN.get(name, f"python3-{name}") for name in names],
        "tools": list(absent),
        "debian-tools": list(absent.values()),
    }[kind]


if __name__ == "__main__":
    print("\n".join(missing(sys.argv[-1], "--browser" in sys.argv)))
