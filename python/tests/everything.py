"""What `./test` does: sees to the program, to Python's packages and to tools, and then runs all tests by tally.py.

It needs nothing but Python 3.11 itself. Where packages are missing, pip installs what pyproject.toml asks for into a
virtual environment in the user's cache; where pip reaches nothing, root gets them from Debian by apt-get. Each is said
before.
"""

from __future__ import annotations

import argparse
import os
import shutil
import subprocess
import sys
from pathlib import Path

TESTS = Path(__file__).resolve().parent
ROOT = TESTS.parent.parent
DEBIAN_PYTHON = "/usr/bin/python3"
APT = ("apt-get", "-qq", "-o", "Acquire::Retries=0", "-o", "Acquire::http::Timeout=10",
       "-o", "Acquire::https::Timeout=10", "-o", "DPkg::Lock::Timeout=60")
PIP = ("-m", "pip", "install", "--quiet", "--disable-pip-version-check", "--no-input", "--retries", "0",
       "--timeout", "10")
LONGEST_INSTALL = 1800
LEVELS = ("browser", "proofs", "long")
DESCRIPTION = """Runs the stored runs, the examples against their sums, and the tests of the Python package, over the
program that ./abides would run. What fails is run again, alone; what passes then is named. The last line is
`N passed, M failed, K skipped`. The status is 0 where nothing failed and nothing was left out for want of a tool."""


def say(text: str) -> None:
    """A line about what is done next."""
    print(f"test: {text}", flush=True)


def options(words: list[str]) -> argparse.Namespace:
    """The options of `./test`."""
    parser = argparse.ArgumentParser("./test", description=DESCRIPTION)
    parser.add_argument("--browser", action="store_true", help="also the tests of pages in a real browser")
    parser.add_argument("--proofs", action="store_true", help="first `rt ci` and release/check: half an hour and more")
    parser.add_argument("--long", action="store_true", help="also the tests that take minutes of a processor")
    parser.add_argument("--all", action="store_true", help="all three")
    parser.add_argument("--no-install", action="store_true", help="install nothing")
    parser.add_argument("--skip-missing", action="store_true", help="a tool that can't be had is no failure")
    parser.add_argument("pytest", nargs="*", metavar="WORD", help="words for pytest, behind --")
    asked = parser.parse_args(words)
    for level in LEVELS:
        setattr(asked, level, asked.all or getattr(asked, level))
    return asked


def run_quietly(*words: str | Path) -> bool:
    """Whether a command ends well. What it says is kept back."""
    try:
        ended = subprocess.run(words, stdin=subprocess.DEVNULL, stdout=subprocess.DEVNULL, stderr=subprocess.DEVNULL,
                               timeout=LONGEST_INSTALL)
    except (OSError, subprocess.TimeoutExpired):
        return False
    return ended.returncode == 0


def cache() -> Path | None:
    """The folder of the virtual environment, or None where the user has no cache in which one can write."""
    place = os.environ.get("XDG_CACHE_HOME") or (os.environ.get("HOME") and f"{os.environ['HOME']}/.cache")
    if not place or not place.startswith("/"):
        return None
    try:
        Path(place, "biqsolur").mkdir(parents=True, exist_ok=True)
    except OSError:
        return None
    return Path(place, "biqsolur") if os.access(Path(place, "biqsolur"), os.W_OK) else None


def pythons() -> list[str]:
    """The Pythons that may serve, best first."""
    folder = cache()
    kept = [str(folder / "python" / "bin" / "python3")] if folder else []
    found = [shutil.which(name) for name in (os.environ.get("PYTHON") or "python3", DEBIAN_PYTHON, *kept)]
    return list(dict.fromkeys([*filter(None, found), sys.executable]))


def lacking(python: str, kind: str, browser: bool) -> list[str] | None:
    """What a Python lacks, as `kind` calls it (pip, debian, tools); None where it can't tell."""
    words = [python, str(TESTS / "needs.py"), *(["--browser"] if browser else []), kind]
    try:
        answer = subprocess.run(words, capture_output=True, text=True, stdin=subprocess.DEVNULL)
    except OSError:
        return None
    return answer.stdout.split() if answer.returncode == 0 else None


def whole_python(browser: bool) -> str | None:
    """The first Python that lacks no package."""
    return next((python for python in pythons() if lacking(python, "pip", browser) == []), None)


def least_lacking(browser: bool) -> str:
    """The Python that lacks the fewest packages."""
    counts = {python: lacking(python, "pip", browser) for python in pythons()}
    return min(counts, key=lambda python: 1000 if counts[python] is None else len(counts[python] or []))


def install_by_pip(browser: bool) -> bool:
    """Makes a virtual environment in the user's cache and fills it; False where that can't be."""
    folder, base = cache(), least_lacking(browser)
    if folder is None or not run_quietly(base, "-c", "import ensurepip, venv"):
        return False
    wanted = lacking(base, "pip", browser) or []
    place = folder / "python"
    say(f"installing by pip into {place}: {' '.join(wanted)}")
    if run_quietly(base, "-m", "venv", "--clear", "--system-site-packages", place) and \
            run_quietly(place / "bin" / "python3", *PIP, *wanted):
        return True
    shutil.rmtree(place, ignore_errors=True)
    say("pip reaches no index that has them")
    return False


def install_by_apt(names: list[str]) -> bool:
    """Installs Debian's packages; False where that can't be."""
    if not names or os.geteuid() != 0 or not shutil.which("apt-get"):
        return False
    os.environ["DEBIAN_FRONTEND"] = "noninteractive"
    say(f"installing by apt-get --no-install-recommends: {' '.join(names)}")
    install = (*APT, "-y", "--no-install-recommends", "install")
    if not run_quietly(*APT, "-o", "APT::Update::Error-Mode=any", "update"):
        say("apt-get reaches no archive")
        return False
    if run_quietly(*install, *names):
        return True
    return all([run_quietly(*install, name) for name in names])


def see_to_packages(browser: bool) -> tuple[str, list[str]]:
    """Installs what is missing; the Python to use, and the names of what it still lacks."""
    if whole_python(browser) is None and not install_by_pip(browser):
        install_by_apt(lacking(DEBIAN_PYTHON, "debian", browser) or [])
    python = whole_python(browser) or least_lacking(browser)
    tools = lacking(python, "tools", browser)
    if tools:
        packages = lacking(DEBIAN_PYTHON, "debian-tools", browser) or []
        install_by_apt(packages)
    return python, still_lacking(python, browser)


def still_lacking(python: str, browser: bool) -> list[str]:
    """The names of packages and tools that aren't there."""
    return [*(lacking(python, "pip", browser) or []), *(lacking(python, "tools", browser) or [])]


def find_program() -> str:
    """The program that ./abides would run."""
    answer = subprocess.run([ROOT / "abides", "--program"], stdout=subprocess.PIPE, text=True, stdin=subprocess.DEVNULL)
    if answer.returncode:
        sys.exit("test: there is no program to test: ./prove builds it, and so does ./test --proofs")
    return answer.stdout.removesuffix("\n")


def prove() -> list[str]:
    """Runs the gate's proofs; what was left out for want of `rt`."""
    if shutil.which("rt") is None:
        return ["rt"]
    for words in (["rt", "ci"], ["release/check"]):
        say(f"running {' '.join(words)}")
        if subprocess.run(words, cwd=ROOT, stdin=subprocess.DEVNULL).returncode:
            sys.exit(f"test: {' '.join(words)} failed")
    return []


def main(words: list[str]) -> int:
    """Sees to everything, and becomes tally.py."""
    asked = options(words)
    left_out = prove() if asked.proofs else []
    program = find_program()
    if asked.no_install:
        python = whole_python(asked.browser) or least_lacking(asked.browser)
        left_out += still_lacking(python, asked.browser)
    else:
        python, lacks = see_to_packages(asked.browser)
        left_out += lacks
    say(f"the program is {program}, Python is {python}")
    flags = [f"--{name}" for name in (*LEVELS, "skip-missing") if getattr(asked, name.replace("-", "_"))]
    missing = [word for name in left_out for word in ("--missing", name)]
    os.execv(python, [python, str(TESTS / "tally.py"), "--program", program, *flags, *missing, "--", *asked.pytest])


if __name__ == "__main__":
    sys.exit(main(sys.argv[1:]))
