"""What `./test` is made of: which packages it misses, how it installs them, and how it counts."""

from __future__ import annotations

import math
import subprocess
import sys
import textwrap
from pathlib import Path

import everything
import needs
import pytest
import tally
from conftest import ROOT, TESTS_FOLDER

PROJECT = """
[project]
dependencies = ["numpy>=1.24", "there_is_no_such_one>=3"]
[project.optional-dependencies]
test = ["pytest>=7", "pytest>=9999"]
sweep = ["snakemake_nope", "numpy>=1.24"]
browser = ["seleniumx>=4"]
"""


# How it counts

def count(folder: Path, text: str, *words: str | Path) -> subprocess.CompletedProcess:
    """Runs the tally over one file of tests, and those among the words."""
    path = folder / "test_some.py"
    path.write_text(textwrap.dedent(text))
    line = [sys.executable, TESTS_FOLDER / "tally.py", "--program", "none", "--root", folder, *words, "--", path, "-n", "0"]
    return subprocess.run(line, capture_output=True, text=True, stdin=subprocess.DEVNULL)


def test_what_passes_when_run_again_is_named(tmp_path: Path) -> None:
    """It counts as passed; what fails three times has failed."""
    answer = count(tmp_path, f"""
        from pathlib import Path
        def test_second():
            path = Path({str(tmp_path)!r}, "ran")
            before = path.read_text() if path.exists() else ""
            path.write_text(before + "x")
            assert len(before) == 1
        def test_good():
            pass
    """)
    lines = answer.stdout.splitlines()
    assert answer.returncode == 0 and lines[-1] == "2 passed, 0 failed, 0 skipped"
    named = [line for line in lines if line.startswith("passed only when it was run once more, alone: ")]
    assert len(named) == 1 and named[0].endswith("test_some.py::test_second")
    assert (tmp_path / "ran").read_text() == "xx"


def test_what_fails_each_time_has_failed(tmp_path: Path) -> None:
    """The status is 1, and it is named; a fixture that fails behind a good test counts as well."""
    answer = count(tmp_path, """
        import pytest
        @pytest.fixture
        def bad():
            yield
            raise ValueError("behind")
        def test_bad(bad):
            pass
        def test_worse():
            assert False
    """)
    assert answer.returncode == 1 and answer.stdout.splitlines()[-1] == "0 passed, 2 failed, 0 skipped"
    failed = {line.rpartition("::")[2] for line in answer.stdout.splitlines() if line.startswith("failed: ")}
    assert failed == {"test_bad", "test_worse"}


def test_a_file_that_is_no_python_has_failed(tmp_path: Path) -> None:
    """So has a call in which nothing was run at all."""
    (tmp_path / "test_other.py").write_text("def broken(:\n")
    answer = count(tmp_path, "def test_good(): pass\n", tmp_path / "test_other.py")
    assert answer.returncode == 1 and answer.stdout.splitlines()[-1] == "1 passed, 1 failed, 0 skipped"
    answer = count(tmp_path, "x = 1\n")
    assert answer.returncode == 1 and answer.stdout.splitlines()[-1] == "0 passed, 0 failed, 0 skipped"


def test_what_is_skipped_is_a_failure_unless_it_is_allowed(tmp_path: Path) -> None:
    """With its reason, once for each kind."""
    text = """
        import pytest
        @pytest.mark.parametrize("number", range(3))
        def test_tool(number):
            pytest.skip("no such tool (Debian: tool)")
        def test_good():
            pass
    """
    for words, status in (((), 1), (("--skip-missing",), 0)):
        answer = count(tmp_path, text, *words)
        lines = answer.stdout.splitlines()
        assert answer.returncode == status and lines[-1] == "1 passed, 0 failed, 3 skipped"
        assert "skipped, 3: no such tool (Debian: tool)" in lines
        assert "not asked for: the proofs (--proofs)" in lines


def test_a_missing_tool_is_said_in_the_closing_line(tmp_path: Path) -> None:
    """And is a failure unless it is allowed."""
    for words, status in (((), 1), (("--skip-missing",), 0)):
        answer = count(tmp_path, "def test_good(): pass\n", "--missing", "tshark", *words)
        last = answer.stdout.splitlines()[-1]
        assert (answer.returncode, last) == (status, "1 passed, 0 failed, 0 skipped for want of tshark")


@pytest.mark.parametrize("level", ["browser", "long"])
def test_levels_are_left_out_unless_asked_for(tmp_path: Path, level: str) -> None:
    """What is left out is no skip."""
    text = f"""
        import pytest
        @pytest.mark.{level}
        def test_level():
            pass
        def test_good():
            pass
    """
    assert count(tmp_path, text).stdout.splitlines()[-1] == "1 passed, 0 failed, 0 skipped"
    assert count(tmp_path, text, f"--{level}").stdout.splitlines()[-1] == "2 passed, 0 failed, 0 skipped"


def test_the_number_of_workers_fits_the_machine(monkeypatch: pytest.MonkeyPatch) -> None:
    """At least one, also where nothing is known; at most as many as processors, the group's share, and memory allow."""
    monkeypatch.setattr(tally.os, "sched_getaffinity", lambda process: set(range(8)))
    for share, memory, expected in ((math.inf, math.inf, 8), (2.5, math.inf, 3), (math.inf, 1e6, 1),
                                    (math.inf, 1.5e9, 2), (0.1, 1e12, 1)):
        monkeypatch.setattr(tally, "quota", lambda share=share: share)
        monkeypatch.setattr(tally, "free_memory", lambda memory=memory: memory)
        assert tally.workers() == expected
    monkeypatch.delattr(tally.os, "sched_getaffinity")
    monkeypatch.setattr(tally.os, "cpu_count", lambda: None)
    assert tally.workers() == 1


# What is missing

@pytest.fixture
def project(tmp_path: Path, monkeypatch: pytest.MonkeyPatch) -> None:
    """Another pyproject.toml."""
    (tmp_path / "pyproject.toml").write_text(PROJECT)
    monkeypatch.setattr(needs, "PROJECT", tmp_path / "pyproject.toml")


def test_what_a_python_lacks(project: None, monkeypatch: pytest.MonkeyPatch) -> None:
    """Packages that aren't there or are too old, as pip and as Debian call them; programs that aren't on the path."""
    assert needs.missing("pip", False) == ["there_is_no_such_one>=3", "pytest>=9999", "snakemake_nope"]
    assert needs.missing("debian", True) == ["python3-there_is_no_such_one", "python3-pytest",
                                             "python3-snakemake_nope", "python3-seleniumx"]
    monkeypatch.setattr(needs.shutil, "which", lambda tool: None if tool in ("xz", "chromium") else f"/bin/{tool}")
    assert (needs.missing("tools", False), needs.missing("debian-tools", False)) == (["xz"], ["xz-utils"])
    assert needs.missing("tools", True) == ["xz", "chromium"]


def test_the_projects_own_needs_have_a_form_that_is_understood() -> None:
    """Each has a name, and those that are there are seen to be."""
    names = [needs.parts(requirement)[0] for requirement in needs.requirements(True)]
    assert {"numpy", "pandas", "pytest"} <= set(names) and len(names) == len(set(names))
    assert needs.is_there("pytest>=7") and not needs.is_there("pytest>=7777.1")
    assert [needs.parts(text) for text in ("a[b]>=1.2,<3", "a-b", "A.b ~= 3")] == [("a", "1.2"), ("a-b", ""), ("A.b", "")]
    with pytest.raises(ValueError, match="another form"):
        needs.parts("@")


# How it is installed

@pytest.fixture
def apt(tmp_path: Path, monkeypatch: pytest.MonkeyPatch) -> Path:
    """An apt-get that notes its words, and fails where a file says so."""
    (tmp_path / "apt-get").write_text(f"""#!/bin/sh
echo "$DEBIAN_FRONTEND $*" >>{tmp_path}/words
[ ! -e "{tmp_path}/offline" ] || exit 100
case "$*" in *unknown*) exit 100 ;; esac
""")
    (tmp_path / "apt-get").chmod(0o755)
    monkeypatch.setenv("PATH", f"{tmp_path}:/usr/bin:/bin")
    monkeypatch.setenv("DEBIAN_FRONTEND", "dialog")
    monkeypatch.setattr(everything.os, "geteuid", lambda: 0)
    return tmp_path


def words_of(apt: Path) -> list[str]:
    """What apt-get was called with, without its options."""
    path = apt / "words"
    lines = path.read_text().splitlines() if path.exists() else []
    assert all(line.startswith("noninteractive -qq ") for line in lines)
    return [line.partition(" --no-install-recommends install ")[2] or line.rpartition(" ")[2] for line in lines]


def test_apt_installs_without_questions_and_recommendations(apt: Path, capsys: pytest.CaptureFixture) -> None:
    """It is said before; one unknown name doesn't keep the others away."""
    assert everything.install_by_apt(["one", "two"]) and words_of(apt) == ["update", "one two"]
    assert capsys.readouterr().out == "test: installing by apt-get --no-install-recommends: one two\n"
    assert not everything.install_by_apt(["one", "unknown"])
    assert words_of(apt)[2:] == ["update", "one unknown", "one", "unknown"]


def test_apt_is_left_alone_where_it_cannot_serve(apt: Path, monkeypatch: pytest.MonkeyPatch,
                                                 capsys: pytest.CaptureFixture) -> None:
    """Nothing to install, no archive in reach, no right to."""
    assert not everything.install_by_apt([]) and words_of(apt) == []
    (apt / "offline").touch()
    assert not everything.install_by_apt(["one"]) and words_of(apt) == ["update"]
    assert capsys.readouterr().out.endswith("test: apt-get reaches no archive\n")
    monkeypatch.setattr(everything.os, "geteuid", lambda: 1000)
    assert not everything.install_by_apt(["one"]) and words_of(apt) == ["update"]


@pytest.mark.parametrize("xdg, home, expected", [
    ("", "", None), ("relative", "", None), ("", "{}/home", "{}/home/.cache/biqsolur"),
    ("{}/xdg", "{}/home", "{}/xdg/biqsolur"), ("/dev/null/x", "", None)])
def test_the_folder_of_the_virtual_environment(tmp_path: Path, monkeypatch: pytest.MonkeyPatch, xdg: str, home: str,
                                               expected: str | None) -> None:
    """The user's cache, or none where there is no such place."""
    monkeypatch.setenv("XDG_CACHE_HOME", xdg.format(tmp_path))
    monkeypatch.setenv("HOME", home.format(tmp_path))
    found = everything.cache()
    assert found == (Path(expected.format(tmp_path)) if expected else None)


def test_pip_that_reaches_nothing_leaves_no_environment(tmp_path: Path, monkeypatch: pytest.MonkeyPatch,
                                                        capsys: pytest.CaptureFixture) -> None:
    """It is said, and what was begun is taken away."""
    monkeypatch.setenv("XDG_CACHE_HOME", str(tmp_path))
    made = []

    def quietly(*words: str | Path) -> bool:
        """Makes the environment, and fails at pip."""
        made.append([str(word) for word in words])
        if "venv" in made[-1]:
            (tmp_path / "biqsolur/python").mkdir(parents=True)
        return "pip" not in made[-1]

    monkeypatch.setattr(everything, "run_quietly", quietly)
    monkeypatch.setattr(everything, "least_lacking", lambda browser: sys.executable)
    monkeypatch.setattr(everything, "lacking", lambda python, kind, browser: ["some>=1"])
    assert not everything.install_by_pip(False)
    assert made[-1][1:3] == ["-m", "pip"] and made[-1][-1] == "some>=1" and "--retries" in made[-1]
    assert not (tmp_path / "biqsolur/python").exists()
    assert "test: pip reaches no index that has them" in capsys.readouterr().out


def test_options() -> None:
    """`--all` asks for the three levels; what stands behind -- is pytest's."""
    asked = everything.options(["--all", "--skip-missing", "--", "-k", "name"])
    assert asked.browser and asked.proofs and asked.long and asked.skip_missing and not asked.no_install
    assert asked.pytest == ["-k", "name"]
    assert not everything.options([]).browser
    with pytest.raises(SystemExit):
        everything.options(["--nonsense"])


def test_without_a_program_it_says_what_builds_one(tmp_path: Path, monkeypatch: pytest.MonkeyPatch) -> None:
    """One line, and status 1."""
    (tmp_path / "abides").write_text("#!/bin/sh\nexit 1\n")
    (tmp_path / "abides").chmod(0o755)
    monkeypatch.setattr(everything, "ROOT", tmp_path)
    with pytest.raises(SystemExit, match="there is no program to test: ./prove builds it"):
        everything.find_program()


def test_the_script_hands_its_words_on(tmp_path: Path) -> None:
    """./test, through a link and with nothing to read, becomes everything.py with its words."""
    (tmp_path / "python/tests").mkdir(parents=True)
    (tmp_path / "release").mkdir()
    (tmp_path / "python/tests/everything.py").write_text("import sys\nprint(sys.argv[1:])\nsys.exit(7)\n")
    for name in ("test", "release/common.sh"):
        (tmp_path / name).write_bytes((ROOT / name).read_bytes())
        (tmp_path / name).chmod(0o755)
    (tmp_path / "link").symlink_to("test")
    line = ["/bin/sh", "-c", '"$0" --browser "a b" <&-', tmp_path / "link"]
    answer = subprocess.run(line, capture_output=True, text=True)
    assert (answer.returncode, answer.stdout, answer.stderr) == (7, "['--browser', 'a b']\n", "")
