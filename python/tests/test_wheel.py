"""The wheel: built from a copy of the checkout, unpacked, and used where there is no checkout."""

from __future__ import annotations

import hashlib
import os
import shutil
import subprocess
import sys
import tarfile
import zipfile
from email.parser import Parser
from pathlib import Path

import pytest
from conftest import PACKAGE, ROOT

from biqsolur import missing

pytest.importorskip("setuptools", reason="no setuptools: Debian's python3-setuptools")
pytest.importorskip("wheel", reason="no wheel: Debian's python3-wheel")
STUDY = ROOT / "examples" / "tick_size.toml"


def run_setup(folder: Path, *words: str) -> None:
    """Runs setup.py in a folder, without the user's settings."""
    line = [sys.executable, "setup.py", "-q", "--no-user-cfg", *words]
    answer = subprocess.run(line, cwd=folder, capture_output=True, text=True)
    assert answer.returncode == 0, answer.stderr


@pytest.fixture(scope="module")
def checkout(tmp_path_factory: pytest.TempPathFactory) -> Path:
    """What the wheel is made of, alone."""
    home = tmp_path_factory.mktemp("checkout")
    others = shutil.ignore_patterns("tests", "__pycache__", "build", "*.egg-info")
    shutil.copytree(PACKAGE, home / "python", ignore=others, symlinks=True)
    shutil.copytree(ROOT / "release", home / "release")
    shutil.copy(ROOT / "LICENSE", home)
    return home


def test_the_package_has_the_repositorys_licence() -> None:
    """A file and no link: the gate takes no links."""
    assert (PACKAGE / "LICENSE").read_text() == (ROOT / "LICENSE").read_text() and not (PACKAGE / "LICENSE").is_symlink()


@pytest.fixture(scope="module")
def wheel(checkout: Path) -> Path:
    """The wheel's file."""
    run_setup(checkout / "python", "bdist_wheel", "-d", str(checkout / "dist"))
    wheel, = (checkout / "dist").glob("*.whl")
    return wheel


@pytest.fixture(scope="module")
def installed(wheel: Path, tmp_path_factory: pytest.TempPathFactory) -> Path:
    """The wheel unpacked, with the modes that pip gives its files."""
    folder = tmp_path_factory.mktemp("installed")
    with zipfile.ZipFile(wheel) as archive:
        archive.extractall(folder)
        for entry in archive.infolist():
            if entry.external_attr >> 16 & 0o111:
                (folder / entry.filename).chmod(0o755)
    return folder


def in_python(installed: Path, code: str, *words: str | Path) -> subprocess.CompletedProcess:
    """Runs a line of Python over the unpacked wheel, elsewhere than in a checkout."""
    env = {name: value for name, value in os.environ.items() if name != "BIQSOLUR_PROGRAM"}
    return subprocess.run([sys.executable, "-c", code, *words], cwd=installed, env={**env, "PYTHONPATH": str(installed)},
                          capture_output=True, stdin=subprocess.DEVNULL)


ABIDES = "import sys; from biqsolur.command import main; sys.exit(main())"


def test_its_name_and_what_it_says_of_itself(wheel: Path, installed: Path) -> None:
    """For Linux on x86-64 and any Python 3; the version is the repository's; licence, commands and extras are there."""
    version = (ROOT / "python/biqsolur/VERSION").read_text().strip()
    assert wheel.name == f"biqsolur-{version}-py3-none-linux_x86_64.whl"
    said = Parser().parsestr((installed / f"biqsolur-{version}.dist-info/METADATA").read_text())
    assert (said["Version"], said["License"]) == (version, "BSD-3-Clause")
    assert {"report", "sweep", "test", "explore"} <= set(said.get_all("Provides-Extra"))
    assert "Typing :: Typed" in said.get_all("Classifier")
    licence, = installed.rglob("LICENSE")
    assert licence.read_text() == (ROOT / "LICENSE").read_text()
    commands = (installed / f"biqsolur-{version}.dist-info/entry_points.txt").read_text()
    assert "abides = biqsolur.command:main" in commands and "biqsolur = biqsolur.__main__:main" in commands


def test_it_has_every_file_of_the_package(installed: Path) -> None:
    """Modules, pages, and what else lies among them; no tests, nothing compiled."""
    here = {path.relative_to(PACKAGE) for path in (PACKAGE / "biqsolur").rglob("*")
            if path.is_file() and "__pycache__" not in path.parts}
    there = {path.relative_to(installed) for path in (installed / "biqsolur").rglob("*") if path.is_file()}
    assert there == here | {Path("biqsolur/bin/abides"), Path("biqsolur/bin/KIT")}
    assert Path("biqsolur/py.typed") in there


def test_the_program_is_the_released_one(installed: Path) -> None:
    """Its sum is the one that stands beside the release."""
    sums = (ROOT / "release/SHA256SUMS").read_text()
    program = installed / "biqsolur/bin/abides"
    assert f"{hashlib.sha256(program.read_bytes()).hexdigest()}  abides-x86_64-linux\n" in sums
    assert os.access(program, os.X_OK)


def test_its_command_is_the_program(installed: Path) -> None:
    """Output, status and line; and --program tells where it lies."""
    program = installed / "biqsolur/bin/abides"
    for words in (("table", STUDY), ("run", "nosuch.toml"), ("check", STUDY, "--", "x")):
        own = subprocess.run([program, *words], cwd=installed, capture_output=True)
        answer = in_python(installed, ABIDES, *words)
        assert (answer.returncode, answer.stdout, answer.stderr) == (own.returncode, own.stdout, own.stderr)
    assert in_python(installed, ABIDES, "--program").stdout.decode() == f"{program}\n"


def test_its_command_helps(installed: Path) -> None:
    """The same page as that of the checkout, and the same version."""
    page = (PACKAGE / "biqsolur/help.txt").read_bytes()
    for words in ((), ("--help",), ("-h",), ("help",)):
        assert in_python(installed, ABIDES, *words).stdout == page
    version = (PACKAGE / "biqsolur/VERSION").read_text().strip()
    kit = (ROOT / "release/KIT").read_text().strip()
    assert in_python(installed, ABIDES, "--version").stdout.decode() == f"abides {version}\nkit: {kit}\n"


def test_a_wheel_can_be_made_of_the_source_distribution(checkout: Path) -> None:
    """It has the packed program; a damaged one is refused."""
    run_setup(checkout / "python", "sdist", "-d", str(checkout / "source"))
    archive, = (checkout / "source").glob("*.tar.gz")
    with tarfile.open(archive) as source:
        source.extractall(checkout / "from")
    folder, = (checkout / "from").iterdir()
    run_setup(folder, "build_py", "--build-lib", str(checkout / "lib"))
    assert (checkout / "lib/biqsolur/bin/abides").stat().st_size > 100_000
    sums = folder / "release/SHA256SUMS"
    sums.write_text(sums.read_text().replace("  abides-x86_64-linux\n", "0  abides-x86_64-linux\n"))
    answer = subprocess.run([sys.executable, "setup.py", "-q", "build_py"], cwd=folder, capture_output=True, text=True)
    assert answer.returncode == 1 and "holds another program than SHA256SUMS names" in answer.stderr


@pytest.mark.parametrize("module, extra, debian", [
    ("plotly", "[report]", "python3-plotly"), ("starlette.applications", "[explore]", "python3-starlette"),
    ("numpy", "", "python3-numpy"), ("snakemake", "[sweep]", "snakemake")])
def test_a_missing_package_is_a_line_that_names_it(module: str, extra: str, debian: str) -> None:
    """And says how to get it, by pip and from Debian."""
    text = missing.advice(ModuleNotFoundError("no", name=module))
    assert module.split(".")[0] in text and f"biqsolur{extra}'" in text and f"{debian} " in text and "\n" not in text


def test_a_module_of_the_package_itself_is_no_missing_package() -> None:
    """Such an error is one of the package's own."""
    with pytest.raises(ModuleNotFoundError, match="own"):
        missing.advice(ModuleNotFoundError("own", name="biqsolur.nonesuch"))


def test_a_command_that_misses_a_package_says_so_in_one_line(installed: Path) -> None:
    """Status 1, and no traceback."""
    code = ("import sys; sys.modules['numpy'] = None; from biqsolur.__main__ import main; "
            "sys.exit(main(['csv', 'x', '-o', 'y']))")
    answer = in_python(installed, code)
    lines = answer.stderr.decode().splitlines()
    assert (answer.returncode, len(lines)) == (1, 1) and "has no package numpy: pip install 'biqsolur'" in lines[0]
