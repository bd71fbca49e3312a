"""Builds the package with the released program in it: biqsolur/bin/abides, unpacked from release/ and compared with its
sum, and beside it the line of the kit that proved it.

A source distribution has the packed program in its folder `release`, a checkout beside this folder. What is said of the
package stands in pyproject.toml.
"""

from __future__ import annotations

import hashlib
import lzma
import shutil
from pathlib import Path

from setuptools import Distribution, setup
from setuptools.command.build_py import build_py
from setuptools.command.sdist import sdist

try:
    from setuptools.command.bdist_wheel import bdist_wheel
except ImportError:
    from wheel.bdist_wheel import bdist_wheel

HERE = Path(__file__).resolve().parent
PROGRAM = "abides-x86_64-linux"
FILES = (f"{PROGRAM}.xz", "SHA256SUMS", "KIT", "SOURCES")


def release() -> Path:
    """The folder of the packed program."""
    for folder in (HERE / "release", HERE.parent / "release"):
        if (folder / FILES[0]).is_file():
            return folder
    raise SystemExit(f"there is no {FILES[0]} in {HERE.parent / 'release'}: build from a whole checkout")


def program() -> bytes:
    """The released program, whose sum is the one that stands beside it."""
    folder = release()
    sums = dict(reversed(line.split("  ", 1)) for line in (folder / "SHA256SUMS").read_text().splitlines())
    unpacked = lzma.decompress((folder / FILES[0]).read_bytes())
    if hashlib.sha256(unpacked).hexdigest() != sums[PROGRAM]:
        raise SystemExit(f"{folder / FILES[0]} holds another program than SHA256SUMS names")
    return unpacked


class BuildWithProgram(build_py):
    """Puts the program beside the modules."""

    def run(self) -> None:
        """Builds as usual, and unpacks."""
        super().run()
        if self.editable_mode:
            return
        place = Path(self.build_lib, "biqsolur", "bin", "abides")
        place.parent.mkdir(parents=True, exist_ok=True)
        place.write_bytes(program())
        place.chmod(0o755)
        shutil.copyfile(release() / "KIT", place.parent / "KIT")


class SourceWithProgram(sdist):
    """Takes the packed program along, so that a wheel can be built from the source distribution alone."""

    def make_release_tree(self, base_dir: str, files: list[str]) -> None:
        """Makes the tree as usual, and copies the release into it."""
        super().make_release_tree(base_dir, files)
        folder = Path(base_dir, "release")
        folder.mkdir(exist_ok=True)
        for name in FILES:
            shutil.copyfile(release() / name, folder / name)


class WithProgram(Distribution):
    """A package that isn't for every machine."""

    def has_ext_modules(self) -> bool:
        """What setuptools asks to know that."""
        return True


class WheelForLinux(bdist_wheel):
    """The program is for Linux on x86-64; the modules are for every Python 3."""

    def get_tag(self) -> tuple[str, str, str]:
        """The wheel's tag."""
        return "py3", "none", "linux_x86_64"


setup(distclass=WithProgram,
      cmdclass={"build_py": BuildWithProgram, "sdist": SourceWithProgram, "bdist_wheel": WheelForLinux})
