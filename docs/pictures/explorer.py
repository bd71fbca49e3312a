"""Draws docs/pictures/explorer.png: the explorer's page at a trade of examples/tick_size.toml, in a real browser.

    python3 docs/pictures/explorer.py

Needs chromium, chromedriver and python3-selenium. The file is replaced once the new picture is whole.
"""

from __future__ import annotations

import sys
import tempfile
from pathlib import Path

HERE = Path(__file__).resolve().parent
ROOT = HERE.parent.parent
sys.path[:0] = [str(ROOT / "python"), str(ROOT / "python" / "tests")]

from explored import Served  # noqa: E402
from test_explore_page import Page, started  # noqa: E402

from biqsolur.program import find_program  # noqa: E402

PLACE = "branch=wide&event=5145&stock=0&agent=1"
SIZE = (1280, 1420)


def main() -> None:
    """Opens the page, lays the parent's book beside the branch's, and takes the picture."""
    with tempfile.TemporaryDirectory() as folder, Served(ROOT / "examples" / "tick_size.toml",
                                                         str(find_program())) as served:
        driver = started(Path(folder))
        try:
            page = Page(driver)
            driver.set_window_size(*SIZE)
            served.explorer.name = "tick_size.toml"
            page.open(served, PLACE)
            page.click("#beside")
            page.wait("document.querySelectorAll('#ladders caption').length === 2")
            picture = HERE / "explorer.png.part"
            picture.write_bytes(driver.get_screenshot_as_png())
            picture.rename(HERE / "explorer.png")
        finally:
            driver.quit()


if __name__ == "__main__":
    main()
