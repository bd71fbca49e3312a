"""What to do where a package that Biqsolur stands on isn't installed."""

from __future__ import annotations

import sys

# The extra of pyproject.toml that asks for a module; what isn't here is needed by all.
EXTRAS = {
    **dict.fromkeys(("plotly", "matplotlib"), "report"),
    **dict.fromkeys(("scipy", "tqdm", "yaml", "snakemake"), "sweep"),
    **dict.fromkeys(("starlette", "uvicorn"), "explore"),
    "dpkt": "capture",
    "cryptography": "value",
}
DEBIAN = {"snakemake": "snakemake"}


def advice(error: ModuleNotFoundError) -> str:
    """One line that names the package that wasn't found, and how to get it.

    Where it is a module of Biqsolur's own, the error is raised again.
    """
    module = (error.name or "").split(".")[0]
    if module in ("", "biqsolur"):
        raise error
    extra = f"[{EXTRAS[module]}]" if module in EXTRAS else ""
    debian = DEBIAN.get(module, f"python3-{module}")
    return (f"{sys.executable} has no package {module}: pip install 'biqsolur{extra}', or on Debian "
            f"apt-get install {debian} and /usr/bin/python3")
