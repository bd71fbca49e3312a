"""The command `explore`: opens a study, serves its page on this machine, and ends with Ctrl-C."""

from __future__ import annotations

import argparse
import asyncio
import contextlib
import html
import os
import secrets
import socket
import sys
import tempfile
import threading
import webbrowser
from pathlib import Path
from types import FrameType
from typing import Callable, Iterator

import uvicorn

from biqsolur.errors import InputError
from biqsolur.explore.engine import Engine
from biqsolur.explore.model import Explorer
from biqsolur.explore.server import make_app
from biqsolur.program import program_of
from biqsolur.study import Study

HERE = "127.0.0.1"
MOST_WORKERS = 64
SECONDS_TO_END = 1.0        # that answers under way get when the explorer ends


class Server(uvicorn.Server):
    """A server that ends soon when it is to end: it first ends what its answers wait for, and then waits for no
    connection for long, since a browser holds some on which it asks nothing."""

    explorer: Explorer

    def handle_exit(self, sig: int, frame: FrameType | None) -> None:
        """Ctrl-C, or the system's wish that this ends."""
        self.explorer.engine.end()
        self.should_exit = True

    async def shutdown(self, sockets: list[socket.socket] | None = None) -> None:
        """Gives answers under way a moment, and then ends."""
        self.explorer.engine.end()
        asyncio.get_running_loop().call_later(SECONDS_TO_END, setattr, self, "force_exit", True)
        await super().shutdown(sockets)


def make_server(explorer: Explorer, token: str, opened: Callable[[], None] = lambda: None) -> Server:
    """The server of an explorer, which has not begun; `opened` is called when the page is asked for."""
    config = uvicorn.Config(
        make_app(explorer, token, opened), log_level="critical", access_log=False, server_header=False,
        date_header=False,
        lifespan="off", ws="none", timeout_keep_alive=5)
    server = Server(config)
    server.explorer = explorer
    return server


def listen(port: int) -> socket.socket:
    """A socket of this machine alone; port 0 is any that is free."""
    out = socket.socket()
    out.setsockopt(socket.SOL_SOCKET, socket.SO_REUSEADDR, 1)
    try:
        out.bind((HERE, port))
    except (OSError, OverflowError) as error:
        out.close()
        raise InputError(f"port {port} cannot be used: {error}; leave it out, and a free one is taken") from None
    out.listen(128)
    return out


@contextlib.contextmanager
def door(address: str) -> Iterator[Path]:
    """A file that leads a browser to an address, so that the address with its secret word stands in no command line.
    Only this user may read it, and it goes at its first use, or at the end."""
    handle, name = tempfile.mkstemp(prefix="biqsolur-", suffix=".html")
    with os.fdopen(handle, "w", encoding="utf-8") as file:
        file.write(f'<!doctype html><meta http-equiv="refresh" content="0;url={html.escape(address, quote=True)}">')
    try:
        yield Path(name)
    finally:
        Path(name).unlink(missing_ok=True)


def main(arguments: argparse.Namespace) -> int:
    """Serves the explorer of a study until it is told to end. A study that cannot be read is told at once; one that is
    refused is told on the page too, where it can be run again once its file is mended."""
    path = Path(arguments.study)
    with open(path, "rb"):
        pass
    engine = Engine(program_of(arguments.program).path, workers_wanted(arguments.workers))
    explorer = Explorer(lambda: Study.read(path), path.name, engine)
    try:
        serve(explorer, arguments.port, arguments.browser)
    finally:
        explorer.close()
    return 0


def workers_wanted(number: int) -> int:
    """How many workers the program gets: as many as there are processors where nothing is said."""
    if number == 0:
        return min(MOST_WORKERS, len(os.sched_getaffinity(0)))
    if not 1 <= number <= MOST_WORKERS:
        raise InputError(f"--workers {number}: the program has 1 to {MOST_WORKERS} workers")
    return number


def serve(explorer: Explorer, port: int, browser: bool) -> None:
    """Serves an explorer, and opens its page where that is wished."""
    token = secrets.token_urlsafe(24)
    with listen(port) as listening:
        address = f"http://{HERE}:{listening.getsockname()[1]}/{token}/"
        explorer.open()
        with door(address) as file:
            print(f"The explorer of {explorer.name} is at\n    {address}\nfor this machine alone; Ctrl-C ends it.",
                  flush=True)
            server = make_server(explorer, token, lambda: file.unlink(missing_ok=True))
            if browser:
                threading.Thread(target=webbrowser.open, args=(file.as_uri(),), daemon=True).start()
            server.run(sockets=[listening])
    print("The explorer has ended.", file=sys.stderr)
