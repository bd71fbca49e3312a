"""An explorer for tests: its server in a thread of this process, on a free port, and questions to it."""

from __future__ import annotations

import http.client
import json
import threading
import time
from collections.abc import Callable, Mapping
from pathlib import Path
from typing import Any
from urllib.parse import urlencode

from biqsolur.explore.command import listen, make_server
from biqsolur.explore.engine import Engine
from biqsolur.explore.model import Explorer
from biqsolur.study import Study

LONGEST = 120       # seconds that a condition is waited for; only a hang comes near it
TOKEN = "the-secret-word-of-tests"


def wait_until(holds: Callable[[], Any], what: str) -> Any:
    """Waits for a condition."""
    end = time.monotonic() + LONGEST
    while time.monotonic() < end:
        found = holds()
        if found:
            return found
        time.sleep(0.01)
    raise AssertionError(f"waited for {what} in vain")


def slow_program(tmp_path: Path, program: str) -> Path:
    """A program that accepts studies, and whose runs last until they are ended; it writes who it is."""
    script = tmp_path / "slow"
    script.write_text(f'#!/bin/sh\ncase "$*" in *check*) exec {program} "$@" ;; esac\necho $$ >{tmp_path}/pid\nexec '
                      'sleep 1000\n')
    script.chmod(0o755)
    return script


class Served:
    """A served explorer, whose study is run already where it can be; else, with `wait` false, its run may go on."""

    def __init__(self, source: Callable[[], Study] | Path, program: str, wait: bool = True) -> None:
        self.wait = wait
        read = source if callable(source) else lambda: Study.read(source)
        self.engine = Engine(Path(program), 1)
        self.explorer = Explorer(read, "study.toml", self.engine)
        self.socket = listen(0)
        self.port = self.socket.getsockname()[1]
        self.server = make_server(self.explorer, TOKEN)
        self.thread = threading.Thread(target=self.server.run, kwargs={"sockets": [self.socket]}, daemon=True)

    def __enter__(self) -> Served:
        self.explorer.open()
        self.thread.start()
        wait_until(lambda: self.server.started, "the server")
        if self.wait:
            self.idle()
        return self

    def __exit__(self, *error: object) -> None:
        self.end()
        self.explorer.close()
        self.socket.close()

    def end(self) -> None:
        """Ends the server."""
        self.server.should_exit = True
        self.thread.join(LONGEST)
        assert not self.thread.is_alive()

    def idle(self) -> None:
        """Waits until no run goes on."""
        wait_until(lambda: not self.explorer.status()["running"], "the end of the run")

    @property
    def address(self) -> str:
        """The page's address."""
        return f"http://127.0.0.1:{self.port}/{TOKEN}/"

    def request(self, method: str, path: str, body: bytes | None = None, headers: Mapping[str, str] | None = None
                ) -> tuple[int, dict[str, str], bytes]:
        """Status, headers (names in small letters) and body of an answer."""
        connection = http.client.HTTPConnection("127.0.0.1", self.port, timeout=LONGEST)
        try:
            connection.request(method, path, body, dict(headers or {}))
            answer = connection.getresponse()
            return answer.status, {name.lower(): value for name, value in answer.getheaders()}, answer.read()
        finally:
            connection.close()

    def get(self, name: str, **words: Any) -> tuple[int, Any]:
        """Status and table of a question; the tag of the version that is looked at is added."""
        words = {"tag": self.explorer.tag, **words}
        status, _, body = self.request("GET", f"/{TOKEN}/api/{name}?{urlencode(words)}")
        return status, json.loads(body)

    def ask(self, name: str, **words: Any) -> Any:
        """The table of a question that is answered."""
        status, table = self.get(name, **words)
        assert status == 200, table
        return table

    def take(self, what: str, **words: Any) -> bytes:
        """What can be taken along."""
        words = {"tag": self.explorer.tag, "what": what, **words}
        status, headers, body = self.request("GET", f"/{TOKEN}/api/take?{urlencode(words)}")
        assert status == 200 and "attachment" in headers["content-disposition"], body
        return body

    def post(self, action: str, table: Any = None, /, **more: Any) -> tuple[int, Any]:
        """Status and table of something to do."""
        body = json.dumps({"tag": self.explorer.tag, **(table or {}), **more}).encode()
        status, _, answer = self.request("POST", f"/{TOKEN}/api/{action}", body, {"content-type": "application/json"})
        return status, json.loads(answer)

    def change(self, kind: str, /, **table: Any) -> None:
        """Makes a change that is accepted, and waits for its run."""
        before = self.explorer.tag
        status, answer = self.post("change", kind=kind, **table)
        assert status == 200, answer
        self.idle()
        assert self.explorer.failure is None and self.explorer.tag == before + 1
