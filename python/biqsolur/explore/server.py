"""The explorer's server: the page's files and its questions, for this machine alone.

Every address begins with a secret word, so a program of another user of this machine, which does not know it, gets 403;
so does what comes from another page (its Origin is foreign) or under another name (its Host is). Nothing of the file
system is served but the page's own files, which are known by name.
"""

from __future__ import annotations

import importlib.util
import json
import secrets
from importlib import resources
from pathlib import Path
from typing import Any, Callable
from urllib.parse import quote

from starlette.applications import Starlette
from starlette.concurrency import run_in_threadpool
from starlette.requests import Request
from starlette.responses import FileResponse, Response
from starlette.routing import Route
from starlette.types import ASGIApp, Message, Receive, Scope, Send

from biqsolur.errors import InputError
from biqsolur.explore.answers import ACTIONS, QUESTIONS, Download
from biqsolur.explore.changes import BadRequest
from biqsolur.explore.model import Busy, Explorer, Stale
from biqsolur.explore.view import NoSuchEvent

MOST_BODY = 1_000_000       # bytes of what a page may send
POLICY = ("default-src 'none'; script-src 'self'; style-src 'self' 'unsafe-inline'; img-src 'self' data: blob:; "
          "connect-src 'self'; base-uri 'none'; form-action 'none'; frame-ancestors 'none'")
HEADERS = {
    b"content-security-policy": POLICY.encode(), b"x-content-type-options": b"nosniff",
    b"referrer-policy": b"no-referrer",
    b"cache-control": b"no-store", b"cross-origin-resource-policy": b"same-origin",
    b"cross-origin-opener-policy": b"same-origin",
}
KINDS = {"html": "text/html; charset=utf-8", "css": "text/css; charset=utf-8", "js": "text/javascript; charset=utf-8",
         "svg": "image/svg+xml"}
DEBIAN_PACKAGES = Path("/usr/lib/python3/dist-packages")
DEBIAN_PLOTLY = Path("/usr/share/python3-plotly/plotly.js")     # where Debian's package of plotly has its script
STATUSES: list[tuple[type[Exception], int]] = [
    (Stale, 409), (Busy, 409), (NoSuchEvent, 404), (BadRequest, 400), (KeyError, 404), (InputError, 422)]


class Guard:
    """Refuses what is not from the explorer's own page, before anything else looks at it, and what is too long."""

    def __init__(self, app: ASGIApp, token: str) -> None:
        self.app = app
        self.token = token

    async def __call__(self, scope: Scope, receive: Receive, send: Send) -> None:
        if scope["type"] == "lifespan":
            await self.app(scope, receive, send)
            return
        if scope["type"] != "http":
            return
        refusal = self.refusal(scope)
        if refusal is not None:
            await refusal(scope, receive, with_headers(send))
            return
        await self.app(scope, limited(receive), with_headers(send))

    def refusal(self, scope: Scope) -> Response | None:
        """What is answered to a request that is not served, or None."""
        headers = {name.decode("latin1"): value.decode("latin1") for name, value in scope["headers"]}
        port = scope["server"][1]
        hosts = [f"127.0.0.1:{port}", f"localhost:{port}"]
        if headers.get("host") not in hosts:
            return said(403, "this is asked under a name that is not this machine's own")
        if "origin" in headers and headers["origin"] not in [f"http://{host}" for host in hosts]:
            return said(403, "another page may not ask this")
        first = scope["path"].split("/")[1]
        if not secrets.compare_digest(first.encode(), self.token.encode()):
            return said(403, "the address lacks its secret word: use the one that the explorer printed")
        length = headers.get("content-length", "0")
        if not length.isdigit() or int(length) > MOST_BODY:
            return said(413, f"a body has at most {MOST_BODY:,} bytes")
        return None


class TooLong(Exception):
    """A body without a stated length that turned out to be too long."""


def limited(receive: Receive) -> Receive:
    """The same messages of a request, until their bytes are too many."""
    total = 0

    async def next_message() -> Message:
        nonlocal total
        message = await receive()
        total += len(message.get("body", b""))
        if total > MOST_BODY:
            raise TooLong
        return message
    return next_message


def with_headers(send: Send) -> Send:
    """The same answers, with the headers that each answer has; one that has such a header keeps its own."""
    async def send_message(message: Message) -> None:
        if message["type"] == "http.response.start":
            own = [(name.lower(), value) for name, value in message["headers"]]
            names = {name for name, _ in own}
            message = {**message, "headers": own + [pair for pair in HEADERS.items() if pair[0] not in names]}
        await send(message)
    return send_message


def said(status: int, text: str, **more: Any) -> Response:
    """An error in words."""
    return answer({"error": text, **more}, status)


def answer(content: Any, status: int = 200) -> Response:
    """JSON; not-a-number is none."""
    return Response(json.dumps(content, allow_nan=False, separators=(",", ":")), status, media_type="application/json")


def fault(error: Exception, explorer: Explorer) -> Response:
    """An error of the package as an answer: its sentence, of a refusal without where it was found; its rule and place
    where it has them."""
    status = next(status for kind, status in STATUSES if isinstance(error, kind))
    more = {name: getattr(error, name) for name in ("rule", "place") if isinstance(getattr(error, name, None), int)}
    return said(status, str(error), kind=type(error).__name__, tag=explorer.tag, **more)


def page_files() -> dict[str, bytes]:
    """The page's own files by name."""
    folder = resources.files("biqsolur").joinpath("explore", "page")
    return {item.name: item.read_bytes() for item in folder.iterdir() if item.name.rsplit(".", 1)[-1] in KINDS}


def plotly_file() -> bytes:
    """Plotly's script, as the installed package has it: read from its file where that lies at a usual place, since to
    import the package takes longer than all else that the page waits for."""
    package = importlib.util.find_spec("plotly")
    for folder in map(Path, package.submodule_search_locations or [] if package else []):
        debian = DEBIAN_PLOTLY if folder.parent == DEBIAN_PACKAGES else None
        for path in filter(None, (folder / "package_data" / "plotly.min.js", debian)):
            if path.is_file():
                return path.read_bytes()
    from biqsolur.report_page import plotly_script
    return plotly_script()[0].encode()


def served(explorer: Explorer, work: Callable[[], Any]) -> Callable[[], Response]:
    """Work whose errors are answered in words."""
    def guarded() -> Response:
        try:
            result = work()
        except (InputError, KeyError) as error:
            return fault(error, explorer)
        except OSError as error:
            return said(500, f"the system refused: {error.strerror or error}")
        if isinstance(result, Download):
            headers = {"content-disposition": f"attachment; filename*=UTF-8''{quote(result.name)}"}
            if isinstance(result.content, Path):
                return FileResponse(result.content, media_type=result.kind, headers=headers)
            return Response(result.content, media_type=result.kind, headers=headers)
        return answer(result)
    return guarded


def make_app(explorer: Explorer, token: str, opened: Callable[[], None] = lambda: None) -> ASGIApp:
    """The server's application; `token` is the secret word with which each address begins, and `opened` is called when
    the page is asked for."""
    files = page_files()
    kept: dict[str, bytes] = {}

    async def page(request: Request) -> Response:
        name = request.path_params.get("name") or "index.html"
        if name == "plotly.js":
            if name not in kept:
                kept[name] = await run_in_threadpool(plotly_file)
            return Response(kept[name], media_type=KINDS["js"], headers={"cache-control": "private, max-age=86400"})
        if name not in files:
            return said(404, "there is no such file")
        if name == "index.html":
            opened()
        return Response(files[name], media_type=KINDS[name.rsplit(".", 1)[-1]])

    async def question(request: Request) -> Response:
        ask = QUESTIONS.get(request.path_params["name"])
        if ask is None:
            return said(404, "there is no such question")
        words = dict(request.query_params)
        return await run_in_threadpool(served(explorer, lambda: ask(explorer, words)))

    async def action(request: Request) -> Response:
        act = ACTIONS.get(request.path_params["name"])
        if act is None:
            return said(404, "there is nothing such to do")
        try:
            table = json.loads(await request.body() or b"{}")
        except (ValueError, RecursionError):
            return said(400, "what was sent is no JSON")
        if not isinstance(table, dict):
            return said(400, "what was sent is no table")
        return await run_in_threadpool(served(explorer, lambda: act(explorer, table)))

    async def nothing(request: Request, error: Exception) -> Response:
        return said(getattr(error, "status_code", 404), "there is nothing here")

    async def too_long(request: Request, error: Exception) -> Response:
        return said(413, f"a body has at most {MOST_BODY:,} bytes")

    async def failed(request: Request, error: Exception) -> Response:
        return said(500, f"the explorer failed: {type(error).__name__}")

    routes = [
        Route("/{token}/", page), Route("/{token}/page/{name}", page),
        Route("/{token}/api/{name}", question, methods=["GET"]),
        Route("/{token}/api/{name}", action, methods=["POST"]),
    ]
    app = Starlette(routes=routes, exception_handlers={404: nothing, 405: nothing, TooLong: too_long,
                                                       Exception: failed})
    app.router.redirect_slashes = False
    return Guard(app, token)
