"""The server: what a browser reaches at 127.0.0.1, behind a token."""

from __future__ import annotations

import hmac
import pathlib
import socket
import sys
import weakref
from typing import Any, Awaitable, Callable

from aiohttp import WSCloseCode, web

from .._errors import Error
from .pages import Page
from .script import lines_of
from .studio import Studio

HOST = "127.0.0.1"
FOLDER = pathlib.Path(__file__).parent / "page"
TYPES = {".html": "text/html", ".css": "text/css", ".js": "text/javascript", ".svg": "image/svg+xml"}
# The longest message of a page, in bytes.
LONGEST = 8 << 20

Handler = Callable[[web.Request], Awaitable[web.StreamResponse]]


def listening(port: int) -> socket.socket:
    """A socket at a port of this machine, or at a free one where it is 0."""
    own = socket.socket()
    own.setsockopt(socket.SOL_SOCKET, socket.SO_REUSEADDR, 1)
    own.bind((HOST, port))
    # (a browser may come before the server has begun to serve)
    own.listen()
    return own


class Server:
    """Serves pages to whoever knows the token, which is the first part of each path, and comes from a page of this
    server or from none."""

    def __init__(self, studio: Studio, port: int, token: str) -> None:
        self._studio, self._token = studio, token
        self._hosts = {"%s:%d" % (it, port) for it in (HOST, "localhost")}
        self._origins = {"http://" + it for it in self._hosts}
        self._sockets: weakref.WeakSet[web.WebSocketResponse] = weakref.WeakSet()
        self._files = {it.name: it for it in sorted(FOLDER.iterdir()) if it.suffix in TYPES}
        policy = (
            "default-src 'none'; script-src 'self'; style-src 'self'; img-src 'self' data:; connect-src 'self' %s;"
            " base-uri 'none'; form-action 'none'; frame-ancestors 'none'"
        )
        self._headers = {
            "Content-Security-Policy": policy % " ".join("ws://" + it for it in sorted(self._hosts)),
            "Referrer-Policy": "no-referrer",
            "X-Content-Type-Options": "nosniff",
            "Cross-Origin-Resource-Policy": "same-origin",
            "Cross-Origin-Opener-Policy": "same-origin",
            "Cache-Control": "no-store",
        }

    def app(self) -> web.Application:
        """What aiohttp runs."""
        app = web.Application(middlewares=[self._guard()])
        app.router.add_get("/{token}/", self._file)
        app.router.add_get("/{token}/link", self._link)
        app.router.add_get("/{token}/script", self._script)
        app.router.add_get("/{token}/items/{sink}", self._items)
        app.router.add_post("/{token}/input/{source}", self._input)
        app.router.add_get("/{token}/{file}", self._file)
        app.on_shutdown.append(self._part)
        return app

    def _guard(self) -> Any:
        @web.middleware
        async def guard(request: web.Request, handler: Handler) -> web.StreamResponse:
            refused = self._refusal(request)
            if refused:
                return web.Response(status=403, text=refused + "\n", headers=self._headers)
            return await handler(request)

        return guard

    def _refusal(self, request: web.Request) -> str:
        """Why a request is refused, if it is."""
        origin = request.headers.get("Origin")
        if request.host not in self._hosts:
            return "this server has another name"
        if (
            origin is not None
            and origin not in self._origins
            or request.headers.get("Sec-Fetch-Site") in ("cross-site", "same-site")
        ):
            return "the request is from another origin"
        token = request.path.split("/")[1].encode()
        return (
            ""
            if hmac.compare_digest(token, self._token.encode())
            else "the address has another token: the command prints the right one"
        )

    async def _file(self, request: web.Request) -> web.StreamResponse:
        file = self._files.get(request.match_info.get("file", "index.html"))
        if file is None:
            return web.Response(status=404, text="there is no such file\n", headers=self._headers)
        return web.Response(
            body=file.read_bytes(), content_type=TYPES[file.suffix], charset="utf-8", headers=self._headers
        )

    async def _link(self, request: web.Request) -> web.StreamResponse:
        # (a browser names the origin of each web socket)
        if request.headers.get("Origin") not in self._origins:
            return web.Response(status=403, text="the request is from another origin\n", headers=self._headers)
        link = web.WebSocketResponse(max_msg_size=LONGEST, heartbeat=20)
        await link.prepare(request)
        self._sockets.add(link)
        try:
            await Page(self._studio, link).serve()
        except ConnectionError as error:
            print("magbelu-studio: a page went: %s" % error, file=sys.stderr)
        return link

    async def _script(self, request: web.Request) -> web.StreamResponse:
        """The lines that make the run again, as a file to save."""
        headers = {
            **self._headers, "Content-Disposition": 'attachment; filename="script"',
            "Content-Type": "text/plain; charset=utf-8",
        }
        response = web.StreamResponse(headers=headers)
        await response.prepare(request)
        if self._studio.run.graph.text != self._studio.saved:
            await response.write(
                b"# The run is of another text than the file: save that first, for this script to make the run again.\n"
            )
        for line in lines_of(self._studio.run):
            await response.write(line.encode())
        await response.write_eof()
        return response

    async def _items(self, request: web.Request) -> web.StreamResponse:
        """The raw items of a sink that are kept, as a file to save."""
        trace = self._studio.run.traces.get(request.match_info["sink"])
        items = None if trace is None else trace.items(trace.start, trace.end)
        if items is None:
            return web.Response(status=404, text="these items are not there\n", headers=self._headers)
        headers = {**self._headers, "Content-Disposition": "attachment"}
        return web.Response(body=items.tobytes(), content_type="application/octet-stream", headers=headers)

    async def _input(self, request: web.Request) -> web.StreamResponse:
        """Takes raw items for a source."""
        if request.headers.get("Origin") not in self._origins:
            return web.Response(status=403, text="the request is from another origin\n", headers=self._headers)
        try:
            await self._studio.take_input(request.match_info["source"], request.content.iter_chunked(1 << 16))
        except (Error, OSError, ValueError) as error:
            return web.Response(status=409, text="%s\n" % error, headers=self._headers)
        return web.Response(status=204, headers=self._headers)

    async def _part(self, app: web.Application) -> None:
        for it in list(self._sockets):
            await it.close(code=WSCloseCode.GOING_AWAY, message=b"the server ends")
