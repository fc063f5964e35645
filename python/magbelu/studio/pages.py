"""A page that is open: what it asks for, and what it is told."""

from __future__ import annotations

import asyncio
import json
import time
from typing import Any

from aiohttp import WSMsgType, web

from .._errors import Error
from .._kinds import KIND_ROWS
from .run import Run
from .studio import Studio, Wrong
from .views import BadView, View

#: How long lies between two frames, and between two looks at how far the run is, in seconds.
FRAME, TELL = 1 / 30, 0.2
# How many views a page has at most.
MOST_VIEWS = 64


class Page:
    """A page, behind its web socket. A frame of a view is sent once the page has taken the one before, so that a slow
    page gets fewer, and waits for nothing."""

    def __init__(self, studio: Studio, socket: web.WebSocketResponse) -> None:
        self._studio, self._socket = studio, socket
        self._views: dict[str, View] = {}
        # The views whose last frame the page has taken, and what each showed then.
        self._free: set[str] = set()
        self._sent: dict[str, Any] = {}
        self._told: Any = None
        self._number, self._logged = 0, 0

    async def serve(self) -> None:
        """Serves the page until it goes."""
        tasks = [asyncio.ensure_future(it) for it in (self._tell(), self._send_frames())]
        try:
            async for message in self._socket:
                if message.type == WSMsgType.TEXT:
                    await self._take(message.data)
        finally:
            for it in tasks:
                it.cancel()
            await asyncio.gather(*tasks, return_exceptions=True)

    async def _take(self, data: str) -> None:
        """Does what the page asks for in a message."""
        try:
            asked = json.loads(data)
            if not isinstance(asked, dict):
                raise Wrong("a message is an object")
        except ValueError as error:
            await self._reply(None, {"refused": str(error)})
            return
        try:
            told = None
            if asked.get("do") in ("view", "close", "taken"):
                self._look(asked)
            else:
                told = await self._studio.ask(asked)
        except (Wrong, BadView, Error, OSError, TypeError, ValueError) as error:
            await self._reply(asked.get("id"), {"refused": str(error)})
            return
        if asked.get("id") is not None:
            await self._reply(asked["id"], {"answer": told})

    async def _reply(self, number: Any, told: dict[str, Any]) -> None:
        await self._socket.send_str(json.dumps({"reply": number, **told}))

    def _look(self, asked: dict[str, Any]) -> None:
        """Opens, alters or closes a view, or takes note that its frame has come."""
        name = str(asked.get("view"))
        if asked["do"] == "taken":
            if name in self._views:
                self._free.add(name)
        elif asked["do"] == "close":
            self._views.pop(name, None)
            self._free.discard(name)
        elif name in self._views:
            before, view = self._views[name], View.of(asked)
            view.shown, view.missed = before.shown, before.missed
            self._views[name] = view
            self._sent.pop(name, None)
        elif len(self._views) < MOST_VIEWS:
            self._views[name] = View.of(asked)
            self._free.add(name)
        else:
            raise BadView("a page has %d views at most" % MOST_VIEWS)

    async def _tell(self) -> None:
        """Tells which kinds there are and what graph it is, and time after time how far the run is."""
        await self._socket.send_str(json.dumps({"kinds": [it._asdict() for it in KIND_ROWS.values()]}))
        while True:
            run = self._studio.run
            if run.number != self._number:
                await self._socket.send_str(json.dumps(self._of_run(run)))
                self._number, self._told, self._logged = run.number, None, 0
                for it in self._views.values():
                    it.shown, it.missed = None, 0
            made = run.log[self._logged :]
            if made:
                self._logged += len(made)
                await self._socket.send_str(json.dumps({"log": made}))
            shown = run.shown()
            if shown != self._told:
                self._told = shown
                await self._socket.send_str(json.dumps({"run": {**shown, "time": time.monotonic()}}))
            await asyncio.sleep(TELL)

    def _of_run(self, run: Run) -> dict[str, Any]:
        """What of a run stays as it is."""
        return {
            "path": str(self._studio.path), "saved": self._studio.saved, "views": self._studio.views,
            "graph": run.graph.shown(),
        }

    async def _send_frames(self) -> None:
        """Sends a frame of each view that has something new, and whose last frame the page has taken."""
        loop = asyncio.get_running_loop()
        while True:
            began = loop.time()
            for name in list(self._free):
                view, shown = self._views.get(name), self._shown(name)
                if view is None or shown is None or shown == self._sent.get(name):
                    continue
                data = await loop.run_in_executor(None, view.frame, name, self._studio.run.traces)
                # (meanwhile the page may have asked for another one)
                if data is not None and self._views.get(name) is view:
                    self._sent[name] = shown
                    self._free.discard(name)
                    await self._socket.send_bytes(data)
            await asyncio.sleep(max(FRAME - (loop.time() - began), FRAME / 4))

    def _shown(self, name: str) -> Any:
        """What a view would show now: it is another where a frame has something new. A run shows nothing before the
        page is told of its graph."""
        view, run = self._views.get(name), self._studio.run
        if run.number != self._number:
            return None
        traces = [run.traces.get(it) for it in (view.sink, view.other) if it is not None] if view is not None else []
        if view is None or None in traces:
            return None
        return (
            run.number, view.start,
            [(it.end, it.start if view.start is not None else 0) for it in traces if it is not None],
        )
