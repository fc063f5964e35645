"""What a page is sent where something else happens meanwhile, without a server."""

from __future__ import annotations

import array
import asyncio
import json
import struct
import threading
import types
from typing import Any, Optional

from magbelu.studio.pages import Page
from magbelu.studio.trace import PIECE, Trace

from browser import PATIENCE

# A view of the last items of a sink.
VIEW = {"do": "view", "view": "a", "sink": "out", "width": 16, "span": 16}


class Socket:
    """Takes what a page is sent: it notes the parts of each message, and of each frame from which item to which it
    goes."""

    def __init__(self) -> None:
        self.page: Any = None
        self.came: list[Any] = []

    async def send_str(self, text: str) -> None:
        self.came += json.loads(text)

    async def send_bytes(self, data: bytes) -> None:
        (length,) = struct.unpack_from("<I", data)
        head = json.loads(data[4 : 4 + length])
        self.came.append((head["start"], head["end"]))
        self.page._look({"do": "taken", "view": head["view"]})

    async def gets(self, what: Any) -> None:
        """Waits until this has come."""
        while what not in self.came:
            await asyncio.sleep(0.001)


class SlowTrace(Trace):
    """A trace that gives its items once they may come."""

    def __init__(self) -> None:
        super().__init__(2, 4 * PIECE)
        self.asked, self.may = threading.Event(), threading.Event()

    def items(self, start: int, end: int) -> Optional[array.array[int]]:
        self.asked.set()
        self.may.wait(PATIENCE)
        return super().items(start, end)


def run_of(number: int, trace: Trace, count: int) -> Any:
    """A run whose sink has taken so many items."""
    trace.take(count, [])
    return types.SimpleNamespace(number=number, log=[], graph=types.SimpleNamespace(shown=dict),
        traces={"out": trace}, shown=dict)


def page_of(run: Any) -> tuple[Page, Socket, Any, list[Any]]:
    """A page with a view, what takes what it is sent, what has its run, and the tasks that send it."""
    studio, socket = types.SimpleNamespace(run=run, path="", saved="", views=[]), Socket()
    page = socket.page = Page(studio, socket)  # type: ignore[arg-type]
    page._look(VIEW)
    return page, socket, studio, [asyncio.ensure_future(it) for it in (page._tell(), page._send_frames())]


async def beginning_anew() -> None:
    _, socket, studio, tasks = page_of(run_of(1, Trace(2, 4 * PIECE), 100))
    await socket.gets((84, 100))
    for number in range(2, 12):
        socket.came.clear()
        studio.run = run_of(number, Trace(2, 4 * PIECE), number)
        await socket.gets((0, number))
        # (what a page does where a graph comes undoes what was done at a frame before it)
        assert "graph" in socket.came[: socket.came.index((0, number))], socket.came
    for it in tasks:
        it.cancel()


def graph_before_frames() -> None:
    """A page is told of the graph of a new run before it gets a frame of it."""
    asyncio.run(asyncio.wait_for(beginning_anew(), PATIENCE))


async def asking_meanwhile() -> None:
    trace = SlowTrace()
    page, socket, _, tasks = page_of(run_of(1, trace, 100))
    await asyncio.get_running_loop().run_in_executor(None, trace.asked.wait, PATIENCE)
    page._look({**VIEW, "span": 8})
    trace.may.set()
    await socket.gets((92, 100))
    for it in tasks:
        it.cancel()


def asked_meanwhile() -> None:
    """A view that is asked for while a frame of the one before it is made gets its own frame, also where the run is
    over."""
    asyncio.run(asyncio.wait_for(asking_meanwhile(), PATIENCE))


CASES = [graph_before_frames, asked_meanwhile]
