"""A page without a browser: what comes through the web socket."""

from __future__ import annotations

import asyncio
import contextlib
import json
import struct
from typing import Any, AsyncIterator

import aiohttp

from browser import PATIENCE


class SocketPage:
    """A web socket of a server. It takes frames only where it is told to."""

    def __init__(self, link: aiohttp.ClientWebSocketResponse) -> None:
        self.link = link
        self.asked = 0
        #: What came last of each part, and of each view the frames.
        self.parts: dict[Any, Any] = {}
        self.frames: dict[str, list[tuple[dict[str, Any], list[int]]]] = {}

    async def say(self, **what: Any) -> None:
        await self.link.send_str(json.dumps(what))

    async def take(self) -> None:
        """Takes in the next message."""
        message = await asyncio.wait_for(self.link.receive(), PATIENCE)
        if message.type == aiohttp.WSMsgType.BINARY:
            (length,) = struct.unpack_from("<I", message.data)
            head = json.loads(message.data[4 : 4 + length])
            count = (len(message.data) - 4 - length) // 4
            self.frames.setdefault(head["view"], []).append(
                (head, list(struct.unpack_from("<%di" % count, message.data, 4 + length)))
            )
        elif message.type == aiohttp.WSMsgType.TEXT:
            told = json.loads(message.data)
            self.parts.update({("reply", told["reply"]): told} if "reply" in told else told)
        else:
            raise AssertionError("the link ended: %r" % (message,))

    async def ask(self, **what: Any) -> dict[str, Any]:
        """Asks, and waits for the answer."""
        self.asked += 1
        await self.say(id=self.asked, **what)
        while ("reply", self.asked) not in self.parts:
            await self.take()
        reply: dict[str, Any] = self.parts.pop(("reply", self.asked))
        return reply

    async def comes_to(self, state: str) -> dict[str, Any]:
        while self.parts.get("run", {}).get("state") != state:
            await self.take()
        run: dict[str, Any] = self.parts["run"]
        return run

    async def frame(self, view: str, held: int) -> tuple[dict[str, Any], list[int]]:
        """The frame of a view that tells of so many items, with all before it taken."""
        while True:
            frames = self.frames.pop(view, [])
            if frames:
                await self.say(do="taken", view=view)
                if frames[-1][0]["held"] >= held:
                    return frames[-1]
            await self.take()


@contextlib.asynccontextmanager
async def socket_page(address: str) -> AsyncIterator[SocketPage]:
    origin = "/".join(address.split("/")[:3])
    async with aiohttp.ClientSession() as session:
        async with session.ws_connect(address + "link", headers={"Origin": origin}, max_msg_size=0) as link:
            yield SocketPage(link)
