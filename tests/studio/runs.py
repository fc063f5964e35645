"""What comes of runs, as a page without a browser sees it."""

from __future__ import annotations

import array
import asyncio
import contextlib
import os
import pathlib
import random
import subprocess
import tempfile
import threading
import time
from typing import Any

from browser import PATIENCE, Server
from socket_page import socket_page

#: Shorts that go through as they are.
THROUGH = """\
block = [
    { name = "src", kind = "vector_source", type = "short" },
    { name = "add", kind = "add_const", type = "short", value = 0 },
    { name = "out", kind = "vector_sink", type = "short" },
]
connect = [{ from = "src", to = "add" }, { from = "add", to = "out" }]
"""
# A saw of 1,000 steps.
SAW = array.array("h", [it % 1000 for it in range(100_000)])


def folder_with(text: str = THROUGH, items: bytes = SAW.tobytes()) -> tuple[Any, str, str, str]:
    """A folder with a graph, an input, and the place of an output."""
    folder = tempfile.TemporaryDirectory()
    at = pathlib.Path(folder.name)
    (at / "graph.toml").write_text(text)
    (at / "in").write_bytes(items)
    return folder, str(at / "graph.toml"), str(at / "in"), str(at / "out")


async def columns_of_saw(server: Server) -> None:
    async with socket_page(server.address) as page:
        await page.comes_to("done")
        await page.say(do="view", view="a", sink="out", span=65536, width=64, start=1024)
        head, numbers = await page.frame("a", len(SAW))
        # (each column has 1,024 items, and so all steps of the saw)
        assert (head["first"], head["step"], head["start"], head["end"]) == (1024, 1024, 1024, 1024 + 65536), head
        assert numbers == [0] * 64 + [999] * 64
        await page.say(do="view", view="a", sink="out", span=2560, width=10, start=512)
        head, numbers = await page.frame("a", len(SAW))
        # (256 items in each: 512 to 767, 768 to 999 and 0 to 23, 24 to 279 ..)
        assert (head["first"], head["step"]) == (512, 256), head
        assert numbers[:3] == [512, 0, 24] and numbers[10:13] == [767, 999, 279], numbers
        await page.say(do="view", view="a", sink="out", span=5, width=10, start=998)
        head, numbers = await page.frame("a", len(SAW))
        assert (head["first"], numbers) == (998, [998, 999, 0, 1, 2]), (head, numbers)


def columns() -> None:
    """The least and the greatest of each column, counted by hand."""
    folder, graph, items, _ = folder_with()
    with folder, Server("-i", "src=" + items, graph) as server:
        asyncio.run(columns_of_saw(server))


async def slow(server: Server, count: int) -> None:
    async with socket_page(server.address) as page:
        await page.say(do="view", view="a", sink="out", span=4096, width=100)
        await page.ask(do="run")
        await page.comes_to("done")
        # (it never said that it had taken the first)
        assert len(page.frames.get("a", [])) == 1, len(page.frames.get("a", []))
        first = page.frames["a"][0][0]
        head, _ = await page.frame("a", count)
        assert head["missed"] == count - 4096 - first["end"] and head["missed"] > 0, (head["missed"], first["end"])


def slow_page() -> None:
    """The stream does not wait for a page that takes no frames, and what that page missed is counted."""
    count = 20_000_000
    folder, graph, items, out = folder_with(items=array.array("h", range(1000)).tobytes() * (count // 1000))
    with folder, Server("--paused", "-i", "src=" + items, "-o", "out=" + out, graph) as server:
        asyncio.run(asyncio.wait_for(slow(server, count), PATIENCE))
        assert pathlib.Path(out).read_bytes() == pathlib.Path(items).read_bytes()


async def fed_by_hand(server: Server) -> None:
    assert server.process.stdin is not None and server.process.stdout is not None
    async with socket_page(server.address) as page:
        await page.say(do="view", view="a", sink="out", span=64, width=100)
        # (the second item comes in two parts)
        for data, held in ((b"\1\0\2", 1), (b"\0\3\0", 3)):
            server.process.stdin.write(data)
            server.process.stdin.flush()
            head, numbers = await page.frame("a", held)
            assert numbers == [1, 2, 3][:held], numbers
            assert head["held"] == held
        assert (await page.ask(do="again"))["refused"] == "a run that is fed by a pipe cannot begin anew"
        await page.ask(do="pause")
        await page.comes_to("paused")
        server.process.stdin.write(b"\4\0")
        server.process.stdin.flush()
        await asyncio.sleep(0.5)
        assert page.parts["run"]["held"] == {"out": 3}, page.parts["run"]
        await page.ask(do="run")
        server.process.stdin.close()
        run = await page.comes_to("done")
        assert run["held"] == {"out": 4} and run["fed"] == {"src": 4}, run


def pipes() -> None:
    """Items come through standard input as they come, and go to standard output."""
    folder, graph, _, _ = folder_with()
    with folder, Server("-i", "src=-", "-o", "out=-", graph, stdin=subprocess.PIPE) as server:
        asyncio.run(asyncio.wait_for(fed_by_hand(server), PATIENCE))
        assert server.end() == 0
        assert server.process.stdout is not None and server.process.stdout.read() == b"\1\0\2\0\3\0\4\0"


async def cut(server: Server) -> None:
    async with socket_page(server.address) as page:
        run = await page.comes_to("failed")
        assert run["fault"].endswith("in ends within an item of src, which has 2 bytes"), run
        assert run["held"] == {"out": 2}, run


def cut_item() -> None:
    """An input that ends within an item fails the run, behind all items that are whole."""
    folder, graph, items, out = folder_with(items=b"\1\0\2\0\3")
    with folder, Server("-i", "src=" + items, "-o", "out=" + out, graph) as server:
        asyncio.run(cut(server))
        assert server.end() == 4
        assert pathlib.Path(out).read_bytes() == b"\1\0\2\0"


async def stepping(server: Server) -> None:
    async with socket_page(server.address) as page:
        for key, number, held in (("items", 5, 5), ("items", 1, 6), ("to", 700, 700), ("to", 3, 700)):
            await page.ask(do="run", **{key: number})
            run = await page.comes_to("paused")
            while run["held"]["out"] < held:
                await page.take()
                run = page.parts["run"]
            assert run["held"] == {"out": held} and run["fed"] == {"src": held}, run
        await page.ask(do="rate", rate=10_000)
        began = asyncio.get_running_loop().time()
        await page.ask(do="run", items=10_000)
        while page.parts["run"]["held"]["out"] < 10_700:
            await page.take()
        seconds = asyncio.get_running_loop().time() - began
        assert 0.9 < seconds < 3, seconds
        await page.ask(do="again")
        while page.parts["run"]["number"] < 2:
            await page.take()
        assert page.parts["run"]["held"] == {"out": 0} and page.parts["run"]["rate"] == 10_000, page.parts["run"]
        wrong: list[tuple[str, Any]] = [("items", 0), ("items", True), ("to", -1), ("items", "5")]
        for key, value in wrong:
            assert "refused" in await page.ask(do="run", **{key: value}), (key, value)
        assert "refused" in await page.ask(do="__init__") and "refused" in await page.ask(
            do="view", view="a", sink="out", span=0, width=3
        )


def steps() -> None:
    """A run goes on by so many items, up to one, at a rate, and from the beginning."""
    folder, graph, items, out = folder_with()
    with folder, Server("--paused", "-i", "src=" + items, "-o", "out=" + out, graph) as server:
        asyncio.run(asyncio.wait_for(stepping(server), PATIENCE))
        assert (
            pathlib.Path(out).read_bytes() == SAW[:10_700].tobytes()
        ), "what the first run wrote is not there any more"
        assert pathlib.Path(out + ".2").read_bytes() == b""


async def coming_and_going(server: Server) -> None:
    async with socket_page(server.address) as first:
        await first.ask(do="run", to=500)
        await first.say(do="view", view="a", sink="out", span=1000, width=50)
    async with socket_page(server.address) as second, socket_page(server.address) as third:
        for page in (second, third):
            run = await page.comes_to("paused")
            while run["held"]["out"] < 500:
                await page.take()
                run = page.parts["run"]
            assert run["held"] == {"out": 500}, run
        await second.ask(do="run", items=7)
        for page in (second, third):
            while page.parts["run"]["held"]["out"] < 507:
                await page.take()
            await page.say(do="view", view="a", sink="out", span=7, width=50)
            head, numbers = await page.frame("a", 507)
            assert numbers == [500, 501, 502, 503, 504, 505, 506], numbers


def pages_come_and_go() -> None:
    """A page that is closed and opened again finds the run as it is, and two pages see one run."""
    folder, graph, items, _ = folder_with()
    with folder, Server("--paused", "-i", "src=" + items, graph) as server:
        asyncio.run(asyncio.wait_for(coming_and_going(server), PATIENCE))


async def until_held(server: Server, count: int) -> None:
    async with socket_page(server.address) as page:
        while page.parts.get("run", {"held": {"out": 0}})["held"]["out"] < count:
            await page.take()


def ended() -> None:
    """A command that is ended in the midst of a run has written all that a page has seen, and a beginning of the
    whole."""
    folder, graph, items, out = folder_with()
    with folder, Server("-i", "src=" + items, "-o", "out=" + out, "--rate", "5000", graph) as server:
        asyncio.run(asyncio.wait_for(until_held(server, 3000), PATIENCE))
        assert server.end() == 0
        data = pathlib.Path(out).read_bytes()
        assert 6000 <= len(data) < 200_000 and SAW.tobytes().startswith(data), len(data)


async def counted(server: Server, seconds: float) -> int:
    async with socket_page(server.address) as page:
        await page.say(do="view", view="a", sink="out", span=1000, width=100)
        loop, count = asyncio.get_running_loop(), 0
        began = loop.time()
        while loop.time() - began < seconds:
            await page.frame("a", 0)
            count += 1
        return count


def frames_a_second() -> None:
    """A page that takes each frame at once gets at most 30 a second."""
    folder, graph, _, _ = folder_with()
    with folder, Server("-i", "src=/dev/zero", "--rate", "1000000", graph) as server:
        count = asyncio.run(counted(server, 3))
        assert 3 < count <= 93, count


async def watched(server: Server, items: int) -> list[int]:
    async with socket_page(server.address) as page:
        await page.say(do="view", view="a", sink="out", span=1 << 20, width=1000)
        began, found = asyncio.get_running_loop().time(), []
        for part in range(1, 11):
            await page.frame("a", items * part // 10)
            found.append(server.memory())
        print("%.1f million items a second" % (items / (asyncio.get_running_loop().time() - began) / 1e6), found)
        return found


# As many random shorts as a prime says, so that in a stream that has them again and again no piece is like the next
# ones.
PRIME = random.Random(1).randbytes(2 * 999_983)
TWICE = 2 * PRIME


def repeated(start: int, count: int) -> bytes:
    """So many of the bytes of this stream, from one on, and no more than it repeats."""
    start %= len(PRIME)
    return TWICE[start : start + count]


class Feeder(threading.Thread):
    """Writes this stream to the standard input of a server, until that goes."""

    def __init__(self, server: Server) -> None:
        super().__init__(daemon=True)
        assert server.process.stdin is not None
        self._to = server.process.stdin

    def run(self) -> None:
        data = memoryview(PRIME)
        with contextlib.suppress(OSError):
            while True:
                data = data[os.write(self._to.fileno(), data) :] or memoryview(PRIME)


class Compared(threading.Thread):
    """Takes what a server writes to standard output, counts its bytes, and how many of them are this stream up to the
    first that is not."""

    def __init__(self, server: Server) -> None:
        super().__init__(daemon=True)
        assert server.process.stdout is not None
        self._from, self.bytes, self.right = server.process.stdout, 0, 0

    def run(self) -> None:
        while True:
            data = self._from.read1(1 << 20)  # type: ignore[attr-defined]
            if not data:
                return
            if self.right == self.bytes and data == repeated(self.bytes, len(data)):
                self.right += len(data)
            self.bytes += len(data)


def memory() -> None:
    """At 10 million items a second, or as many as this machine gives, of which a page sees each million, the memory
    stays as it is, and an output gets them all."""
    items = int(os.environ.get("STUDIO_ITEMS", "100_000_000"))
    folder, graph, _, _ = folder_with()
    with folder, Server(
        "--paused", "-i", "src=-", "-o", "out=-", "--rate", "10000000", graph, stdin=subprocess.PIPE
    ) as server:
        output = Compared(server)
        for it in (Feeder(server), output):
            it.start()
        asyncio.run(asked(server, do="run", to=items))
        found = asyncio.run(watched(server, items))
        asyncio.run(asyncio.wait_for(paused(server), PATIENCE))
        assert max(found[3:]) < found[2] + 4096, found
        assert server.end() == 0
        output.join(PATIENCE)
        assert output.bytes == output.right == 2 * items, (output.bytes, output.right)


async def asked(server: Server, **what: Any) -> None:
    async with socket_page(server.address) as page:
        assert "answer" in await page.ask(**what)


async def paused(server: Server) -> None:
    async with socket_page(server.address) as page:
        await page.comes_to("paused")


async def ran(server: Server, takes_none: bool) -> tuple[int, float]:
    """How many items went through while four seconds went by, and how long a processor worked for them; behind a page
    that takes no frames, or none."""
    async with socket_page(server.address) as page:
        if takes_none:
            await page.say(do="view", view="a", sink="out", span=4096, width=100)
        await page.ask(do="run")
        began, seconds, first = time.monotonic(), server.seconds(), -1
        while first < 0 or time.monotonic() - began < 4:
            await page.take()
            held = page.parts["run"]["held"]["out"] if "run" in page.parts else -1
            first = held if first < 0 else first
        await page.ask(do="pause")
        run = await page.comes_to("paused")
        print(
            "%.0f million items a second" % ((run["held"]["out"] - first) / (time.monotonic() - began) / 1e6),
            "behind a page that takes no frames" * takes_none,
        )
        return run["held"]["out"] - first, server.seconds() - seconds


def fast() -> None:
    """A stream as fast as this machine gives it costs no more behind a page that takes no frames than behind none."""
    folder, graph, _, _ = folder_with(THROUGH.replace("short", "byte"))
    with folder:
        for _ in range(3):
            rates = []
            for takes_none in (False, True):
                with Server("--paused", "-i", "src=/dev/zero", graph) as server:
                    count, seconds = asyncio.run(ran(server, takes_none))
                    rates.append(count / seconds)
            if rates[1] > 0.7 * rates[0]:
                return
        raise AssertionError("items for a second of a processor without a page, and with one: %r" % rates)


CASES = [columns, slow_page, pipes, cut_item, steps, pages_come_and_go, ended, frames_a_second, memory, fast]
