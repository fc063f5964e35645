"""`long_run.py SECONDS [ITEMS]` runs a graph behind a page in the browser for so long, at so many items a second, 10
million if none are said. The page shows its levels, spectrum and waterfall. Each ten seconds it says how many items
went through since, how much memory the server has, and how long a processor worked for each item; and at the end
whether the output of -o has each of them."""

from __future__ import annotations

import asyncio
import subprocess
import sys
import time
from typing import Any

from browser import PATIENCE, Server, browser, text_of, until
from runs import Compared, Feeder, folder_with, paused
from socket_page import socket_page

#: What the page shows, and how often is looked, in seconds.
SHOWN, LOOK = ("levels", "spectrum", "waterfall"), 10


async def held(server: Server) -> int:
    """How many items went through so far."""
    async with socket_page(server.address) as page:
        while "run" not in page.parts:
            await page.take()
        return int(page.parts["run"]["held"]["out"])


async def said(server: Server, what: str) -> None:
    async with socket_page(server.address) as page:
        await page.ask(do=what)


def looks(server: Server, driver: Any, seconds: float) -> list[int]:
    """Says each time how the run goes, and gives the memory that the server had."""
    found, began = [], time.monotonic()
    count, then, worked = asyncio.run(held(server)), began, server.seconds()
    while time.monotonic() - began < seconds:
        time.sleep(LOOK)
        more, now, work = asyncio.run(held(server)), time.monotonic(), server.seconds()
        found.append(server.memory())
        says = "%5.0f s: %5.2f million items a second, %d MiB, %.0f ns an item; %s, %s"
        print(
            says
            % (
                now - began, (more - count) / (now - then) / 1e6, found[-1] >> 10,
                (work - worked) / (more - count) * 1e9, text_of(driver, ".told"), text_of(driver, ".missed"),
            ),
            flush=True,
        )
        count, then, worked = more, now, work
    return found


def long_run(seconds: float, items: int) -> None:
    folder, graph, _, _ = folder_with()
    words = [it for view in SHOWN for it in ("-w", "out=" + view)]
    with folder, browser() as driver, Server(
        "-i", "src=-", "-o", "out=-", "--rate", str(items), *words, graph, stdin=subprocess.PIPE
    ) as server:
        output = Compared(server)
        for it in (Feeder(server), output):
            it.start()
        driver.get(server.address)
        until("the plots", lambda: text_of(driver, ".told").startswith("items "))
        began = time.monotonic()
        found = looks(server, driver, seconds)
        asyncio.run(said(server, "pause"))
        asyncio.run(asyncio.wait_for(paused(server), PATIENCE))
        count, took = asyncio.run(held(server)), time.monotonic() - began
        assert server.end() == 0
        output.join(PATIENCE)
    print(
        "%d items in some %.0f seconds, %d bytes of -o, of which %d are right; memory from %d to %d KiB"
        % (count, took, output.bytes, output.right, min(found), max(found))
    )
    assert output.bytes == output.right == 2 * count
    assert max(found[len(found) // 4 :]) < found[len(found) // 4] + 4096, found


if __name__ == "__main__":
    long_run(float(sys.argv[1]), int(sys.argv[2]) if len(sys.argv) > 2 else 10_000_000)
