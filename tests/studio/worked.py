"""How the blocks of a run work: what they take and give, their share, what limits the run, and firings of one of
them."""

from __future__ import annotations

import array
import asyncio
import pathlib
from typing import Any

from browser import PATIENCE, TOP, Server, browser, choose, click, comes_to, fill, numbers_of, text_of, until
from runs import SAW, THROUGH, folder_with
from socket_page import SocketPage, socket_page

#: A filter with much to do between blocks with little, which keeps a tenth of the items.
HEAVY = """\
block = [
    { name = "src", kind = "vector_source", type = "short" },
    { name = "add", kind = "add_const", type = "short", value = 1 },
    { name = "low", kind = "fir", type = "short", decimation = 10, shift = 3, taps = [%s] },
    { name = "out", kind = "vector_sink", type = "short" },
]
connect = [{ from = "src", to = "add" }, { from = "add", to = "low" }, { from = "low", to = "out" }]
""" % ", ".join(["1"] * 200)


def alone(table: dict[str, Any], inputs: int, outputs: int) -> str:
    """The graph of a block of shorts alone, between sources and sinks."""
    from magbelu.studio import edit

    text = edit.with_table("", "block", {**table, "name": "it"})
    for port in range(inputs):
        text = edit.with_table(text, "block", {"name": "i%d" % port, "kind": "vector_source", "type": "short"})
        text = edit.with_table(text, "connect", edit.connect_of("i%d" % port, 0, "it", port))
    for port in range(outputs):
        text = edit.with_table(text, "block", {"name": "o%d" % port, "kind": "vector_sink", "type": "short"})
        text = edit.with_table(text, "connect", edit.connect_of("it", port, "o%d" % port, 0))
    return text


def counts() -> None:
    """How many items firings took of each input and gave on each output, by the equations of the kinds."""
    import magbelu
    from magbelu.studio.profile import Counts, Profile

    # (what a block is, how often it fires, and what it took and gave then)
    cases: list[tuple[dict[str, Any], int, Counts]] = [
        ({"kind": "add_const", "value": 1}, 2, Counts([2], [2])),
        ({"kind": "fir", "taps": [1, 2, 3], "decimation": 10}, 2, Counts([20], [2])),
        ({"kind": "interp_fir", "taps": [1, 2, 3], "interpolation": 4}, 2, Counts([2], [8])),
        ({"kind": "keep_m_in_n", "m": 2, "n": 7}, 2, Counts([14], [4])),
        ({"kind": "repeat", "n": 5}, 2, Counts([2], [10])),
        ({"kind": "interleave", "ports": 3}, 2, Counts([2, 2, 2], [6])),
        ({"kind": "deinterleave", "ports": 3}, 2, Counts([6], [2, 2, 2])),
        ({"kind": "stream_mux", "lengths": [2, 5]}, 2, Counts([4, 10], [14])),
        ({"kind": "head", "n": 1}, 1, Counts([1], [1])),
        ({"kind": "skiphead", "n": 3}, 2, Counts([2], [0])),
        ({"kind": "skiphead", "n": 3}, 4, Counts([4], [1])),
        ({"kind": "delay", "n": 3}, 2, Counts([0], [2])),
        ({"kind": "delay", "n": 3}, 4, Counts([1], [4])),
    ]
    for table, firings, wanted in cases:
        with magbelu.Stream(alone({**table, "type": "short"}, len(wanted.taken), len(wanted.given))) as stream:
            for it in stream.sources:
                stream.feed(it.name, range(40))
                assert stream.step(it.name) == 40
            assert stream.step("it", firings) == firings, table
            assert Profile(stream, []).counts("it") == wanted, (table, Profile(stream, []).counts("it"))
    balanced()


def balanced() -> None:
    """In each graph file whose rates are balanced, an iteration gives each buffer as many items as it takes of it."""
    import magbelu

    count = 0
    for path in [*TOP.glob("tests/graphs/*.toml"), *TOP.glob("examples/*/*.toml")]:
        try:
            stream = magbelu.Stream(path.read_bytes())
        except magbelu.Refused:
            continue
        with stream:
            firings, each = stream.firings, {it.name: stream.rates(it.name) for it in stream.blocks}
            for it in stream.connections if firings else []:
                given = firings[it.writer] * each[it.writer].gives
                taken = firings[it.reader] * each[it.reader].takes[it.in_port]
                assert given == taken, (path, it, given, taken)
                count += 1
    assert count > 100, count


async def worked(server: Server) -> None:
    async with socket_page(server.address) as page:
        run = await page.comes_to("done")
        works = run["works"]["blocks"]
        assert abs(sum(it["share"] for it in works.values()) - 1) < 1e-9, works
        # (of each item that is fed: a tenth of them in the filter's output, but for what lay in its buffers)
        wanted: list[tuple[str, list[float], list[float]]] = [
            ("src", [], [1]), ("add", [1], [1]), ("low", [1], [0.1]), ("out", [0.1], []),
        ]
        for name, takes, gives in wanted:
            got = works[name]["takes"] + works[name]["gives"]
            assert len(got) == len(takes + gives) and all(abs(it - by) < 0.01 for it, by in zip(got, takes + gives)), (
                name,
                works[name],
            )
        fills = run["works"]["fills"]
        assert [room for _, room in fills] == [4096] * 3 and all(0 < held <= 4096 for held, _ in fills), fills
        # (200 products for each item that the filter gives, and one sum for each that it takes)
        assert run["limits"] == "low" and works["low"]["share"] > 0.5, (run["limits"], works)


def works() -> None:
    """Shares, items and buffers of a run, and which block limits it; the items are those that the equation gives,
    however the run is looked at."""
    folder, graph, items, out = folder_with(HEAVY, SAW.tobytes() * 20)
    with folder, Server("-i", "src=" + items, "-o", "out=" + out, graph) as server:
        asyncio.run(asyncio.wait_for(worked(server), PATIENCE))
        got = memoryview(pathlib.Path(out).read_bytes()).cast("h").tolist()
    assert len(got) == 20 * len(SAW) // 10
    for at in (100, 3333, len(got) - 1):
        # (an eighth of a sum of 200 steps of the saw, of which each is one more; a half is rounded up)
        total = sum((10 * at - it) % 1000 + 1 for it in range(200))
        assert got[at] == (total + 4) >> 3, (at, got[at], total)


async def firing(server: Server) -> None:
    async with socket_page(server.address) as page:

        async def fires(block: str, count: int) -> dict[str, Any]:
            return dict((await page.ask(do="fire", block=block, count=count))["answer"])

        def fired(firings: int, took: list[list[int]], gave: list[list[int]], *needs: Any) -> dict[str, Any]:
            return {"firings": firings, "took": took, "gave": gave, "needs": list(needs)}

        # (of each input and output the first item, and how many)
        assert await fires("add", 1) == fired(0, [[0, 0]], [[0, 0]], "items", 0)
        assert await fires("src", 5) == fired(5, [], [[0, 5]], "feed", None)
        assert await fires("add", 2) == fired(2, [[0, 2]], [[0, 2]], "ready", None)
        assert await fires("add", 1) == fired(1, [[2, 1]], [[2, 1]], "ready", None)
        assert await fires("out", 2) == fired(2, [[0, 2]], [], "ready", None)
        await held(page, 2)
        assert page.parts["run"]["fed"] == {"src": 5} and page.parts["run"]["state"] == "paused", page.parts["run"]
        assert (await page.ask(do="fire", block="none"))["refused"].startswith("20 NoSuchBlock none")
        for count in (0, -1, "1", True):
            assert "refused" in await page.ask(do="fire", block="add", count=count), count
        # (all that is there, and 3 items more)
        await page.ask(do="run", items=3)
        await held(page, 8)
        await page.comes_to("paused")
        assert await fires("src", 1) == fired(1, [], [[8, 1]], "feed", None)
        assert await fires("add", 9) == fired(1, [[8, 1]], [[8, 1]], "items", 0)
        await page.ask(do="run", to=90_000)
        await held(page, 90_000)
        await page.comes_to("paused")
        assert await fires("src", 1) == fired(1, [], [[90_000, 1]], "feed", None)
        await page.ask(do="run")
        await page.comes_to("done")
        assert (await page.ask(do="fire", block="add"))[
            "refused"
        ] == "a block fires by itself only while the run is paused"


async def held(page: SocketPage, count: int) -> None:
    while page.parts.get("run", {"held": {"out": -1}})["held"]["out"] < count:
        await page.take()


def fires() -> None:
    """A block of a paused run fires by itself, and the run goes on to the same items."""
    folder, graph, items, out = folder_with()
    with folder, Server("--paused", "-i", "src=" + items, "-o", "out=" + out, graph) as server:
        asyncio.run(asyncio.wait_for(firing(server), PATIENCE))
        assert pathlib.Path(out).read_bytes() == SAW.tobytes()


def firings_shown() -> None:
    """The page has the chosen block fire, and says what that took and gave."""
    folder, graph, items, _ = folder_with(THROUGH, array.array("h", [7, 8, 9]).tobytes())
    with folder, Server("--paused", "-i", "src=" + items, graph) as server, browser() as driver:
        driver.get(server.address)
        comes_to(driver, "paused")
        choose(driver, "figure[data-sink='out'] select.kind", "numbers")
        for block, count, says in (
            ("src", 2, "fired 2 times; gave items 0 to 1 of output 0"),
            ("add", 1, "fired 1 time; took item 0 of input 0; gave item 0 of output 0"),
            ("out", 5, "fired 1 time; took item 0 of input 0; it waits for items at input 0"),
            ("add", 1, "fired 1 time; took item 1 of input 0; gave item 1 of output 0; it waits for items at input 0"),
        ):
            click(driver, "#graph [data-block='%s']" % block)
            fill(driver, "#firings", str(count))
            click(driver, "#fire")
            until(says, lambda: text_of(driver, "#fired") == says)
        until("an item", lambda: numbers_of(driver, "out") == [7])
        click(driver, "#run")
        comes_to(driver, "done")
        until("all items", lambda: numbers_of(driver, "out") == [7, 8, 9])


def a_second(note: str) -> float:
    """How many items a second a note tells."""
    number, _, unit = note.partition("/s")[0].partition(" ")
    return float(number or 0) * {"": 1, "k": 1e3, "M": 1e6}[unit]


def works_shown() -> None:
    """A block shows its items a second and its share as it runs; the one that limits the run is marked, and the input
    is where the run waits for it."""
    folder, graph, _, _ = folder_with(HEAVY)
    note, mark = "#graph [data-block='%s'] .note:not(.mark)", "#graph [data-block='%s'] .mark"
    with folder, Server("-i", "src=/dev/zero", graph) as server, browser() as driver:
        driver.get(server.address)
        comes_to(driver, "running")
        until("the filter limits the run", lambda: text_of(driver, mark % "low") == "limits the run")
        assert driver.execute_script(
            "return [...document.querySelectorAll('#graph .limits')].map((it) => it.dataset.block)"
        ) == ["low"]
        until(
            "items a second, and a share",
            lambda: "/s, " in text_of(driver, note % "low") and text_of(driver, note % "low").endswith(" %"),
        )
        click(driver, "#graph [data-block='low']")
        until(
            "what it takes and gives",
            lambda: all(
                it in text_of(driver, "#works") for it in ("takes", "gives", "share of the work", "of 4,096 items")
            ),
        )
        fill(driver, "#rate", "10000")
        until("the pace limits the run", lambda: text_of(driver, mark % "src") == "limits the run")
        until("ten thousand a second", lambda: 8_000 < a_second(text_of(driver, note % "src")) < 12_000)
        click(driver, "#graph [data-block='src']")
        until("that it is the pace", lambda: text_of(driver, "#works").endswith("the pace limits the run"))
        assert driver.execute_script(
            "return [...document.querySelectorAll('#graph .limits')].map((it) => it.dataset.block)"
        ) == ["src"]


CASES = [counts, works, fires, firings_shown, works_shown]
