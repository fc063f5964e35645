"""Settings: what the page sets, from which item on, and the script that makes the run again."""

from __future__ import annotations

import asyncio
import pathlib
import time
import urllib.request
from typing import Any

import magbelu

from browser import PATIENCE, Server, browser, choose, click, comes_to, fill, text_of, until
from runs import SAW, THROUGH, folder_with
from socket_page import socket_page

FILTER = """\
block = [
    { name = "src", kind = "vector_source", type = "short" },
    { name = "low", kind = "fir", type = "short", taps = [1, 2, 3], shift = 1 },
    { name = "off", kind = "mute", type = "short", on = 0 },
    { name = "out", kind = "vector_sink", type = "short" },
    { name = "raw", kind = "vector_sink", type = "short" },
]
connect = [{ from = "src", to = "low" }, { from = "low", to = "off" }, { from = "off", to = "out" }, { from = "src", to = "raw" }]
"""


async def set_at_items(server: Server) -> None:
    async with socket_page(server.address) as page:
        assert (await page.ask(do="set", block="add", value=5, at=100))["answer"] == 100
        await page.ask(do="run", to=1000)
        await page.comes_to("paused")
        while page.parts["run"]["held"]["out"] < 1000:
            await page.take()
        assert (await page.ask(do="set", block="add", value=7))["answer"] == 1000
        assert (await page.ask(do="set", block="add", value=9, at=2000))["answer"] == 2000
        late = (await page.ask(do="set", block="add", value=1, at=999))["refused"]
        assert late.startswith("27 Late add") and late.endswith("which is 1000"), late
        for block, value, number in (("add", 40000, "29"), ("src", 1, "28"), ("none", 1, "20"), ("add", [1, 2], "29")):
            refused = (await page.ask(do="set", block=block, value=value))["refused"]
            assert refused.startswith(number + " "), refused
        for value in (1.5, "1", None, True, [1, "2"]):
            assert "refused" in await page.ask(do="set", block="add", value=value), value
        await page.ask(do="run")
        await page.comes_to("done")
        async with socket_page(server.address) as other:
            while "log" not in other.parts:
                await other.take()
            assert other.parts["log"] == [["add", 5, 100], ["add", 7, 1000], ["add", 9, 2000]], other.parts["log"]


def script() -> None:
    """A script makes the run again, item for item, and both are what the settings say."""
    folder, graph, items, out = folder_with()
    wanted = [it + (0 if at < 100 else 5 if at < 1000 else 7 if at < 2000 else 9) for at, it in enumerate(SAW)]
    with folder, Server("--paused", "-i", "src=" + items, "-o", "out=" + out, graph) as server:
        asyncio.run(asyncio.wait_for(set_at_items(server), PATIENCE))
        lines = urllib.request.urlopen(server.address + "script").read().decode()
        assert memoryview(pathlib.Path(out).read_bytes()).cast("h").tolist() == wanted
    replies = magbelu.script(THROUGH, lines).splitlines()
    assert replies[:3] == ["taken 100", "taken 1000", "taken 2000"] and "settled done" in replies, replies[:3]
    assert replies[-1].split() == ["read", str(len(wanted)), *map(str, wanted)]


async def two_sinks(server: Server) -> None:
    async with socket_page(server.address) as page:
        await page.comes_to("done")
        await page.say(do="view", view="a", sink="raw", other="out", span=5, width=10, start=2)
        head, numbers = await page.frame("a", 0)
        # (1 x[n] + 2 x[n-1] + 3 x[n-2], halved, and a half is rounded up: of 2, 3 .. 6 the raw items, then 2, 5, 8 ..)
        assert (head["first"], numbers) == (2, [2, 3, 4, 5, 6, 2, 5, 8, 11, 14]), (head, numbers)
        assert (await page.ask(do="view", view="b", sink="raw", other=7, span=5, width=10))[
            "refused"
        ] == "key and other are texts"


def items_over_items() -> None:
    """A frame of two sinks has the items of both, of the same numbers."""
    folder, graph, items, _ = folder_with(FILTER)
    with folder, Server("-i", "src=" + items, graph) as server:
        asyncio.run(asyncio.wait_for(two_sinks(server), PATIENCE))


async def triggered(server: Server) -> None:
    async with socket_page(server.address) as page:
        await page.comes_to("done")
        for key, offset in (("a", 600), ("b", 300), ("none", None)):
            await page.say(do="view", view=key, sink="out", span=400, width=1000, key=key)
            head, _ = await page.frame(key, 1000)
            # (a tag stands a quarter behind the left side; without one the last items are shown)
            assert head["start"] == (600 if offset is None else offset - 100), head
            assert head["keys"] == ["a", "b"] and [it for it in head["tags"] if it[0] == offset] == (
                [[offset, key, "7", 0]] if offset else []
            ), head


def trigger() -> None:
    tags = ", ".join(
        '{ at = %d, key = "%s", value = 7 }' % it for it in ((100, "a"), (300, "b"), (600, "a"), (800, "a"))
    )
    text = THROUGH + '[[feed]]\nsource = "src"\nitems = [%s]\ntags = [%s]\n' % (", ".join(["0"] * 1000), tags)
    folder, graph, _, _ = folder_with(text)
    with folder, Server(graph) as server:
        asyncio.run(asyncio.wait_for(triggered(server), PATIENCE))


def dragged() -> None:
    """A slider that is dragged over 1,000 numbers sets the last of them, and the log, the field and another page say
    so."""
    folder, graph, _, _ = folder_with()
    drag = """
        const [slider, done] = [document.querySelector(".setting[data-block=add] input[type=range]"), arguments[0]];
        (async () => {
            for (let it = 1; it <= 1000; it++) {
                slider.value = it;
                slider.dispatchEvent(new Event("input"));
                // (several come between two frames)
                if (it % 8 === 0) await new Promise((next) => setTimeout(next, 0));
            }
            done();
        })();
    """
    with folder, Server("-i", "src=/dev/zero", "--rate", "1000000", graph) as server, browser() as driver:
        driver.set_script_timeout(PATIENCE)
        driver.get(server.address)
        comes_to(driver, "running")
        driver.execute_async_script(drag)
        until("the last setting", lambda: text_of(driver, "#log li").startswith("add 1,000 from item "))
        assert (
            driver.execute_script("return document.querySelector('.setting[data-block=add] input[type=number]').value")
            == "1000"
        )
        count = driver.execute_script("return document.querySelectorAll('#log li').length")
        assert 2 <= count <= 200, count
        driver.get(server.address)
        until("the log is there again", lambda: text_of(driver, "#log li").startswith("add 1,000 from item "))
        until(
            "the slider has its place",
            lambda: driver.execute_script("return document.querySelector('.setting input[type=range]').value")
            == "1000",
        )


async def logged_settings(server: Server) -> list[Any]:
    async with socket_page(server.address) as page:
        while "log" not in page.parts:
            await page.take()
        return list(page.parts["log"])


def thousand() -> None:
    """A slider that is dragged so that each of 1,000 numbers is set, while the run goes on, makes 1,000 settings: the
    output has each from its item on, and so has the script."""
    drag = """
        const row = document.querySelector(".setting[data-block=add]"), done = arguments[0];
        const slider = row.querySelector("input[type=range]"), answer = row.querySelector("output");
        (async () => {
            for (let it = 1; it <= 1000; it++) {
                answer.textContent = "";
                slider.value = it;
                slider.dispatchEvent(new Event("input"));
                while (!answer.textContent) await new Promise((next) => setTimeout(next, 0));
            }
            done();
        })();
    """
    folder, graph, items, out = folder_with(items=SAW.tobytes() * 10)
    with folder, Server(
        "-i", "src=" + items, "-o", "out=" + out, "--rate", "10000", graph
    ) as server, browser() as driver:
        driver.set_script_timeout(2 * PATIENCE)
        driver.get(server.address)
        comes_to(driver, "running")
        driver.execute_async_script(drag)
        fill(driver, "#rate", "")
        comes_to(driver, "done")
        made = asyncio.run(asyncio.wait_for(logged_settings(server), PATIENCE))
        assert [(block, value) for block, value, _ in made] == [("add", it) for it in range(1, 1001)], len(made)
        lines = urllib.request.urlopen(server.address + "script").read().decode()
        got = memoryview(pathlib.Path(out).read_bytes()).cast("h").tolist()
    places = [at for _, _, at in made] + [10 * len(SAW)]
    assert places == sorted(places) and places[0] < places[-2] < places[-1], (places[0], places[-2])
    wanted = [SAW[at % len(SAW)] for at in range(places[0])]
    for value, (start, end) in enumerate(zip(places, places[1:]), 1):
        wanted += [SAW[at % len(SAW)] + value for at in range(start, end)]
    assert got == wanted
    replies = magbelu.script(THROUGH, lines).splitlines()
    assert replies[:1000] == ["taken %d" % it for it in places[:-1]]
    assert replies[-1].split() == ["read", str(len(wanted)), *map(str, wanted)]


def taps() -> None:
    """Taps are read as they are typed, set at an item, and alter the output from there."""
    folder, graph, items, out = folder_with(FILTER)
    row = ".setting[data-block='low'] "
    with folder, Server("--paused", "-i", "src=" + items, "-o", "out=" + out, graph) as server, browser() as driver:
        driver.get(server.address)
        comes_to(driver, "paused")
        for typed, told in (
            ("1 2", "there are 2 numbers: this filter has 3 taps"),
            ("1 2 x", "x is no whole number from -32,768 to 32,767"),
            ("1 2 40000", "40000 is no whole number from -32,768 to 32,767"),
        ):
            fill(driver, row + "textarea", typed)
            assert text_of(driver, row + "output") == told, text_of(driver, row + "output")
        fill(driver, "#at", "50,000")
        fill(driver, row + "textarea", "2 0 0")
        click(driver, row + "button")
        until("the answer", lambda: text_of(driver, row + "output") == "from item 50,000 on")
        fill(driver, ".setting[data-block='off'] input[type=number]", "7")
        assert text_of(driver, ".setting[data-block='off'] output") == "a whole number from 0 to 1"
        fill(driver, "#at", "60000")
        fill(driver, ".setting[data-block='off'] input[type=number]", "1")
        until("the answer", lambda: text_of(driver, ".setting[data-block='off'] output") == "from item 60,000 on")
        click(driver, "#run")
        comes_to(driver, "done")
        got = memoryview(pathlib.Path(out).read_bytes()).cast("h")
        # (2 x[n] halved is x[n])
        assert got[50_000:60_000].tolist() == list(SAW[50_000:60_000]) and not any(got[60_000:])
        x = SAW[49_000:50_000]
        assert got[49_002:50_000].tolist() == [
            (x[at] + 2 * x[at - 1] + 3 * x[at - 2] + 1) >> 1 for at in range(2, 1000)
        ]


def transforms() -> None:
    """Spectra and responses, beside what they are by definition."""
    ask = """
        const done = arguments[0];
        import(location.href + "fourier.js").then(({ spectrumOf, responseOf }) => {
            const wave = Int32Array.from({ length: 1024 }, (_, at) => Math.round(1e6 * Math.cos((2 * Math.PI * 100 * at) / 1024)));
            const levels = spectrumOf(wave, 1e6);
            const sum = responseOf([1, 1], 0), one = responseOf([0, 4], 2);
            done([levels.indexOf(Math.max(...levels)), levels.length, levels[100], levels[200], sum[0], sum[256], sum[512], one[0], one[300]]);
        });
    """
    folder, graph, _, _ = folder_with()
    with folder, Server(graph) as server, browser() as driver:
        driver.get(server.address)
        comes_to(driver, "done")
        peak, count, level, floor, low, middle, high, one, other = driver.execute_async_script(ask)
        assert (peak, count) == (100, 513) and abs(level) < 0.01 and floor < -100, (peak, count, level, floor)
        # (1 + z over half a turn: 2, the root of 2, 0)
        assert (
            abs(low - 6.0206) < 0.001
            and abs(middle - 3.0103) < 0.001
            and high < -100
            and abs(one) < 1e-9
            and abs(other) < 1e-9
        )


def all_views() -> None:
    """Each view is drawn while items come, and the browser has nothing to complain of."""
    folder, graph, items, _ = folder_with(FILTER)
    kind = "figure[data-sink='raw'] select.kind"
    with folder, Server("--paused", "-i", "src=" + items, "--rate", "5000", graph) as server, browser() as driver:
        driver.get(server.address)
        comes_to(driver, "paused")
        click(driver, "#run")
        for name in ("levels", "bits", "spectrum", "waterfall", "scatter"):
            choose(driver, kind, name)
            until(
                "%s is drawn" % name,
                lambda: driver.execute_script(
                    "return document.querySelector(\"figure[data-sink='raw'] .told\").textContent"
                )
                and colours_on(driver) > 3,
            )
            time.sleep(0.5)
        faults = [it["message"] for it in driver.get_log("browser") if it["level"] == "SEVERE"]
        assert not faults, faults


def colours_on(driver: Any) -> int:
    """How many colours the first plot has."""
    return int(driver.execute_script(
        "const it = document.querySelector(\"figure[data-sink='raw'] canvas\");"
        "const all = new Uint32Array(it.getContext('2d').getImageData(0, 0, it.width, it.height).data.buffer);"
        "return new Set(all).size"))


CASES = [script, items_over_items, trigger, dragged, thousand, taps, transforms, all_views]
