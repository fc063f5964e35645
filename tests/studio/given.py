"""What is given to the page and taken from it: raw items dropped on a source, items that are saved, blocks that are
watched; and what several pages, and pages of several sizes, show."""

from __future__ import annotations

import array
import asyncio
import http.client
import pathlib
import time
import urllib.request
from typing import Any

from browser import PATIENCE, TOP, Server, as_numbers, browser, choose, click, comes_to, fill, numbers_of, tags_of, text_of, until
from guard import own_path
from runs import SAW, THROUGH, folder_with
from shown import logged

#: Drops raw items on an element of the page.
DROP = """
    const data = new DataTransfer(), at = document.querySelector(arguments[0]);
    data.items.add(new File([Uint8Array.from(arguments[1])], "some.s16"));
    at.dispatchEvent(new DragEvent("drop", { dataTransfer: data, bubbles: true, cancelable: true }));
"""


def drops_items() -> None:
    """Raw items that are dropped on a source are what the next run is fed, and its script has them; elsewhere they are
    none."""
    import magbelu

    folder, graph, items, out = folder_with()
    with folder, Server("-i", "src=" + items, "-o", "out=" + out, graph) as server, browser() as driver:
        driver.get(server.address)
        comes_to(driver, "done")
        as_numbers(driver, "out")
        driver.execute_script(DROP, "#graph [data-block='src'] rect", [1, 0, 2, 0, 255, 255])
        until("the items", lambda: numbers_of(driver, "out") == [1, 2, -1])
        comes_to(driver, "done")
        lines = urllib.request.urlopen(server.address + "script").read().decode()
        assert magbelu.script(THROUGH, lines).splitlines()[-1].split() == ["read", "3", "1", "2", "-1"], lines
        driver.execute_script(DROP, "#graph [data-block='add'] rect", [1, 0])
        until("add is no source", lambda: "21 NotSource add" in text_of(driver, "#fault"))
        assert (
            pathlib.Path(out).read_bytes() == SAW.tobytes()
            and pathlib.Path(out + ".2").read_bytes() == b"\1\0\2\0\377\377"
        )


def input_guarded() -> None:
    """Who lacks the token, or is a page of another origin, feeds nothing; and what is fed to a block that is none
    leaves the run as it is."""
    folder, graph, items, _ = folder_with()
    with folder, Server("-i", "src=" + items, graph) as server:
        own, here = own_path(server), "http://127.0.0.1:%d" % server.port

        def status(path: str, origin: str) -> int:
            connection = http.client.HTTPConnection("127.0.0.1", server.port, timeout=20)
            connection.request("POST", path, b"\1\0", {"Origin": origin} if origin else {})
            found = connection.getresponse().status
            connection.close()
            return found

        for path, origin, wanted in (
            ("/wrong/input/src", here, 403), (own + "input/src", "http://magbelu.example", 403),
            (own + "input/src", "", 403), (own + "input/none", here, 409), (own + "input/out", here, 409),
            (own + "input/src", here, 204),
        ):
            assert status(path, origin) == wanted, (path, origin)


def saves_items() -> None:
    """The items of a sink that are kept are saved as raw items."""
    folder, graph, items, _ = folder_with()
    with folder, Server("-i", "src=" + items, graph) as server, browser() as driver:
        driver.get(server.address)
        comes_to(driver, "done")
        link = driver.find_element("css selector", "figure[data-sink='out'] .bar a")
        assert (link.get_attribute("download"), link.get_attribute("href")) == ("out.raw", server.address + "items/out")
        assert urllib.request.urlopen(server.address + "items/out").read() == SAW.tobytes()


#: Two blocks in a row.
CHAIN = """\
block = [
    { name = "src", kind = "vector_source", type = "short" },
    { name = "add", kind = "add_const", type = "short", value = 1 },
    { name = "more", kind = "add_const", type = "short", value = 1 },
    { name = "out", kind = "vector_sink", type = "short" },
]
connect = [{ from = "src", to = "add" }, { from = "add", to = "more" }, { from = "more", to = "out" }]
"""


def watches() -> None:
    """The command shows blocks as it says, by sinks behind them, of which the file knows nothing until it is saved; and
    so does the page."""
    text = CHAIN
    folder, graph, items, _ = folder_with(text, array.array("h", [1, 2, 3]).tobytes())
    with folder, Server(
        "-i", "src=" + items, "-w", "src=numbers", "-w", "src=bits", "-w", "out=spectrum", graph
    ) as server, browser() as driver:
        driver.get(server.address)
        comes_to(driver, "done")
        kinds = "return [...document.querySelectorAll('figure')].map((it) => [it.dataset.sink, it.querySelector('select.kind').value])"
        assert driver.execute_script(kinds) == [
            ["src_1", "numbers"], ["src_1", "bits"], ["out", "spectrum"],
        ], driver.execute_script(kinds)
        until("what the source gives", lambda: numbers_of(driver, "src_1") == [1, 2, 3])
        assert pathlib.Path(graph).read_text() == text and text_of(driver, "#file-state").endswith("not saved")
        assert (
            urllib.request.urlopen(server.address + "script")
            .read()
            .startswith(b"# The run is of another text than the file")
        )
        click(driver, "#graph [data-block='add']")
        click(driver, "#watch")
        until("a plot more", lambda: ["add_1", "levels"] in driver.execute_script(kinds))
        as_numbers(driver, "add_1")
        until("what the block gives", lambda: numbers_of(driver, "add_1") == [2, 3, 4])
        click(driver, "#graph [data-block='more']")
        click(driver, "#watch")
        until("it is watched already", lambda: text_of(driver, "#fault") == "out shows it")
    for word, wanted in (
        ("src", 2), ("src=none", 2), ("=levels", 2), ("src:x=levels", 2), ("none=levels", 1), ("src:1=levels", 1),
    ):
        with folder_with()[0] as at, Server("-w", word, str(pathlib.Path(at) / "graph.toml")) as server:
            assert server.process.wait(PATIENCE) == wanted, word


def two_pages() -> None:
    """Two pages show one run: what is set, stepped and begun anew in one is seen in the other, which stays when the
    first is closed in the midst."""
    folder, graph, items, _ = folder_with()
    told, field = "figure[data-sink='out'] .told", ".setting[data-block='add'] input[type=number]"
    with folder, Server("--paused", "-i", "src=" + items, "--rate", "2000", graph) as server, browser() as driver:
        driver.get(server.address)
        first = driver.current_window_handle
        driver.switch_to.new_window("window")
        second = driver.current_window_handle
        driver.get(server.address)
        comes_to(driver, "paused")
        fill(driver, field, "5")
        fill(driver, "#step", "3")
        click(driver, "#do-step")
        driver.switch_to.window(first)
        until("three items", lambda: text_of(driver, told) == "items 0 to 2 of 3")
        until("the setting", lambda: text_of(driver, "#log li") == "add 5 from item 0 on")
        assert driver.execute_script("return document.querySelector(arguments[0]).value", field) == "5"
        as_numbers(driver, "out")
        until("what was set", lambda: numbers_of(driver, "out") == [5, 6, 7])
        click(driver, "#run")
        comes_to(driver, "running")
        driver.close()
        driver.switch_to.window(second)
        comes_to(driver, "running")
        seen = lambda: int(text_of(driver, told).rpartition(" ")[2].replace(",", ""))  # noqa: E731
        before = seen()
        until("it goes on", lambda: seen() > before + 1000)
        driver.get("about:blank")
        driver.get(server.address)
        until("the run as it is", lambda: text_of(driver, told) and seen() > before + 1000)
        until("the log as it is", lambda: text_of(driver, "#log li") == "add 5 from item 0 on")
        click(driver, "#again")
        until("it began anew", lambda: 0 < seen() < 1000)
        assert not logged(driver), logged(driver)


def names_with_markup() -> None:
    """Markup in the name of a block, of a kind or of a sink, in a parameter, in a tag's key or in what is waited for is
    shown as text. (The library refuses most of these names: what a page draws is not to rest on that.)"""
    script = """
        const [bad, done] = arguments, at = document.body.appendChild(document.createElement("div"));
        const load = (it) => import(location.href + it);
        Promise.all(["graph.js", "numbers.js", "plot.js", "settings.js", "works.js"].map(load)).then(([graph, { numbers }, { Plot }, { Settings }, works]) => {
            const block = { name: bad, kind: bad, parameters: { value: bad }, firings: bad, setting: { key: bad, low: 0, high: 9, value: 1, taps: null } };
            const connects = [{ from: bad, from_port: 0, to: bad + 2, to_port: 0, type: "byte" }];
            const view = new graph.GraphView(at.appendChild(document.createElement("div")), () => {}, () => {});
            view.draw({ blocks: [block, { ...block, name: bad + 2 }], connects });
            const run = { state: "paused", fed: { [bad]: 1 }, needs: { [bad + 2]: ["items", 0] }, limits: bad, waits: 0,
                works: { blocks: { [bad]: { share: 1, takes: [], gives: [1] } }, fills: [[1, 2]] } };
            view.show(run, {});
            at.append(...graph.blockTable(block), ...works.worksTable(bad, { connects }, run, {}, view.wait(bad + 2, "items", 0)));
            new Settings(at.appendChild(document.createElement("div")), document.createElement("ol"), () => {}).draw({ blocks: [block] });
            const plot = new Plot({ say() {} }, "v", { sink: bad, type: "byte", others: [bad + 2] }, "numbers");
            at.append(plot.figure);
            plot.take({ view: "v", first: 0, start: 0, end: 1, held: 1, missed: 0, keys: [bad], tags: [[0, bad, "7", 0]], tags_more: 0 }, Int32Array.of(5));
            setTimeout(() => done([at.textContent.split(bad).length - 1, at.querySelectorAll("img").length, document.images.length, document.title]), 500);
        });
    """
    bad = "<img src=x onerror=document.title='run'>"
    folder, graph, _, _ = folder_with()
    with folder, Server(graph) as server, browser() as driver:
        driver.get(server.address)
        comes_to(driver, "done")
        shown, own, images, title = driver.execute_async_script(script, bad)
        assert shown > 15 and own == images == 0 and title != "run", (shown, own, images, title)


def readable() -> None:
    """At 1,280 and at 2,560 pixels nothing runs out of the page, no control lies on another, and no text is below 11
    pixels."""
    script = """
        const found = [];
        if (document.documentElement.scrollWidth > innerWidth) found.push("the page is wider than the window");
        const seen = (it) => it.getClientRects().length && it.getBoundingClientRect().width;
        const all = [...document.querySelectorAll("header button, header input, .bar button, .bar select, .bar a, #side input, #side button")].filter(seen);
        const boxes = all.map((it) => it.getBoundingClientRect());
        boxes.forEach((a, at) => {
            if (a.left < -0.5 || a.right > innerWidth + 0.5) found.push("outside: " + all[at].outerHTML);
            boxes.slice(0, at).forEach((b, of) => {
                if (a.left < b.right - 1 && b.left < a.right - 1 && a.top < b.bottom - 1 && b.top < a.bottom - 1) found.push(all[at].outerHTML + " lies on " + all[of].outerHTML);
            });
        });
        for (const it of document.querySelectorAll("body *")) {
            const hasText = [...it.childNodes].some((node) => node.nodeType === 3 && node.textContent.trim());
            if (hasText && seen(it) && parseFloat(getComputedStyle(it).fontSize) < 11) found.push("small: " + it.outerHTML);
        }
        return found;
    """
    for width, height in ((1280, 800), (2560, 1400)):
        words = ("-w", "body=spectrum", "-w", "frame=bits", str(TOP / "examples/frames/graph.toml"))
        with Server(*words) as server, browser(width, height) as driver:
            driver.get(server.address)
            comes_to(driver, "done")
            until("plots", lambda: driver.execute_script("return document.querySelectorAll('figure').length") >= 2)
            for tab in ("plots", "file"):
                click(driver, "[data-shows=%s]" % tab)
                time.sleep(0.3)
                assert not driver.execute_script(script), (width, tab, driver.execute_script(script))


CASES = [drops_items, input_guarded, saves_items, watches, two_pages, names_with_markup, readable]
