"""What the page shows, in a browser."""

from __future__ import annotations

import pathlib
import tempfile
from typing import Any

from browser import Server, TOP, as_numbers, browser, choose, click, comes_to, fill, numbers_of, tags_of, text_of, until
from runs import SAW, folder_with

ECHO = TOP / "examples/echo"


def logged(driver: Any) -> list[Any]:
    """What the browser has to complain of, but for a server that is away."""
    return [
        it["message"]
        for it in driver.get_log("browser")
        if "ERR_CONNECTION" not in it["message"] and "WebSocket" not in it["message"]
    ]


def sinks_as_run() -> None:
    """The page shows what `flow run` prints, which examples/echo/expected_run has."""
    wanted = {}
    for line in (ECHO / "expected_run").read_text().splitlines()[:-1]:
        words = line.split()
        wanted[words[1]] = (
            [int(it) for it in words[3:] if it[0] != "@"],
            [it[1:].split("/")[0].replace(":", ": ") for it in words if it[0] == "@"],
        )
    with Server(str(ECHO / "graph.toml")) as server, browser() as driver:
        driver.get(server.address)
        comes_to(driver, "done")
        for sink, (items, tags) in wanted.items():
            as_numbers(driver, sink)
            until("the items of %s" % sink, lambda: numbers_of(driver, sink) == items)
            assert [it.replace("@", "") for it in tags_of(driver, sink)] == tags, tags_of(driver, sink)
        assert len(wanted) == 2 and not logged(driver), logged(driver)


def controls() -> None:
    """Step, run to an item, pace, pause, again, by what the page shows."""
    folder, graph, items, _ = folder_with()
    with folder, Server("--paused", "-i", "src=" + items, graph) as server, browser() as driver:
        driver.get(server.address)
        comes_to(driver, "paused")
        fill(driver, "#step", "3")
        click(driver, "#do-step")
        told = "figure[data-sink='out'] .told"
        until("three items", lambda: text_of(driver, told) == "items 0 to 2 of 3")
        fill(driver, "#to", "5,000")
        click(driver, "#do-to")
        until("items up to 5,000", lambda: text_of(driver, told) == "items 904 to 4,999 of 5,000")
        fill(driver, "#rate", "100")
        click(driver, "#run")
        comes_to(driver, "running")
        click(driver, "#run")
        comes_to(driver, "paused")
        fill(driver, "#rate", "")
        click(driver, "#run")
        comes_to(driver, "done")
        until("the end", lambda: text_of(driver, told) == "items 95,904 to 99,999 of 100,000")
        as_numbers(driver, "out")
        until("the last items", lambda: numbers_of(driver, "out") == list(SAW[-512:]))
        choose(driver, "figure[data-sink='out'] select.kind", "levels")
        fill(driver, "#rate", "1")
        click(driver, "#again")
        until("the beginning", lambda: text_of(driver, told).startswith("items 0 to "))
        fill(driver, "#to", "x")
        click(driver, "#do-to")
        until("a fault", lambda: text_of(driver, "#fault") == "x is no whole number")


def markup() -> None:
    """A name with markup in it is shown as text."""
    name = "<img src=x onerror=document.title='run'>.toml"
    with tempfile.TemporaryDirectory() as folder:
        graph = pathlib.Path(folder) / name
        graph.write_bytes((ECHO / "graph.toml").read_bytes())
        with Server(str(graph)) as server, browser() as driver:
            driver.get(server.address)
            comes_to(driver, "done")
            assert text_of(driver, "#path") == name
            assert driver.execute_script("return document.images.length") == 0 and driver.title != "run", driver.title


def many_blocks() -> None:
    """254 blocks are drawn, each with its line, and none lies on another."""
    names = ["src", *("add%d" % it for it in range(252)), "out"]
    kinds = {"src": "vector_source", "out": "vector_sink"}
    blocks = [
        '{ name = "%s", kind = "%s", type = "short"%s }'
        % (it, kinds.get(it, "add_const"), "" if it in kinds else ", value = 1")
        for it in names
    ]
    connects = ['{ from = "%s", to = "%s" }' % it for it in zip(names, names[1:])]
    folder, graph, items, _ = folder_with(
        "block = [%s]\nconnect = [%s]\n" % (", ".join(blocks), ", ".join(connects)), SAW[:600].tobytes()
    )
    with folder, Server("-i", "src=" + items, graph) as server, browser(2560, 1400) as driver:
        driver.get(server.address)
        comes_to(driver, "done")
        assert driver.execute_script("return document.querySelectorAll('#graph .block').length") == 254
        assert driver.execute_script("return document.querySelectorAll('#graph path.line').length") == 253
        boxes = driver.execute_script(
            "return [...document.querySelectorAll('#graph rect')].map((it) => ['x', 'y', 'width', 'height'].map((key) "
            "=> Number(it.getAttribute(key))))"
        )
        for at, (x, y, width, height) in enumerate(boxes):
            for other in boxes[:at]:
                assert (
                    x + width <= other[0]
                    or other[0] + other[2] <= x
                    or y + height <= other[1]
                    or other[1] + other[3] <= y
                )
        as_numbers(driver, "out")
        until("the items", lambda: numbers_of(driver, "out") == [it + 252 for it in SAW[88:600]])


def server_killed() -> None:
    """A page whose server is killed says so, and goes on with the next one that has its address."""
    token = {"MAGBELU_STUDIO_TOKEN": "t" * 40}
    folder, graph, items, _ = folder_with()
    with folder, browser() as driver:
        with Server("--paused", "-i", "src=" + items, graph, env=token) as server:
            driver.get(server.address)
            comes_to(driver, "paused")
            server.process.kill()
            server.process.wait()
            comes_to(driver, "no server")
            assert text_of(driver, "#fault").startswith("the server does not answer")
        with Server("--port", str(server.port), "-i", "src=" + items, graph, env=token) as again:
            assert again.address == server.address
            comes_to(driver, "done")
            until("the plot goes on", lambda: text_of(driver, ".told") == "items 95,904 to 99,999 of 100,000")
            assert text_of(driver, "#fault") == ""


CASES = [sinks_as_run, controls, markup, many_blocks, server_killed]
