"""What one looks at in the page: the drawing beside that of the library, parameters, what blocks wait for, and what
stands at the pointer."""

from __future__ import annotations

import pathlib
import re
import subprocess
import urllib.request
from typing import Any

import magbelu

from browser import Server, TOP, browser, click, comes_to, text_of, until
from receiver import recording
from runs import SAW, THROUGH, folder_with
from shown import ECHO, logged
from turned import FILTER

# A block of a drawing for `dot`, with its kind, and a line with the type of its items and the room of its buffer.
NODE = re.compile(r'^  "([^"]*)" \[label="\{(?:\{[^}]*\}\|)?([^\\|}]*)\\n([^\\|}]*)', re.MULTILINE)
EDGE = re.compile(r'^  "([^"]*)":o(\d+):e -> "([^"]*)":i(\d+):w \[label="(\w+) (\d+)"', re.MULTILINE)
#: A plot, the place of its first and last item from its left and from its right, and what stands at the pointer.
CANVAS, LEFT, RIGHT, POINTED = "figure[data-sink='out'] canvas", 62, 10, "figure[data-sink='out'] .pointed"


def drawn_as_draw() -> None:
    """The page draws the blocks and the connections that the library draws, with their types and the rooms of their
    buffers."""
    blocks = "return [...document.querySelectorAll('#graph .block')].map((it) => [it.dataset.block, ...[...it.querySelectorAll('text')].slice(0, 2).map((text) => text.textContent)])"
    lines = "return [...document.querySelectorAll('#graph path.line > title')].map((it) => it.textContent)"
    folder, _, items, _ = folder_with(items=recording(1))
    with folder, browser() as driver:
        for path, words in (
            (ECHO / "graph.toml", []),
            (TOP / "examples/receiver/receiver.toml", ["-i", "iq=" + items]),
        ):
            drawing = magbelu.Stream(path.read_bytes()).draw()
            with Server(*words, str(path)) as server:
                driver.get(server.address)
                comes_to(driver, "done")
                assert [tuple(it) for it in driver.execute_script(blocks)] == [
                    (it[0], *it[1:]) for it in NODE.findall(drawing)
                ], driver.execute_script(blocks)
                told = [
                    re.sub(r", up to [\d,]+ of ([\d,]+) items in its buffer", r" \1", it).replace(",", "")
                    for it in driver.execute_script(lines)
                ]
                assert told == ["%s %s to %s %s: %s %s" % it for it in EDGE.findall(drawing)] and len(told) > 2, told


def parameters_shown() -> None:
    """The chosen block's parameters stand beside the graph."""
    folder, graph, _, _ = folder_with(FILTER)
    rows = "return [...document.querySelectorAll('#parameters tr')].map((it) => [...it.children].map((cell) => cell.textContent))"
    with folder, Server(graph) as server, browser() as driver:
        driver.get(server.address)
        comes_to(driver, "done")
        click(driver, "#graph [data-block='low']")
        assert text_of(driver, "#parameters h2") == "low" and text_of(driver, "#parameters p") == "fir", text_of(
            driver, "#parameters"
        )
        assert driver.execute_script(rows) == [
            ["type", "short"], ["taps", "1 2 3"], ["shift", "1"],
        ], driver.execute_script(rows)
        assert text_of(driver, "#parameters .note") == "fires once in an iteration"


def waits_shown() -> None:
    """A block that waits says for whom: the source for its input, and each other for the one before it."""
    folder, graph, _, _ = folder_with()
    with folder, Server("-i", "src=-", graph, stdin=subprocess.PIPE) as server, browser() as driver:
        driver.get(server.address)
        comes_to(driver, "running")
        for block, says in (("src", "waits for input"), ("add", "waits for src"), ("out", "waits for add")):
            until(says, lambda: text_of(driver, "#graph [data-block='%s'] .note:not(.mark)" % block) == says)
        until(
            "the input limits the run", lambda: text_of(driver, "#graph [data-block='src'] .mark") == "limits the run"
        )


def pointed() -> None:
    """At the pointer stand the item and its tag."""
    from selenium.webdriver.common.action_chains import ActionChains

    text = (
        THROUGH
        + '[[feed]]\nsource = "src"\nitems = [10, 20, 30, 40, 50]\ntags = [{ at = 3, key = "burst", value = 7 }]\n'
    )
    folder, graph, _, _ = folder_with(text)
    with folder, Server(graph) as server, browser() as driver:
        driver.get(server.address)
        comes_to(driver, "done")
        until("the items", lambda: text_of(driver, ".told") == "items 0 to 4 of 5")
        canvas = driver.find_element("css selector", CANVAS)
        width = canvas.size["width"]
        for item, says in ((1, "item 1: 20"), (3, "item 3: 40   @3 burst=7")):
            place = LEFT + (width - LEFT - RIGHT) * item / 4
            ActionChains(driver).move_to_element_with_offset(canvas, round(place - width / 2), 0).perform()
            until(says, lambda: text_of(driver, POINTED) == says)
        assert not logged(driver), logged(driver)


def zoomed_and_held() -> None:
    """The wheel shows fewer items, and a drag holds the plot and moves it."""
    from selenium.webdriver.common.action_chains import ActionChains
    from selenium.webdriver.common.actions.wheel_input import ScrollOrigin

    folder, graph, items, _ = folder_with()
    with folder, Server("-i", "src=" + items, graph) as server, browser() as driver:
        driver.get(server.address)
        comes_to(driver, "done")
        until("the last items", lambda: text_of(driver, ".told") == "items 95,904 to 99,999 of 100,000")
        canvas = driver.find_element("css selector", CANVAS)
        ActionChains(driver).scroll_from_origin(ScrollOrigin.from_element(canvas), 0, -100).perform()
        # (four fifths of 4,096, the last ones)
        until("fewer items", lambda: text_of(driver, ".told") == "items 96,723 to 99,999 of 100,000")
        ActionChains(driver).click_and_hold(canvas).move_by_offset(100, 0).release().perform()
        until(
            "it is held",
            lambda: driver.execute_script(
                "return document.querySelector('figure button[aria-pressed]').getAttribute('aria-pressed')"
            )
            == "true",
        )
        wanted = 96_723 - 100 * 3276 / (canvas.size["width"] - LEFT - RIGHT)
        until("it moved with the pointer", lambda: abs(first_shown(driver) - wanted) <= 2)


def first_shown(driver: Any) -> int:
    """The first item that a plot shows."""
    return int(text_of(driver, ".told").split()[1].replace(",", ""))


def undrawn_told() -> None:
    """What went by between two frames is counted below the plot."""
    folder, graph, _, _ = folder_with()
    with folder, Server("-i", "src=/dev/zero", "--rate", "1000000", graph) as server, browser() as driver:
        driver.get(server.address)
        comes_to(driver, "running")
        until("what went by", lambda: re.fullmatch(r"[\d,]+ items went by undrawn", text_of(driver, ".missed")))
        driver.find_element("css selector", "body").send_keys(" ")
        comes_to(driver, "paused")
        until("the last frame", lambda: text_of(driver, ".told").split()[-1].replace(",", "").isdecimal())
        missed, held = (
            int(text_of(driver, it).split()[at].replace(",", "")) for it, at in ((".missed", 0), (".told", -1))
        )
        assert 0 < missed < held, (missed, held)


def opens() -> None:
    """The command opens the page in the browser where there is a display, and not with --no-open."""
    folder, graph, _, _ = folder_with()
    with folder:
        at = pathlib.Path(folder.name) / "opened"
        shows = pathlib.Path(folder.name) / "shows"
        shows.write_text('#!/bin/sh\necho "$1" >"%s"\n' % at)
        shows.chmod(0o755)
        env = {"DISPLAY": ":0", "BROWSER": str(shows)}
        with Server(graph, env=env) as server:
            urllib.request.urlopen(server.address).read()
            assert server.end() == 0 and not at.exists()
        with Server(graph, env=env, opens=True) as server:
            until("it is opened", lambda: at.exists() and at.read_text() == server.address + "\n")


def as_module() -> None:
    """`python3 -m magbelu.studio` is the command too."""
    folder, graph, items, out = folder_with()
    with folder, Server("-i", "src=" + items, "-o", "out=" + out, graph, studio=("-m", "magbelu.studio")) as server:
        assert b"magbelu studio" in urllib.request.urlopen(server.address).read()
        until("all items", lambda: pathlib.Path(out).read_bytes() == SAW.tobytes())


CASES = [drawn_as_draw, parameters_shown, waits_shown, pointed, zoomed_and_held, undrawn_told, opens, as_module]
