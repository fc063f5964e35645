"""The graph file in the page: what is typed, drawn, dropped, undone and saved."""

from __future__ import annotations

import asyncio
import os
import pathlib
import re
import subprocess
from typing import Any

from browser import PATIENCE, Server, TOP, browser, choose, click, comes_to, text_of, until
from runs import SAW, THROUGH, folder_with
from socket_page import socket_page

TEXT = "#editor textarea"


def text_in(driver: Any) -> str:
    return str(driver.execute_script("return document.querySelector(arguments[0]).value", TEXT))


def type_at(driver: Any, behind: str, typed: str) -> None:
    """Types into the text, behind the first place of some words."""
    field = driver.find_element("css selector", TEXT)
    field.click()
    driver.execute_script(
        "const it = document.querySelector(arguments[0]), at = it.value.indexOf(arguments[1]) + arguments[1].length; "
        "it.setSelectionRange(at, at)",
        TEXT, behind,
    )
    field.send_keys(typed)


def drawn(driver: Any) -> list[str]:
    return list(
        driver.execute_script(
            "return [...document.querySelectorAll('#graph [data-block]')].map((it) => it.dataset.block)"
        )
    )


def opened(driver: Any, server: Server) -> None:
    driver.get(server.address)
    until("a graph", lambda: drawn(driver))
    click(driver, "[data-shows=file]")


def faults() -> None:
    """A fault is marked at its place as one types, with why, and goes as it is mended; markup in it is text."""
    from selenium.webdriver.common.keys import Keys

    folder, graph, items, _ = folder_with()
    with folder, Server("--paused", "-i", "src=" + items, graph) as server, browser() as driver:
        opened(driver, server)
        until("no fault", lambda: text_of(driver, "#explained") == "no faults")
        type_at(driver, "add_con", "<img src=x onerror=document.title=1>")
        until(
            "the fault",
            lambda: text_of(driver, "#explained").startswith(
                "44 UnknownKind block 1\nline 3, column 28: there is no kind"
            ),
        )
        assert text_of(driver, "#editor mark") == '"add_con<img src=x onerror=document.title=1>st"', text_of(
            driver, "#editor mark"
        )
        assert driver.execute_script("return document.images.length") == 0 and "1" != driver.title
        assert not driver.execute_script("return document.getElementById('old').hidden") and drawn(driver) == [
            "src", "add", "out",
        ]
        click(driver, "#undo")
        until("it is mended", lambda: text_of(driver, "#explained") == "no faults" and text_in(driver) == THROUGH)
        assert driver.execute_script("return document.getElementById('old').hidden")
        type_at(driver, 'name = "add', "er")
        # (what is drawn is what is written, and the connections still name `add`)
        until("a fault of a connection", lambda: text_of(driver, "#explained").startswith("2 UnknownBlock connect 0"))
        assert text_of(driver, "#editor mark") == '"add"', text_of(driver, "#editor mark")
        type_at(driver, 'name = "adder', Keys.BACKSPACE * 2)
        until(
            "it is mended as one types",
            lambda: text_of(driver, "#explained") == "no faults" and text_in(driver) == THROUGH,
        )
        assert text_of(driver, "#editor mark") == "" and drawn(driver) == ["src", "add", "out"]


def added_and_joined() -> None:
    """A block of a kind is added, joined by lines that are drawn, and runs; all of that can be undone."""
    from selenium.webdriver.common.action_chains import ActionChains

    folder, graph, items, out = folder_with()
    port = "#graph [data-block='%s'] .port[data-side='%s']"

    def join(driver: Any, start: str, end: str) -> None:
        parts = [driver.find_element("css selector", port % it) for it in ((start, "out"), (end, "in"))]
        ActionChains(driver).click_and_hold(parts[0]).move_to_element(parts[1]).release().perform()

    with folder, Server("-i", "src=" + items, "-o", "out=" + out, graph) as server, browser(1600, 1000) as driver:
        opened(driver, server)
        choose(driver, "#kind", "not")
        assert "x[n] with all bits inverted" in text_of(driver, "#described")
        click(driver, "#add")
        until("a block more", lambda: drawn(driver) == ["src", "add", "out", "not1"])
        until("it is not joined", lambda: text_of(driver, "#explained").startswith("8 TooFewPorts not1"))
        choose(driver, "#kind", "vector_sink")
        click(driver, "#add")
        until("a sink", lambda: drawn(driver)[-1] == "vector_sink1")
        join(driver, "add", "not1")
        until("a line", lambda: '{ from = "add", to = "not1" }' in text_in(driver))
        until(
            "it is drawn",
            lambda: driver.execute_script("return document.querySelectorAll('#graph path.line').length") == 3,
        )
        join(driver, "not1", "vector_sink1")
        until(
            "no fault",
            lambda: text_of(driver, "#explained") == "no faults"
            and '{ from = "not1", to = "vector_sink1" }' in text_in(driver),
        )
        assert "the run is of another text" in text_of(driver, "#file-state")
        click(driver, "#apply")
        until("a plot more", lambda: driver.execute_script("return document.querySelectorAll('figure').length") == 2)
        comes_to(driver, "done")
        assert "the run is of this text" in text_of(driver, "#file-state")
        click(driver, "[data-shows=plots]")
        choose(driver, "figure[data-sink='vector_sink1'] select.kind", "numbers")
        shown = "return [...document.querySelectorAll(\"figure[data-sink='vector_sink1'] .numbers .item\")].map((it) => Number(it.textContent))"
        until("the items", lambda: driver.execute_script(shown) == [~it for it in SAW[-512:]])
        click(driver, "[data-shows=file]")
        for _ in range(4):
            click(driver, "#undo")
        assert text_in(driver) == THROUGH
        until("the first graph", lambda: drawn(driver) == ["src", "add", "out"])
        for _ in range(4):
            click(driver, "#redo")
        assert '{ from = "not1", to = "vector_sink1" }' in text_in(driver)
        assert (
            pathlib.Path(out).read_bytes() == SAW.tobytes() and pathlib.Path(out + ".2").read_bytes() == SAW.tobytes()
        )


def dropped() -> None:
    """A drawing of Companion that is dropped on the page becomes the graph file that flow-from-grc makes of it, and one
    that is none is refused."""
    drop = """
        const data = new DataTransfer();
        data.items.add(new File([arguments[0]], arguments[1]));
        document.body.dispatchEvent(new DragEvent("drop", { dataTransfer: data, bubbles: true, cancelable: true }));
    """
    drawing = TOP / "examples/grc/rates.grc"
    wanted = (
        subprocess.run([TOP / "flow-from-grc", drawing], capture_output=True, check=True).stdout.decode().splitlines()
    )
    folder, graph, _, _ = folder_with()
    with folder, Server(graph) as server, browser() as driver:
        opened(driver, server)
        driver.execute_script(drop, drawing.read_text(), "rates.grc")
        # (its first line is a comment with the drawing's name)
        until("the graph of the drawing", lambda: text_in(driver).splitlines()[1:] == wanted[1:])
        until("no fault", lambda: text_of(driver, "#explained") == "no faults")
        driver.execute_script(drop, "blocks: 1", "none.grc")
        until("it is refused", lambda: "flow-from-grc: refused" in text_of(driver, "#fault"))
        driver.execute_script(drop, THROUGH, "graph.toml")
        until("a graph file", lambda: text_in(driver) == THROUGH)


def saves() -> None:
    """The page saves the text that is typed, and says whether it is saved."""
    folder, graph, items, _ = folder_with()
    with folder, Server("--paused", "-i", "src=" + items, graph) as server, browser() as driver:
        opened(driver, server)
        until("it is as in the file", lambda: text_of(driver, "#file-state") == "the run is of this text; saved")
        type_at(driver, "", "# typed\n")
        until("it is not saved", lambda: text_of(driver, "#file-state").endswith("; not saved"))
        assert pathlib.Path(graph).read_text() == THROUGH
        click(driver, "#save")
        until("it is saved", lambda: text_of(driver, "#file-state").endswith("; saved"))
        assert pathlib.Path(graph).read_text() == "# typed\n" + THROUGH


async def saving(server: Server, at: pathlib.Path) -> None:
    more = THROUGH + "# more\n"
    async with socket_page(server.address) as page:
        assert (await page.ask(do="save", text=more))["answer"] is None and at.read_text() == more
        at.write_text("# another program\n")
        refused = (await page.ask(do="save", text=THROUGH))["refused"]
        assert refused.endswith("was written by another program meanwhile: it is not replaced"), refused
        assert at.read_text() == "# another program\n"
        for text in ("block = 1", THROUGH.replace("src", "source"), None):
            assert "refused" in await page.ask(do="apply", text=text), text
        assert page.parts["run"]["number"] == 1, page.parts["run"]
        for text, number in (("\0", 40), ("block = [{ name = 1 }]", 43)):
            answer = (await page.ask(do="look", text=text))["answer"]
            assert answer["graph"] is None and answer["fault"]["says"].startswith("%d " % number), answer


def saved() -> None:
    """A text is saved through a link, with the mode of the file; one that another program wrote is not replaced, and a
    text that is refused does not run."""
    folder, graph, items, _ = folder_with()
    link, at = pathlib.Path(graph + ".link"), pathlib.Path(graph)
    with folder:
        link.symlink_to(at)
        at.chmod(0o640)
        with Server("-i", "src=" + items, str(link)) as server:
            asyncio.run(asyncio.wait_for(saving(server, at), PATIENCE))
        assert link.is_symlink() and at.stat().st_mode & 0o777 == 0o640
        assert sorted(os.listdir(folder.name)) == ["graph.toml", "graph.toml.link", "in"], os.listdir(folder.name)


def texts() -> None:
    """A block and a connection more stand where the file has its others; and of each kind a block can be added."""
    from magbelu._kinds import KIND_ROWS
    from magbelu.studio import edit, graphs

    table: dict[str, edit.Value] = {"name": "b", "n": 1, "taps": [1, -2]}
    written = '{ name = "b", n = 1, taps = [1, -2] }'
    for text, wanted in (
        ("", '[[block]]\nname = "b"\nn = 1\ntaps = [1, -2]\n'),
        ('[[block]]\nname = "a"\n', '[[block]]\nname = "a"\n\n[[block]]\nname = "b"\nn = 1\ntaps = [1, -2]\n'),
        ("block = []\n", "block = [\n    %s,\n]\n" % written),
        ('block = [{ name = "]" }] # ]\n', 'block = [{ name = "]" },\n    %s,\n] # ]\n' % written),
        (
            "connect = [[]]\nblock = [\n    1, # one\n]\n",
            "connect = [[]]\nblock = [\n    1, # one\n    %s,\n]\n" % written,
        ),
        ("block = [\n    1 # one\n]\n", "block = [\n    1, # one\n    %s,\n]\n" % written),
        ('[[feed]]\nblock = [1]\n', '[[feed]]\nblock = [1]\n\n[[block]]\nname = "b"\nn = 1\ntaps = [1, -2]\n'),
    ):
        assert edit.with_table(text, "block", table) == wanted, edit.with_table(text, "block", table)
    assert len(KIND_ROWS) == len(re.findall(r"^\[kind\.\w+\]$", (TOP / "kinds.toml").read_text(), re.MULTILINE))
    for kind in KIND_ROWS.values():
        for item_type in ("byte", "short", "int"):
            graph, refused = graphs.GraphFile.draft(edit.with_table("", "block", edit.table_of("a", kind, item_type)))
            # (it is not joined yet)
            assert graph is not None and refused is not None and refused.number == 8, (kind.name, refused)
    settable = [name for name, it in KIND_ROWS.items() if it.setting]
    assert settable == [
        "add_const", "multiply_const", "divide_const", "and_const", "or_const", "xor_const", "scale", "mute", "fir",
        "interp_fir",
    ], settable
    tables: list[dict[str, Any]] = [
        {"kind": "add_const", "type": "byte", "value": 7}, {"kind": "scale", "type": "short", "factor": -3, "shift": 1},
        {"kind": "mute", "type": "int", "on": 1}, {"kind": "fir", "type": "short", "taps": [1, -2]},
        {"kind": "repeat", "type": "short", "n": 2},
    ]
    shown = []
    for table in tables:
        text = ""
        ends: list[dict[str, Any]] = [
            {"name": name, "kind": "vector_" + name, "type": table["type"]} for name in ("source", "sink")
        ]
        for block in (*ends, {"name": "it", **table}):
            text = edit.with_table(text, "block", block)
        for start, end in (("source", "it"), ("it", "sink")):
            text = edit.with_table(text, "connect", edit.connect_of(start, 0, end, 0))
        shown.append(graphs.GraphFile.of(text).shown()["blocks"][2]["setting"])
    ranges = [it and tuple(it.values()) for it in shown]
    assert ranges == [
        ("value", 0, 255, None, 7), ("factor", -32768, 32767, None, -3), ("on", 0, 1, None, 1),
        ("taps", -32768, 32767, 2, [1, -2]), None,
    ], ranges


def keys_and_contrast() -> None:
    """What is done by keys; and in light and dark all text has a contrast of 4.5 at least."""
    from selenium.webdriver.common.keys import Keys

    def light(colour: str) -> float:
        parts = [int(colour[at : at + 2], 16) / 255 for at in (1, 3, 5)]
        red, green, blue = [it / 12.92 if it <= 0.04045 else float(((it + 0.055) / 1.055) ** 2.4) for it in parts]
        return 0.2126 * red + 0.7152 * green + 0.0722 * blue

    folder, graph, items, _ = folder_with()
    with folder, Server("--paused", "-i", "src=" + items, graph) as server, browser() as driver:
        driver.get(server.address)
        comes_to(driver, "paused")
        body = driver.find_element("css selector", "body")
        body.send_keys("s")
        until("a step", lambda: text_of(driver, ".told") == "items 0 to 0 of 1")
        body.send_keys("f")
        assert driver.execute_script(
            "return document.getElementById('plots').hidden && !document.getElementById('file').hidden"
        )
        body.send_keys("p")
        plot = driver.find_element("css selector", "figure canvas")
        body.send_keys(Keys.SPACE)
        comes_to(driver, "done")
        for key, told in (
            ("h", "items 95,904 to 99,999"), (Keys.ARROW_LEFT, "items 95,392 to 99,487"),
            ("+", "items 96,416 to 98,463"), (Keys.END, "items 97,952 to 99,999"),
        ):
            plot.send_keys(key)
            until(told, lambda: text_of(driver, ".told") == told + " of 100,000")
        for _ in ("one theme", "the other"):
            body.send_keys("d")
            style = "return getComputedStyle(document.documentElement).getPropertyValue('--' + arguments[0]).trim()"
            colour = {
                it: driver.execute_script(style, it)
                for it in (
                    "text", "faint", "accent", "tag", "bad", "good", "second", "paper", "ground", "box", "bad-ground",
                    "on-accent",
                )
            }
            pairs = [
                (text, under)
                for text in ("text", "faint", "tag", "bad", "good", "second", "accent")
                for under in ("paper", "ground", "box")
            ]
            for text, under in [*pairs, ("bad", "bad-ground"), ("on-accent", "accent")]:
                low, high = sorted((light(colour[text]), light(colour[under])))
                assert (high + 0.05) / (low + 0.05) >= 4.5, (text, under, colour)


CASES = [faults, added_and_joined, dropped, saves, saved, texts, keys_and_contrast]
