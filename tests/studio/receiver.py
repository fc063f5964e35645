"""`receiver.py FOLDER [COMMAND EXAMPLE]` shows the receiver of examples/receiver in the page: there are a spectrum, a
waterfall and bits, and a filter that is turned in the page changes them. It says how long each took, fails where the
first took more than three seconds of the command, and leaves a picture of before and one of after. COMMAND is
magbelu-studio as it is installed, and EXAMPLE the folder with the installed example; without them it is those of the
checkout."""

from __future__ import annotations

import math
import pathlib
import sys
import tempfile
import time
import urllib.request
from typing import Any

from browser import TOP, Server, browser, click, comes_to, numbers_of, text_of, until

EXAMPLE = TOP / "examples/receiver" if len(sys.argv) < 4 else pathlib.Path(sys.argv[3])
#: How many pairs of I and Q are a second, and how many are a bit; and in Hz how far a 1 is above the carrier, and a 0
#: below it.
RATE, SAMPLES, DEVIATION = 256_000, 32, 4_000
LEVEL = 40
#: How many pairs there are before the signal, by which the graph knows where the bits and frames begin.
BEFORE = 990
#: How the command shows what the filter of I gives, and the bits before they are thinned.
WATCHED = ("low_i=spectrum", "low_i=waterfall", "slice=bits")
NONE = " ".join(["0"] * 40)
#: Within how many seconds of the command all is drawn, in a browser that runs already, on a machine that does nothing
#: else.
WITHIN = 3


def recording(repeats: int) -> bytes:
    """The bytes that rtl_sdr writes of the lines of the example, without noise, again and again: silence, alternating
    bits, and their frames."""
    import magbelu

    (sent,), _ = magbelu.run_items(
        (EXAMPLE / "sender.toml").read_bytes(), [("text", (EXAMPLE / "text.txt").read_bytes())], ["bits"]
    )
    phase, one = 0.0, bytearray([128, 128]) * BEFORE
    for bit in [1, 0] * 64 + list(sent):
        for _ in range(SAMPLES):
            phase += 2 * math.pi * (DEVIATION if bit else -DEVIATION) / RATE
            one += bytes((round(128 + LEVEL * math.cos(phase)), round(128 + LEVEL * math.sin(phase))))
    return bytes(one) * repeats


def views_drawn(driver: Any) -> bool:
    """Whether each plot of the sinks that are watched is drawn, over items."""
    script = """
        return [...document.querySelectorAll("figure")].slice(0, 3).map((figure) => {
            const it = figure.querySelector("canvas");
            if (it.hidden || !it.width || !figure.querySelector(".told").textContent.startsWith("items ")) return "";
            const data = it.getContext("2d").getImageData(0, 0, it.width, it.height).data;
            return new Set(new Uint32Array(data.buffer)).size > 3 ? figure.querySelector("select.kind").value : "";
        })
    """
    return list(driver.execute_script(script)) == [it.partition("=")[2] for it in WATCHED]


def pictures(driver: Any) -> list[str]:
    """What the plots of the sinks that are watched show, each as a text of its pixels."""
    script = "return [...document.querySelectorAll('figure')].slice(0, 3).map((it) => it.querySelector('canvas').toDataURL())"
    return list(driver.execute_script(script))


def items_of(server: Server, sink: str, code: str) -> list[int]:
    """The last items of a sink, as the page saves them."""
    data = urllib.request.urlopen(server.address + "items/" + sink).read()
    return memoryview(data).cast(code).tolist()  # type: ignore[call-overload]


def turn(driver: Any, taps: str) -> int:
    """Sets the taps of both filters, and gives the item from which those of Q are in force."""
    for name in ("low_i", "low_q"):
        row = ".setting[data-block='%s'] " % name
        field = driver.find_element("css selector", row + "textarea")
        driver.execute_script(
            "arguments[0].value = arguments[1]; arguments[0].dispatchEvent(new Event('input'))", field, taps
        )
        click(driver, row + "button")
        until("an answer", lambda: text_of(driver, row + "output").startswith("from item "))
    return int(text_of(driver, row + "output").split()[2].replace(",", ""))


def receives(driver: Any, folder: str) -> tuple[float, float]:
    """Starts the command, and gives after how many seconds all was drawn, and how long it took from there until the
    filter had changed it."""
    path = pathlib.Path(folder) / "recording.u8"
    path.write_bytes(recording(150))
    words = [it for watched in WATCHED for it in ("-w", watched)]
    began = time.monotonic()
    with Server("-i", "iq=%s" % path, "--rate", str(2 * RATE), *words, str(EXAMPLE / "receiver.toml")) as server:
        driver.get(server.address)
        until("spectrum, waterfall and bits", lambda: views_drawn(driver))
        drawn = time.monotonic()
        bits = items_of(server, "slice_1", "B")
        assert {0, 1} == set(bits[len(bits) // 2 :]), "there are no bits"
        time.sleep(2)
        driver.save_screenshot(str(pathlib.Path(folder) / "receiver_before.png"))
        before = pictures(driver)
        turned = time.monotonic()
        item = turn(driver, NONE)
        # (the filter keeps a fourth of its items, and has 40 taps; the sums behind it are as long as 1,024 of these)
        until("its output is 0", lambda: not any(items_of(server, "low_i_1", "h")[-1000:]))
        assert any(items_of(server, "low_i_1", "h")[: item // 4 - 100]), "it was 0 before"
        until("the bits are all one", lambda: len(set(items_of(server, "slice_1", "B")[-1000:])) == 1)
        until("each picture is another", lambda: all(it != was for it, was in zip(pictures(driver), before)))
        changed = time.monotonic()
        time.sleep(2)
        driver.save_screenshot(str(pathlib.Path(folder) / "receiver_after.png"))
    return drawn - began, changed - turned


def receiver() -> None:
    """Spectrum, waterfall and bits of the receiver as the command says, which a filter changes that is turned in the
    page."""
    with tempfile.TemporaryDirectory() as folder, browser(1280, 1000) as driver:
        print("drawn after %.1f seconds, changed after %.1f more" % receives(driver, folder))


def receives_text() -> None:
    """What the page shows of the bits is what it saves of them, and it saves the lines that were sent."""
    folder = tempfile.TemporaryDirectory()
    path = pathlib.Path(folder.name) / "recording.u8"
    path.write_bytes(recording(2))
    with folder, Server(
        "-i", "iq=%s" % path, "-w", "bits=numbers", str(EXAMPLE / "receiver.toml")
    ) as server, browser() as driver:
        driver.get(server.address)
        comes_to(driver, "done")
        bits = urllib.request.urlopen(server.address + "items/bits").read()
        until("the last bits", lambda: numbers_of(driver, "bits") == list(bits[-512:]))
        lines = urllib.request.urlopen(server.address + "items/lines").read()
    # (the second time there are bits before the frames, which the graph does not look for)
    wanted = b"".join(b"+" + it for it in (EXAMPLE / "text.txt").read_bytes().splitlines(keepends=True))
    assert lines[: len(wanted)] == wanted and len(wanted) == 12 * 29, lines


CASES = [receiver, receives_text]

if __name__ == "__main__":
    if len(sys.argv) > 2:
        Server.studio = (sys.argv[2],)
    with browser(1600, 1200) as window:
        drawn, changed = receives(window, sys.argv[1])
    print("drawn after %.1f seconds, changed after %.1f more" % (drawn, changed))
    assert drawn <= WITHIN, "it took more than %d seconds" % WITHIN
