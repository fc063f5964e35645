"""`pictures.py FOLDER` takes the pictures of docs/user/STUDIO.md."""

from __future__ import annotations

import pathlib
import subprocess
import sys
import tempfile
import time

from browser import TOP, Server, browser, click, comes_to

SIGNAL = TOP / "examples/signal"


def signal(at: pathlib.Path) -> None:
    """A recording through a filter, as it goes on."""
    with tempfile.TemporaryDirectory() as folder:
        recording = folder + "/recording.s16"
        subprocess.run([SIGNAL / "make.py", "recording", recording], check=True)
        words = [it for view in ("levels", "spectrum", "waterfall") for it in ("-w", "out=" + view)]
        with Server(
            "--paused", "-i", "adc=" + recording, "--rate", "20000", *words, str(SIGNAL / "graph.toml")
        ) as server, browser(1280, 1010) as driver:
            driver.get(server.address)
            comes_to(driver, "paused")
            click(driver, "#graph [data-block=low]")
            click(driver, "#run")
            time.sleep(4)
            driver.save_screenshot(str(at / "studio_signal.png"))


def file(at: pathlib.Path) -> None:
    """A fault in a graph file, in the dark."""
    with Server(str(TOP / "examples/echo/graph.toml")) as server, browser(1280, 900) as driver:
        driver.get(server.address)
        comes_to(driver, "done")
        driver.find_element("css selector", "#theme").click()
        driver.find_element("css selector", "[data-shows=file]").click()
        field = driver.find_element("css selector", "#editor textarea")
        field.click()
        driver.execute_script(
            "const at = arguments[0].value.indexOf('delay') + 3; arguments[0].setSelectionRange(at, at)", field
        )
        field.send_keys("l")
        time.sleep(2)
        driver.save_screenshot(str(at / "studio_file.png"))


if __name__ == "__main__":
    for picture in (signal, file):
        picture(pathlib.Path(sys.argv[1]))
