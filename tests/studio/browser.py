"""A server of magbelu.studio, and a browser that opens its page."""

from __future__ import annotations

import contextlib
import os
import pathlib
import subprocess
import sys
import time
from typing import Any, Callable, Iterator, Optional

TOP = pathlib.Path(__file__).resolve().parents[2]
# How long is waited for what has to come, in seconds: a machine may be busy.
PATIENCE = 60


class Server:
    """A server, as the command starts it."""

    #: What Python gets as the command, of the checkout or of an installation.
    studio: tuple[str, ...] = (str(TOP / "magbelu-studio"),)

    def __init__(self, *words: str, stdin: Any = subprocess.DEVNULL, env: Optional[dict[str, str]] = None,
            opens: bool = False, studio: tuple[str, ...] = ()) -> None:
        command = [sys.executable, *(studio or self.studio), *["--no-open"] * (not opens), *words]
        self.process = subprocess.Popen(command, stdin=stdin, stdout=subprocess.PIPE, stderr=subprocess.PIPE,
            env={**os.environ, **(env or {})})
        assert self.process.stderr is not None
        self.line = self.process.stderr.readline().decode().strip()
        self.address = self.line.partition(": ")[2]

    @property
    def port(self) -> int:
        return int(self.address.split(":")[2].split("/")[0])

    def memory(self) -> int:
        """How many KiB of memory the server has."""
        lines = pathlib.Path("/proc/%d/status" % self.process.pid).read_text().splitlines()
        return int(next(it for it in lines if it.startswith("VmRSS:")).split()[1])

    def seconds(self) -> float:
        """How long processors have worked for it."""
        words = pathlib.Path("/proc/%d/stat" % self.process.pid).read_text().rpartition(")")[2].split()
        return (int(words[11]) + int(words[12])) / os.sysconf("SC_CLK_TCK")

    def end(self) -> int:
        self.process.terminate()
        return self.process.wait(PATIENCE)

    def __enter__(self) -> Server:
        return self

    def __exit__(self, *_: object) -> None:
        if self.process.poll() is None:
            self.end()
        for it in (self.process.stdout, self.process.stderr):
            if it is not None:
                it.close()


@contextlib.contextmanager
def browser(width: int = 1280, height: int = 900) -> Iterator[Any]:
    """A browser without a window."""
    from selenium import webdriver
    from selenium.webdriver.chrome.service import Service

    options = webdriver.ChromeOptions()
    # (as root it has no sandbox, and where there is little shared memory it takes files)
    for word in (
        "--headless=new", "--no-sandbox", "--disable-dev-shm-usage", "--disable-gpu",
        "--window-size=%d,%d" % (width, height),
    ):
        options.add_argument(word)
    options.binary_location = "/usr/bin/chromium"
    options.set_capability("goog:loggingPrefs", {"browser": "ALL"})
    driver = webdriver.Chrome(options=options, service=Service("/usr/bin/chromedriver"))
    try:
        yield driver
    finally:
        driver.quit()


def until(what: str, holds: Callable[[], Any]) -> Any:
    """Waits until something holds, and gives it."""
    ends = time.monotonic() + PATIENCE
    while True:
        found = holds()
        if found:
            return found
        assert time.monotonic() < ends, "it did not come to this: %s" % what
        time.sleep(0.05)


def text_of(driver: Any, selector: str) -> str:
    """The text of an element, or nothing where there is none. (It may be made anew meanwhile.)"""
    script = "const it = document.querySelector(arguments[0]); return it ? it.textContent : ''"
    return str(driver.execute_script(script, selector))


def click(driver: Any, selector: str) -> None:
    """Clicks on an element. (It may be made anew meanwhile.)"""
    from selenium.common.exceptions import StaleElementReferenceException

    def is_clicked() -> bool:
        try:
            driver.find_element("css selector", selector).click()
        except StaleElementReferenceException:
            return False
        return True

    until("a click on %s" % selector, is_clicked)


def fill(driver: Any, selector: str, text: str) -> None:
    """Writes into a field, in place of what is there, and leaves it."""
    field = driver.find_element("css selector", selector)
    field.clear()
    field.send_keys(text + "\t")


def choose(driver: Any, selector: str, value: str) -> None:
    from selenium.webdriver.support.ui import Select

    Select(driver.find_element("css selector", selector)).select_by_value(value)


def comes_to(driver: Any, state: str) -> None:
    until("the state is %r" % state, lambda: text_of(driver, "#state") == state)


def as_numbers(driver: Any, sink: str) -> None:
    """Shows a sink as numbers."""
    choose(driver, "figure[data-sink='%s'] .bar select" % sink, "numbers")


def numbers_of(driver: Any, sink: str) -> list[int]:
    """The items of a sink that the page shows as numbers."""
    script = "return [...document.querySelectorAll(`figure[data-sink='${arguments[0]}'] .numbers .item`)].map((it) => Number(it.textContent))"
    return list(driver.execute_script(script, sink))


def tags_of(driver: Any, sink: str) -> list[str]:
    script = "return [...document.querySelectorAll(`figure[data-sink='${arguments[0]}'] .numbers .tag`)].map((it) => it.textContent)"
    return list(driver.execute_script(script, sink))
