"""The command magbelu-studio."""

from __future__ import annotations

import argparse
import os
import re
import secrets
import sys
import threading
import webbrowser
from typing import Optional, Sequence

from .._errors import Error
from .run import Ways

NAME = "magbelu-studio"
# The statuses of `flow`, and that of a shell for what is lacking.
DONE, REFUSED, FAILED, LACKING = 0, 1, 4, 127
#: How a sink can be shown where the command says so.
VIEWS = ("levels", "bits", "spectrum", "waterfall", "numbers")
#: Where this is set, it is the token of the address, so that a server that begins anew has the address of the one
#: before.
TOKEN = "MAGBELU_STUDIO_TOKEN"
# How often a thread that computes lets another one run, in seconds: the run is not to wait for the views.
SWITCH = 0.0005


def pair(word: str) -> tuple[str, str]:
    name, found, path = word.partition("=")
    if not found or not name or not path:
        raise argparse.ArgumentTypeError("%r is not NAME=PATH" % word)
    return name, path


def watch(word: str) -> tuple[str, str]:
    name, view = pair(word)
    block, _, port = name.partition(":")
    if view not in VIEWS or not block or not re.fullmatch(r"\d{0,5}", port, re.ASCII):
        raise argparse.ArgumentTypeError(
            "%r is not BLOCK=VIEW or BLOCK:OUTPUT=VIEW with a view of %s" % (word, ", ".join(VIEWS))
        )
    return name, view


def count(word: str) -> int:
    if not word.isdecimal() or int(word) == 0:
        raise argparse.ArgumentTypeError("%r is no whole number from 1 on" % word)
    return int(word)


def parser() -> argparse.ArgumentParser:
    it = argparse.ArgumentParser(
        prog=NAME, description="Runs a graph file of flow, and shows it in the browser while it runs."
    )
    it.add_argument(
        "-i", dest="inputs", metavar="SOURCE=PATH", type=pair, action="append", default=[],
        help="feeds a source the raw items of a file, a pipe, or standard input (-)",
    )
    it.add_argument(
        "-o", dest="outputs", metavar="SINK=PATH", type=pair, action="append", default=[],
        help="writes what a sink takes as raw items",
    )
    it.add_argument(
        "-w", "--watch", metavar="BLOCK=VIEW", type=watch, action="append", default=[],
        help="shows what a block gives, of its output N with BLOCK:N, as %s" % ", ".join(VIEWS),
    )
    it.add_argument("--rate", metavar="ITEMS", type=count, help="takes so many items of each input a second at most")
    it.add_argument("--paused", action="store_true", help="waits with the run until the page says so")
    it.add_argument(
        "--port", metavar="N", type=int, default=0, help="the port of 127.0.0.1; a free one where it is left out"
    )
    it.add_argument("--no-open", action="store_true", help="prints the address alone, and opens no browser")
    it.add_argument("graph", metavar="GRAPH", help="the graph file")
    return it


def ways_of(options: argparse.Namespace) -> Ways:
    for pairs in (options.inputs, options.outputs):
        names, paths = [name for name, _ in pairs], [path for _, path in pairs]
        if len(set(names)) < len(names) or paths.count("-") > 1:
            raise ValueError("a block, and `-`, stand once among the inputs and once among the outputs")
    return Ways(dict(options.inputs), dict(options.outputs))


def open_browser(address: str) -> None:
    """Opens the page, where there is a display. (The thread ends with the program.)"""
    if os.environ.get("DISPLAY") or os.environ.get("WAYLAND_DISPLAY") or sys.platform != "linux":
        threading.Thread(target=webbrowser.open, args=(address,), daemon=True).start()


def main(words: Optional[Sequence[str]] = None) -> int:
    """Does what the words ask for, and gives the status."""
    options = parser().parse_args(words)
    try:
        from aiohttp import web

        from .server import HOST, Server, listening
    except ImportError:
        return said("Python has no module aiohttp: the package python3-aiohttp of Debian has it", LACKING)
    from .studio import Studio

    sys.setswitchinterval(SWITCH)
    try:
        own = listening(options.port)
        studio = Studio(options.graph, ways_of(options), options.rate, options.watch)
    except (Error, ValueError) as error:
        return said("refused %s" % error, REFUSED)
    except (ImportError, OSError, OverflowError) as error:
        return said(str(error), FAILED)
    if not options.paused:
        studio.run.call(studio.run.go_on)
    token = os.environ.get(TOKEN) or secrets.token_urlsafe(24)
    address = "http://%s:%d/%s/" % (HOST, own.getsockname()[1], token)
    said(address)
    if not options.no_open:
        open_browser(address)
    try:
        web.run_app(
            Server(studio, own.getsockname()[1], token).app(), sock=own, print=lambda *_: None, access_log=None,
            shutdown_timeout=1,
        )
    finally:
        studio.end()
    return FAILED if studio.run.state == "failed" else DONE


def said(line: str, status: int = DONE) -> int:
    print("%s: %s" % (NAME, line), file=sys.stderr, flush=True)
    return status
