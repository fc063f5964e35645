"""The command flow-from-grc."""

from __future__ import annotations

import argparse
import errno
import os
import sys
from typing import List, Optional, Sequence

from .convert import graph_of
from .drawing import read_drawing
from .faults import Code, Refused, Report, shown

_NAME = "flow-from-grc"

# The statuses of `flow`.
_DONE, _REFUSED, _FAILED = 0, 1, 4


def main(words: Optional[Sequence[str]] = None) -> int:
    """Does what the words ask for, and gives the status."""
    options = _parser().parse_args(words)
    report = Report()
    name = shown(os.path.basename(options.file))
    try:
        with open(options.file, "rb") as file:
            data = file.read()
    except OSError as error:
        return _failed(Code.READ, options.file, error)
    try:
        graph = graph_of(read_drawing(data, report), report)
    except Refused as fault:
        report.refuse(fault)
    if report.faults:
        _say(report.fault_lines(options.file))
        return _REFUSED
    # (a comment is one line, of characters that TOML takes)
    shown_path = options.output if (options.output or "").isprintable() else None
    text = graph.toml(
        [
            "Drawn in GNU Radio Companion as %s, and written by %s. To run it:" % (name, _NAME),
            "    " + graph.command(shown_path),
        ]
    )
    try:
        _write(text, options.output, options.file)
    except OSError as error:
        return _failed(Code.WRITE, options.output or "standard output", error)
    _say(report.note_lines(options.file))
    print(graph.command(options.output), file=sys.stderr)
    return _DONE


def _parser() -> argparse.ArgumentParser:
    parser = argparse.ArgumentParser(
        prog=_NAME,
        description="Writes a flowgraph that was drawn in GNU Radio Companion 3.10 as a graph file for flow, and on"
        " standard error the words that run it.",
    )
    parser.add_argument(
        "-o", "--output", metavar="GRAPH", help="where the graph file is written, if not on standard output"
    )
    parser.add_argument("file", metavar="FILE.grc", help="the drawing")
    return parser


def _say(lines: List[str]) -> None:
    for line in lines:
        print("%s: %s" % (_NAME, line), file=sys.stderr)


def _failed(code: Code, path: str, error: OSError) -> int:
    _say(["refused %s %s: %s" % (code, shown(path), error.strerror)])
    return _FAILED


def _write(text: str, path: Optional[str], drawing: str) -> None:
    data = text.encode("utf-8", "backslashreplace")
    if path is None:
        sys.stdout.buffer.write(data)
        sys.stdout.buffer.flush()
        return
    if os.path.isfile(path) and os.path.samefile(path, drawing):
        raise OSError(errno.EEXIST, "it is the drawing")
    with open(path, "wb") as file:
        file.write(data)
