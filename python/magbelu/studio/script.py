"""The lines for `flow script` that make a run again."""

from __future__ import annotations

import array
from typing import Iterable, Iterator

from .._held import CODES
from .run import Made, Run

# How many items a line feeds. (A line has 65,536 bytes at most.)
ITEMS_OF_A_LINE = 4096


def set_line(made: Made) -> str:
    values = made.value if isinstance(made.value, list) else [made.value]
    return "set %s %d %s\n" % (made.block, made.at, " ".join(map(str, values)))


def feed_lines(source: str, path: str, item_size: int, count: int) -> Iterator[str]:
    """The items that a source was fed from a file."""
    with open(path, "rb") as file:
        while count > 0:
            data = file.read(min(count, ITEMS_OF_A_LINE) * item_size)
            items = array.array(CODES[item_size], data[: len(data) // item_size * item_size])
            if not items:
                return
            count -= len(items)
            yield "feed %s %s\n" % (source, " ".join(map(str, items)))


def lines_of(run: Run) -> Iterable[str]:
    """All settings, at the items from which they were in force; then what each source was fed so far, as its file has
    it; and what each sink holds then. What came through a pipe is not kept, and a comment says so."""
    for made in list(run.log):
        yield set_line(made)
    for name, it in run.inputs.items():
        if it.is_file and it.path != "-":
            yield from feed_lines(name, it.path, it.item_size, it.count)
        else:
            yield "# %s was fed %d items through a pipe: a line `feed %s ITEM..` for them stands here\n" % (
                name, it.count, name,
            )
    is_whole = run.state == "done"
    for name in run.graph.named("vector_source"):
        if is_whole or name not in run.inputs:
            yield "close %s\n" % name
    yield "settle\n"
    for name in run.traces:
        yield "read %s 0 4294967295\n" % name
