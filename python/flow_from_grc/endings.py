"""Sources that end, and sinks that keep: lists and files."""

from __future__ import annotations

from .entries import ANY
from .faults import Code
from .graph import MOST_TAPE
from .nodes import Node, Part
from .settings import Settings


def vector_source(settings: Settings) -> Node:
    """A list is fed by the graph file, with its tags."""
    item = settings.item_type(ANY)
    settings.ones("vlen")
    settings.needs("repeat", "False", "a source here ends with its list")
    items = settings.listed("vector", MOST_TAPE)
    for at, it in enumerate(items):
        if type(it) is not int or not item.least <= it <= item.most:
            raise settings.refused(
                "vector", Code.ITEM_RANGE, "item %d of vector is no %s, %d to %d" % (at, item, item.least, item.most)
            )
    tags = settings.tags(len(items))
    return Node(settings.block, [], [item], [Part("vector_source", {"type": str(item)})], items=items, tags=tags)


def file_source(settings: Settings) -> Node:
    """A file is a word of the command, and read whole."""
    item = settings.item_type(ANY)
    settings.ones("vlen")
    settings.needs("repeat", "False", "a source here ends with its file")
    settings.needs("begin_tag", "pmt.PMT_NIL", "no tag is put on a file's first item")
    for key, stand_in in (("offset", "Skip Head"), ("length", "Head")):
        if settings.value(key) != 0:
            raise settings.refused(
                key, Code.BAD_PARAMETER,
                "a file is read whole: draw a %s behind it in place of its %s" % (stand_in, key),
            )
    return Node(
        settings.block, [], [item], [Part("vector_source", {"type": str(item)})], input_path=settings.path("file")
    )


def file_sink(settings: Settings) -> Node:
    """A file is a word of the command, and made anew."""
    item = settings.item_type(ANY)
    settings.ones("vlen")
    if settings.value("append") is not False:
        raise settings.refused("append", Code.BAD_PARAMETER, "a file is made anew, and nothing is appended to it")
    return Node(
        settings.block, [item], [], [Part("vector_sink", {"type": str(item)})], output_path=settings.path("file")
    )
