"""What a block of GNU Radio makes of a graph before it runs, over a stand-in for the library. tests/parts/gnuradio.sh
calls it."""

from __future__ import annotations

import copy
import ctypes
import re
from typing import Any

from joining import chain, equal
from magbelu import _library
from magbelu.gnuradio import Flowgraph


TEXT = chain("short", '"add", kind = "add_const", value = 10')


ROLES = {"vector_source": 1, "vector_sink": 2, "null_sink": 3}


class Accepting:
    """Stands for the library: each graph is opened and has the blocks of its text, of shorts, and is fed nothing."""

    def magbelu_bytes_open_stream(self, plant: Any, file: Any, file_len: int, *words: Any) -> Any:
        text = ctypes.string_at(file, file_len) if file_len else b""
        self.blocks = re.findall(rb'name = "(\w+)",?\s+kind = "(\w+)"', text)
        return _library.Answer(0, 0, 0, 0)

    def magbelu_bytes_block_count(self, plant: Any) -> Any:
        return _library.Reply(0, 0, 0, len(self.blocks))

    def magbelu_bytes_block(self, plant: Any, number: int, name: Any, name_room: int, kind: Any, kind_room: int) -> Any:
        texts = self.blocks[number]
        for text, at in zip(texts, (name, kind)):
            ctypes.memmove(at, text, len(text))
        return _library.Listed(0, 0, ROLES.get(texts[1].decode(), 0), 1, 1, 1, 1, *map(len, texts))

    def magbelu_bytes_feed(self, plant: Any, *words: Any) -> Any:
        return _library.Reply(0, 0, 0, 0)

    def magbelu_bytes_free(self, plant: Any) -> Any:
        return _library.Reply(0, 0, 0, 0)


def graphs_have_outputs() -> None:
    """A graph without an input is a block, but none without an output: GNU Radio would end that with the first of its
    inputs."""
    equal([len(it) for it in Flowgraph(text=TEXT).ports], [1, 1])
    equal(
        [len(it) for it in Flowgraph(text='[[block]]\nname = "out"\nkind = "vector_sink"\ntype = "byte"').ports], [0, 1]
    )
    for wrong in (TEXT.replace("vector_sink", "null_sink"), ""):
        try:
            Flowgraph(text=wrong)
        except ValueError as error:
            equal("vector_sink" in str(error) and "output" in str(error), True, str(error))
        else:
            raise AssertionError("a block without an output")


def files_are_named() -> None:
    """A block without a file, of a text in place of its path, and a copy of one, are refused by what is wrong with
    them."""
    for call, part in (
        (Flowgraph, "graph file"), (lambda: copy.copy(Flowgraph(text=TEXT)), "copied"),
        (lambda: copy.deepcopy(Flowgraph(text=TEXT)), "copied"),
    ):
        try:
            call()
        except TypeError as error:
            equal(part in str(error), True, str(error))
        else:
            raise AssertionError("a block of no file, or a copy")
    try:
        Flowgraph(TEXT)
    except ValueError as error:
        equal("Flowgraph(text=..)" in str(error), True, str(error))
    else:
        raise AssertionError("a text is a path")


_library._loaded = Accepting()
graphs_have_outputs()
files_are_named()
