"""Magbelu flowgraphs from Python: this folder and the library libmagbelu.so, which `./build --c` makes. docs/user/C.md
says where it is looked for.

    >>> import magbelu
    >>> print(magbelu.EXAMPLE)
    block = [
        { name = "src", kind = "vector_source", type = "byte" },
        { name = "add", kind = "add_const", type = "byte", value = 10 },
        { name = "out", kind = "vector_sink", type = "byte" },
    ]
    connect = [{ from = "src", to = "add" }, { from = "add", to = "out" }]
    >>> graph = magbelu.Graph(magbelu.EXAMPLE)
    >>> graph.feed("src", [250, 1, 2, 3])
    4
    >>> graph.set("add", 100, at=2)
    2
    >>> graph.settle()
    False
    >>> items, tags = graph.read("out")
    >>> items.tolist()
    [4, 11, 102, 103]

A graph is a plant that the library holds until the object goes, or `free` is called: it is fed, set, run and read any
number of times, and what was read stays readable. A `Stream` is one that forgets what went through it, and so goes on
for as long as it is fed; in `magbelu.gnuradio` one is a block of GNU Radio. `run_slices` runs a recording in slices of
time, on as many threads as there are processors. The library itself starts no thread. Calls release the interpreter's
lock, so threads may run graphs side by side, each of its own; one graph does one call at a time. Items are
`array.array`s, or arrays of numpy where that is installed. A `Builder` makes a graph by calls in place of a file, and a
graph tells its `blocks`, `connections`, `sources` and `sinks`.

Items, tags, settings, places and counts are integers: `int`, those of numpy, and every other type that has `__index__`,
but no truth values. Nothing is rounded, cut or wrapped: what is no integer is a `TypeError`, what no call could mean a
`ValueError`, and what the library refuses a `Refused` with its number.
"""

from typing import Final

from ._builder import Builder
from ._codes import Code, convolutional
from ._errors import Error, OutOfMemory, Refused
from ._graph import Graph
from ._held import Array, Items, Tag
from ._kinds import KINDS
from ._listing import Block, Connection, Need, Port, Rates, Setting
from ._runs import Place, check, place, run, run_items, script, version
from ._slice_runs import run_slices
from ._slices import SinkPart, SinkSlices, Slice, Slices, SourceSlices
from ._stream import Levels, Piece, Stream

__all__ = [
    "EXAMPLE", "KINDS", "Array", "Block", "Builder", "Code", "Connection", "Error", "Graph", "Items", "Levels", "Need",
    "OutOfMemory", "Piece", "Place", "Port", "Rates", "Refused", "Setting", "SinkPart", "SinkSlices", "Slice", "Slices",
    "SourceSlices", "Stream", "Tag", "check", "convolutional", "place", "run", "run_items", "run_slices", "script",
    "version",
]

#: A graph file for examples: ten is added to each byte.
EXAMPLE: Final = """\
block = [
    { name = "src", kind = "vector_source", type = "byte" },
    { name = "add", kind = "add_const", type = "byte", value = 10 },
    { name = "out", kind = "vector_sink", type = "byte" },
]
connect = [{ from = "src", to = "add" }, { from = "add", to = "out" }]"""
