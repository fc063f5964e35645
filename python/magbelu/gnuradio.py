"""Magbelu inside GNU Radio 3.10: a graph file as a block of a flowgraph.

    from gnuradio import blocks, gr
    import magbelu.gnuradio

    top = gr.top_block()
    source, sink = blocks.vector_source_b([250, 1, 2, 3]), blocks.vector_sink_b()
    top.connect(source, magbelu.gnuradio.Flowgraph("graph.toml"), sink)
    top.run()

The module can be imported where there is no GNU Radio; to make a `Flowgraph` is an ImportError there.
"""

from __future__ import annotations

from typing import Iterable, Mapping, NoReturn, Optional, SupportsIndex, Union

from ._arguments import Text, bytes_of
from ._companion import has_port, has_ports, type_of
from ._gr_block import NO_GNU_RADIO, Block, HierBlock, blocks, gr, pmt
from ._gr_tags import Tags
from ._listing import Need, Port
from ._ports import Path, Ports, ports, ports_of
from ._runs import NO_PATH, read_file
from ._stream import Levels, Stream

__all__ = ["Flowgraph", "Port", "Ports", "has_port", "has_ports", "ports", "type_of"]

Setting = Union[SupportsIndex, Iterable[SupportsIndex]]


class Flowgraph(HierBlock):  # type: ignore[misc]
    """The graph of a file as a block of GNU Radio. Its input ports are the graph's sources, its output ports the vector
    sinks, in the order of the file. It has at least one sink, and each port must be connected. If `text` is given, it
    stands for the file, and `path` is only what it is called. What the file feeds a source comes before what the port
    brings.

    Memory is constant, and a source is fed only when it lacks items. A tag comes in if its key is a symbol of 1 to 16
    letters, digits, `_`, `.` or `-`, and its value a long. Tags go out at the items where the graph puts them, with the
    name of their source as source id. All others are left out, and `tags_left_out` counts them; with `other_tags`
    "refuse" one of them ends the block.

    A source is closed once the blocks before its port are done and all of it was taken. This block is done once its
    graph is, and all was given. Then `outcome` is "done"; "stalled", if the graph came to rest before its end; or
    "failed", and `fault` is the exception. GNU Radio's log has the last two. As long as `outcome` is None, a stopped
    block goes on where it is when it is started again. One that has ended begins anew, with the values of the file.

    Keep a reference to it as long as the flowgraph is there, as to every block in Python.
    """

    def __init__(self, path: Optional[Path] = None, other_tags: str = "leave out", text: Optional[Text] = None) -> None:
        if NO_GNU_RADIO is not None:
            raise ImportError("magbelu.gnuradio needs GNU Radio 3.10 where this Python finds it: %s" % NO_GNU_RADIO)
        if other_tags not in ("leave out", "refuse"):
            raise ValueError('other tags are "leave out" or "refuse", and not %r' % (other_tags,))
        if path is None and text is None:
            raise TypeError('a Flowgraph is that of a graph file: Flowgraph("graph.toml"), or Flowgraph(text="...")')
        file = read_file(path or NO_PATH) if text is None else bytes_of(text)
        stream = Stream(file, NO_PATH if path is None else str(path))
        self.ports = ports_of(stream)
        if not self.ports.outputs:
            raise ValueError(
                "a graph without a vector_sink gives a block without an output, which GNU Radio ends with the first of "
                "its inputs"
            )
        # (a signature of no ports has a size too)
        super().__init__(
            "magbelu_flowgraph",
            *(gr.io_signature.makev(len(side), len(side), [it.size for it in side] or [1]) for side in self.ports),
        )
        ends = [blocks.copy(it.size) for it in self.ports.inputs]
        self._block = Block(
            stream, [it.name for it in stream.blocks], self.ports, ends, Tags(pmt, other_tags == "refuse")
        )
        for port, end in enumerate(ends):
            self.connect((self, port), end, (self._block, port))
            self._block.names_end(port)
        for port in range(len(self.ports.outputs)):
            self.connect((self._block, port), (self, port))

    def __reduce_ex__(self, protocol: SupportsIndex) -> NoReturn:
        """Refuses `copy` and `pickle`: GNU Radio has no copies of blocks."""
        raise TypeError("a Flowgraph is neither copied nor pickled")

    def set(self, block: Text, value: Setting, at: Optional[SupportsIndex] = None) -> int:
        """Sets a block's value as `Stream.set` does, at any time and from any thread: from its input item `at` on, or
        from the first that it has not taken. It gives that item."""
        return int(self._block.stream.set(block, value, at))

    def set_all(self, values: Mapping[str, Setting]) -> None:
        """Sets the values of several blocks at once, as Companion does where a variable changes."""
        for block, value in values.items():
            self.set(block, value)

    def need(self, block: Text) -> Need:
        """What a block of the graph waits for."""
        need: Need = self._block.stream.need(block)
        return need

    def levels(self, block: Text) -> Levels:
        """How far a block of the graph is."""
        levels: Levels = self._block.stream.levels(block)
        return levels

    @property
    def outcome(self) -> Optional[str]:
        """How it ended: "done", "stalled" or "failed", or None where it has not."""
        outcome: Optional[str] = self._block.outcome
        return outcome

    @property
    def fault(self) -> Optional[Exception]:
        """What it failed of."""
        fault: Optional[Exception] = self._block.fault
        return fault

    @property
    def tags_left_out(self) -> int:
        """How many tags were left out, since the graph cannot have them."""
        return int(self._block.tags.left_out)
