"""What the cases share: blocks of GNU Radio around a `Flowgraph`, and the running of them."""

from __future__ import annotations

import threading
from typing import Any, Iterable, Optional, Sequence

import pmt
from gnuradio import blocks, gr

from magbelu.gnuradio import Flowgraph

SOURCES = {"byte": blocks.vector_source_b, "short": blocks.vector_source_s, "int": blocks.vector_source_i}
SINKS = {"byte": blocks.vector_sink_b, "short": blocks.vector_sink_s, "int": blocks.vector_sink_i}
# Within so many seconds each run ends that ends at all.
PATIENCE = 60


def tag(offset: int, key: str, value: Any) -> gr.tag_t:
    """A tag; a value that is an integer is a long."""
    made = gr.tag_t()
    made.offset, made.key = offset, pmt.intern(key)
    made.value = pmt.from_long(value) if isinstance(value, int) else value
    return made


def source(type: str, items: Sequence[int], tags: Iterable[gr.tag_t] = (), repeat: bool = False) -> Any:
    """A block that gives these items."""
    return SOURCES[type](items, repeat, 1, list(tags))


def joined(graph: Flowgraph, sources: Sequence[Any]) -> tuple[gr.top_block, list[Any]]:
    """These sources before the ports of a graph, and a sink that keeps behind each."""
    top, sinks = gr.top_block(), [SINKS[port.type]() for port in graph.ports.outputs]
    for port, it in enumerate(sources):
        top.connect(it, (graph, port))
    for port, it in enumerate(sinks):
        top.connect((graph, port), it)
    return top, sinks


def waited(top: gr.top_block) -> None:
    """Waits for a run, which has to end."""
    waiter = threading.Thread(target=top.wait, daemon=True)
    waiter.start()
    waiter.join(PATIENCE)
    assert not waiter.is_alive(), "the run does not end"


def ran(graph: Flowgraph, sources: Sequence[Any]) -> list[Any]:
    """Runs a graph behind these sources to its end. It gives the sinks."""
    top, sinks = joined(graph, sources)
    top.start()
    waited(top)
    return sinks


def tags_of(sink: Any) -> list[tuple[int, str, int]]:
    """The tags of a sink that keeps them, by their offsets, as Magbelu has them."""
    return sorted((it.offset, pmt.symbol_to_string(it.key), pmt.to_long(it.value)) for it in sink.tags())


def chain(type: str, *kinds: str) -> str:
    """The text of a graph: a source `src`, these blocks in a row, each a name with its keys, and a sink `out`."""
    rows = ['"src", kind = "vector_source"', *kinds, '"out", kind = "vector_sink"']
    names = [it.split('"')[1] for it in rows]
    tables = ['{ name = %s%s }' % (it, "" if "type =" in it else ', type = "%s"' % type) for it in rows]
    connects = ['{ from = "%s", to = "%s" }' % pair for pair in zip(names, names[1:])]
    return "block = [%s]\nconnect = [%s]\n" % (", ".join(tables), ", ".join(connects))


def equal(found: Any, wanted: Any, what: Optional[str] = None) -> None:
    """That both are the same."""
    if found != wanted:
        texts = [repr(it) for it in (wanted, found)]
        raise AssertionError(
            "%s: wanted %s, and there came %s"
            % (what or "it", *(it if len(it) < 400 else it[:400] + " .." for it in texts))
        )
