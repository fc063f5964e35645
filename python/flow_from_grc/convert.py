"""A drawing as a graph."""

from __future__ import annotations

import string
from typing import Dict, List, Optional, Sequence, Set, Tuple

from .drawing import Drawing, DrawnBlock, DrawnConnection
from .faults import AlreadyReported, Code, Refused, Report, shown
from .graph import MOST_BLOCKS, MOST_CONNECTIONS, MOST_NAME, Graph
from .kinds import PASSED_OVER, TABLE
from .nodes import Node
from .settings import Settings
from .stand_ins import stand_in
from .variables import Variables, is_variable, rings
from .wiring import Wiring

_NAME_LETTERS = frozenset(string.ascii_letters + string.digits + "_.-")
_VIRTUAL_SINK, _VIRTUAL_SOURCE = "virtual_sink", "virtual_source"


def graph_of(drawing: Drawing, report: Report) -> Graph:
    """The graph of a drawing, which is whole if the report has no fault then."""
    _refuse_hierarchy(drawing, report)
    blocks = [it for it in _unique(drawing.blocks, report) if it.state != "disabled"]
    disabled = {it.name for it in drawing.blocks} - {it.name for it in blocks}
    connections = [it for it in drawing.connections if not {it.source, it.sink} & disabled]
    variables = Variables(blocks, report)
    nodes: List[Node] = []
    others: Set[str] = set()
    for block in blocks:
        node = _node(block, variables, report)
        if node is None:
            others.add(block.name)
        else:
            nodes.append(node)
    connections += _virtual_connections(blocks, report)
    graph = Graph()
    graph.connections = Wiring(nodes, others, connections, report).connections()
    for node in nodes:
        _add(graph, node)
    _test_whole(graph, report)
    return graph


def _refuse_hierarchy(drawing: Drawing, report: Report) -> None:
    option = drawing.options.get("generate_options")
    if option is not None and option.value.startswith("hb"):
        report.refuse(
            Refused(option.line, Code.UNKNOWN_KIND, "the drawing is a hierarchical block, which stands for no graph")
        )


def _unique(blocks: Sequence[DrawnBlock], report: Report) -> List[DrawnBlock]:
    """The blocks whose names none before them has."""
    first: Dict[str, DrawnBlock] = {}
    for block in blocks:
        if block.name in first:
            report.refuse(Refused(block.line, Code.DUPLICATE_NAME, "two blocks are called %s" % shown(block.name)))
        first.setdefault(block.name, block)
    return list(first.values())


def _node(block: DrawnBlock, variables: Variables, report: Report) -> Optional[Node]:
    """What a block becomes, or None where that is nothing, or it is refused."""
    if block.id in PASSED_OVER or is_variable(block.id):
        return None
    if block.state == "bypassed" or block.id in (_VIRTUAL_SINK, _VIRTUAL_SOURCE):
        return Node(block, [None], [None])
    try:
        if block.id not in TABLE:
            text = "%s is a %s, for which there is no kind: %s" % (
                shown(block.name), shown(block.id), stand_in(block.id),
            )
            raise Refused(block.line, Code.UNKNOWN_KIND, text)
        entry = TABLE[block.id]
        settings = Settings(block, entry.defaults, variables, report)
        node = entry.make(settings)
        if node.parts and node.outputs:
            capacity = settings.capacity()
            if capacity is not None:
                for part in node.givers():
                    part.settings["capacity"] = capacity
        _test_names(node)
        return node
    except Refused as fault:
        report.refuse(fault)
    except AlreadyReported:
        pass
    return None


def _test_names(node: Node) -> None:
    """Refuses a name that no graph file takes."""
    for name in node.names():
        if not 1 <= len(name) <= MOST_NAME or not set(name) <= _NAME_LETTERS:
            text = "the name %s is not 1 to %d letters of ASCII, digits, _ . -: give the block another ID" % (
                shown(name),
                MOST_NAME,
            )
            raise Refused(node.block.line, Code.BAD_PARAMETER, text)


def _virtual_connections(blocks: Sequence[DrawnBlock], report: Report) -> List[DrawnConnection]:
    """A connection from the virtual sink of each stream to each of its virtual sources."""
    sinks: Dict[str, DrawnBlock] = {}
    for block, stream in _streams(blocks, _VIRTUAL_SINK):
        if stream in sinks:
            report.refuse(
                Refused(block.line, Code.DUPLICATE_NAME, "two Virtual Sinks have the stream %s" % shown(stream))
            )
        sinks.setdefault(stream, block)
    connections = []
    for block, stream in _streams(blocks, _VIRTUAL_SOURCE):
        if stream in sinks:
            connections.append(DrawnConnection(sinks[stream].name, "0", block.name, "0", block.line))
    return connections


def _streams(blocks: Sequence[DrawnBlock], kind: str) -> List[Tuple[DrawnBlock, str]]:
    """The blocks of one of the two virtual kinds, each with the name of its stream."""
    return [
        (it, it.parameters["stream_id"].value)
        for it in blocks
        if it.id == kind and it.state != "bypassed" and "stream_id" in it.parameters
    ]


def _add(graph: Graph, node: Node) -> None:
    """Adds what stands for a block, with what it is fed from and writes to."""
    graph.blocks += node.blocks()
    graph.connections += node.inner_connections()
    feed = node.feed()
    if feed is not None:
        graph.feeds.append(feed)
    if node.input_path is not None:
        graph.inputs.append((node.block.name, node.input_path))
    if node.output_path is not None:
        graph.outputs.append((node.block.name, node.output_path))


def _test_whole(graph: Graph, report: Report) -> None:
    """Refuses what is wrong with no single block."""
    if report.faults:
        return
    for what, count, most in (
        ("blocks", len(graph.blocks), MOST_BLOCKS),
        ("connections", len(graph.connections), MOST_CONNECTIONS),
    ):
        if count > most:
            report.refuse(
                Refused(1, Code.TOO_LARGE, "the graph has %d %s; a graph file has at most %d" % (count, what, most))
            )
    if not graph.blocks:
        report.refuse(Refused(1, Code.MISSING_KEY, "the drawing has no blocks that a graph could have"))
    readers: Dict[str, List[str]] = {it.name: [] for it in graph.blocks}
    for connection in graph.connections:
        readers[connection.source].append(connection.sink)
    for ring in rings(readers):
        report.refuse(Refused(1, Code.LOOP, "the connections form a loop: %s" % " -> ".join([*ring, ring[0]])))
