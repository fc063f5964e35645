"""The connections of a drawing between the blocks of the graph, with all wires left out."""

from __future__ import annotations

from dataclasses import dataclass
from typing import Dict, List, Optional, Sequence, Set, Tuple

from .drawing import DrawnConnection
from .faults import AlreadyReported, Code, Refused, Report, shown
from .graph import Connection
from .nodes import Floats, Node, Port


@dataclass(frozen=True)
class _Origin:
    """Where the items of an input come from: an output, through wires of which the last one tells their type, and which
    divide them by 2^shift."""

    node: Node
    port: int
    type: Port
    shift: int


class Wiring:
    """The connections of a drawing. `others` are names of blocks that are no nodes, as those that were refused: what is
    connected to them is not looked at."""

    def __init__(
        self, nodes: Sequence[Node], others: Set[str], connections: Sequence[DrawnConnection], report: Report
    ) -> None:
        self._nodes: Dict[str, Node] = {it.block.name: it for it in nodes}
        self._others = others
        self._report = report
        # The connection that comes to each input, as far as connections are in order.
        self._to: Dict[Tuple[str, int], DrawnConnection] = {}
        # The outputs, and inputs, that something is connected to, in order or not.
        self._used: Set[Tuple[str, str, int]] = set()
        self._connections: List[DrawnConnection] = []
        for connection in connections:
            try:
                self._take(connection)
            except Refused as fault:
                report.refuse(fault)
            except AlreadyReported:
                pass

    def connections(self) -> List[Connection]:
        """The connections of the graph. A filter is told the shift of what is behind it."""
        made: List[Connection] = []
        shifts: Dict[str, int] = {}
        self._report_unused()
        for connection in self._connections:
            node = self._nodes[connection.sink]
            try:
                origin = self._origin(connection, [])
                self._test_type(connection, origin, node.inputs[int(connection.sink_port)])
                self._test_shift(connection, origin, shifts, not node.parts)
            except Refused as fault:
                self._report.refuse(fault)
                continue
            except AlreadyReported:
                continue
            if node.parts:
                made += [
                    Connection(*origin.node.writer(origin.port), *it) for it in node.readers(int(connection.sink_port))
                ]
        for name, shift in shifts.items():
            if shift:
                self._nodes[name].parts[-1].settings["shift"] = shift
        return made

    def _take(self, connection: DrawnConnection) -> None:
        """Takes a connection in, if its ends are there."""
        for name in (connection.source, connection.sink):
            if name not in self._nodes and name not in self._others:
                raise Refused(connection.line, Code.UNKNOWN_BLOCK, "there is no block %s" % shown(name))
        source = self._port(connection, connection.source, connection.source_port, "output")
        sink = self._port(connection, connection.sink, connection.sink_port, "input")
        if source is None or sink is None:
            return
        if (connection.sink, sink) in self._to:
            raise Refused(
                connection.line, Code.INPUT_TAKEN, "input %d of %s has two connections" % (sink, shown(connection.sink))
            )
        self._to[connection.sink, sink] = connection
        self._connections.append(connection)

    def _port(self, connection: DrawnConnection, name: str, text: str, side: str) -> Optional[int]:
        """The number of a port that a block has, or None of a block that is no node."""
        if not (text.isascii() and text.isdigit()):
            raise Refused(
                connection.line, Code.PORT_RANGE,
                "%s %s of %s is one of messages, which are left out" % (side, shown(text), shown(name)),
            )
        if name in self._others:
            return None
        node = self._nodes[name]
        count = len(node.outputs if side == "output" else node.inputs)
        if len(text) > 4 or int(text) >= count:
            raise Refused(
                connection.line, Code.PORT_RANGE, "%s has no %s %s; it has %d" % (shown(name), side, shown(text), count)
            )
        self._used.add((name, side, int(text)))
        return int(text)

    def _report_unused(self) -> None:
        """Reports each port that has no connection."""
        for name, node in self._nodes.items():
            for side, ports in (("input", node.inputs), ("output", node.outputs)):
                for port in range(len(ports)):
                    if (name, side, port) not in self._used:
                        text = "%s %d of %s is not connected%s" % (
                            side, port, shown(name), "; a Null Sink may stand behind it" if side == "output" else "",
                        )
                        self._report.refuse(Refused(node.block.line, Code.TOO_FEW_PORTS, text))

    def _origin(self, connection: DrawnConnection, passed: List[str]) -> _Origin:
        """Where the items of a connection come from, after these wires."""
        node, port = self._nodes[connection.source], int(connection.source_port)
        if node.parts:
            return _Origin(node, port, node.outputs[port], 0)
        if node.block.name in passed:
            first = min(passed[passed.index(node.block.name):], key=lambda it: self._nodes[it].block.line)
            raise Refused(self._nodes[first].block.line, Code.LOOP, "items go in a circle through %s" % shown(first))
        before = self._to.get((node.block.name, 0))
        if before is None:
            raise AlreadyReported
        origin = self._origin(before, [*passed, node.block.name])
        return _Origin(origin.node, origin.port, node.outputs[port] or origin.type, origin.shift + node.shift)

    def _test_type(self, connection: DrawnConnection, origin: _Origin, wanted: Port) -> None:
        if wanted in (None, origin.type) or (wanted is Floats.SUMS and origin.type is Floats.SHORTS):
            return
        text = "%s gives items that are %s, and %s takes %s" % (
            shown(connection.source), origin.type, shown(connection.sink), wanted,
        )
        raise Refused(connection.line, Code.TYPE_MISMATCH, text)

    def _test_shift(self, connection: DrawnConnection, origin: _Origin, shifts: Dict[str, int], is_wire: bool) -> None:
        """Refuses a division that no filter can do: of what is no filter's, or by two numbers."""
        is_sum = Floats.SUMS in origin.node.outputs
        if is_wire or not (is_sum or origin.shift):
            return
        name = origin.node.block.name
        if not is_sum:
            raise Refused(
                connection.line, Code.BAD_PARAMETER,
                "a Float To Short divides by its scale only behind a filter, and %s is none" % shown(name),
            )
        if shifts.setdefault(name, origin.shift) != origin.shift:
            raise Refused(
                connection.line, Code.BAD_PARAMETER,
                "the filter %s is followed by Float To Short blocks of two scales" % shown(name),
            )
