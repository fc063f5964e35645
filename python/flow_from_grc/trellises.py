"""Machines that code, and the decoders that find the path through one: of what came the metrics, and of these the
symbols."""

from __future__ import annotations

from dataclasses import dataclass
from typing import Any, Dict, List, Sequence, Tuple

from .entries import MOST_PORTS
from .faults import Code
from .graph import ItemType, Setting
from .nodes import End, Floats, Node, Part
from .ranges import limit
from .settings import Settings

_BYTE, _INT = ItemType.BYTE, ItemType.INT
_LETTERS = {"b": ItemType.BYTE, "s": ItemType.SHORT, "i": ItemType.INT}
_MOST_ROWS = limit("state_machine", "next", "most_count")
# Of a decoder: how many states there are, and of a block how many metrics, and states over all steps. (The ranges of
# its parameters have these in words.)
_MOST_STATES, _MOST_METRICS, _MOST_CHOICES = 1024, 1024, 16384


@dataclass(frozen=True)
class _Machine:
    """How many symbols, states and outputs there are, and for each state and symbol the next state and the output."""

    symbols: int
    states: int
    outputs: int
    next: Sequence[int]
    output: Sequence[int]


@dataclass(frozen=True)
class _Constellation:
    """What came is as many items for each step as there are dimensions, and each output a point with as many
    numbers."""

    item: ItemType
    outputs: int
    dimensions: int
    points: Sequence[Sequence[int]]


def encoder(settings: Settings) -> Node:
    """A machine of bytes, between converters where its items are others."""
    takes, gives = (
        _LETTERS[it] for it in settings.word("type", {it: it for it in ("bb", "bs", "bi", "ss", "si", "ii")})
    )
    machine = _machine(settings)
    start = settings.whole("init_state", 0, machine.states - 1)
    settings.needs("blockwise", "False", "GNU Radio's goes on from one block to the next all the same: switch it off")
    if max(machine.output) > limit("state_machine", "output"):
        raise settings.refused(
            "fsm_args", Code.BAD_PARAMETER, "its outputs go to %d; a kind has bytes" % max(machine.output)
        )
    keys: Dict[str, Setting] = {
        "symbols": machine.symbols, "next": list(machine.next), "output": list(machine.output), "init": start,
    }
    return Node(
        settings.block, [takes], [gives],
        [*_converted(takes, _BYTE), Part("state_machine", keys), *_converted(_BYTE, gives)],
    )


def metrics(settings: Settings) -> Node:
    """Whole metrics, which only a decoder takes."""
    points = _constellation(settings, settings.whole("card", 1, MOST_PORTS))
    parts, inner = _measured(points)
    return Node(settings.block, [points.item], [Floats.METRICS], parts, inner=inner)


def viterbi(settings: Settings) -> Node:
    """The decoder behind metrics."""
    gives = _LETTERS[settings.word("type", {it: it for it in _LETTERS})]
    return Node(settings.block, [Floats.METRICS], [gives], _decoder(settings, _machine(settings), gives))


def viterbi_combined(settings: Settings) -> Node:
    """The metrics and the decoder."""
    machine = _machine(settings)
    gives = _LETTERS[settings.word("out_type", {it: it for it in _LETTERS})]
    points = _constellation(settings, machine.outputs)
    parts, inner = _measured(points)
    decoder = _decoder(settings, machine, gives)
    inner += [(End(at), End(at + 1)) for at in range(len(parts) - 1, len(parts) + len(decoder) - 1)]
    return Node(settings.block, [points.item], [gives], [*parts, *decoder], inner=inner)


def _converted(item: ItemType, to: ItemType) -> List[Part]:
    return [] if item is to else [Part("convert", {"type": str(item), "to": str(to)})]


def _decoder(settings: Settings, machine: _Machine, gives: ItemType) -> List[Part]:
    """A decoder of whole metrics."""
    counts = (
        ("symbols", machine.symbols, limit("viterbi", "symbols")), ("states", machine.states, _MOST_STATES),
        ("outputs", machine.outputs, _MOST_METRICS),
    )
    for what, count, most in counts:
        if count > most:
            raise settings.refused(
                "fsm_args", Code.BAD_PARAMETER, "it has %d %s; a decoder takes %d" % (count, what, most)
            )
    steps = settings.whole("block_size", 1, min(_MOST_METRICS // machine.outputs, _MOST_CHOICES // machine.states))
    start, end = (max(settings.whole(key, _INT.least, machine.states - 1), -1) for key in ("init_state", "final_state"))
    keys: Dict[str, Setting] = {
        "type": str(_INT), "symbols": machine.symbols, "next": list(machine.next), "outputs": machine.outputs,
        "output": list(machine.output),
    }
    keys.update(steps=steps, start=start, end=end)
    return [Part("viterbi", keys), *_converted(_BYTE, gives)]


def _machine(settings: Settings) -> _Machine:
    """The machine that a drawing gives as I, S, O, NS, OS, or as a convolutional code 1, n, G."""
    given: Any = settings.value("fsm_args")
    if not isinstance(given, tuple) or not (
        len(given) == 5 or (len(given) == 3 and given[0] == 1 and isinstance(given[2], (list, tuple)))
    ):
        raise settings.refused(
            "fsm_args", Code.BAD_PARAMETER, "its machine is neither `I, S, O, NS, OS` in numbers nor a code `1, n, G`"
        )
    machine = _Machine(*given) if len(given) == 5 else _code(settings, *given[1:])
    for count in (machine.symbols, machine.states, machine.outputs):
        _test(settings, count, 1, _INT.most)
    rows = machine.symbols * machine.states
    for numbers, most in ((machine.next, machine.states), (machine.output, machine.outputs)):
        if not isinstance(numbers, (list, tuple)) or len(numbers) != rows or rows > _MOST_ROWS:
            raise settings.refused(
                "fsm_args", Code.BAD_PARAMETER, "NS and OS have I * S numbers each, and a kind takes %d" % _MOST_ROWS
            )
        for it in numbers:
            _test(settings, it, 0, most - 1)
    return machine


def _code(settings: Settings, count: Any, polynomials: Sequence[Any]) -> _Machine:
    """A convolutional code with a bit of each polynomial, that of the first the highest. The highest bit of the
    greatest polynomial is for the newest bit that came, and the state the bits before it."""
    if len(polynomials) != count or not 1 <= len(polynomials) <= _BYTE.bits:
        raise settings.refused("fsm_args", Code.BAD_PARAMETER, "G has n numbers, from 1 to %d" % _BYTE.bits)
    for it in polynomials:
        _test(settings, it, 1, _MOST_ROWS - 1)
    states = 1 << (max(polynomials).bit_length() - 1)
    rows = [bit * states + state for state in range(states) for bit in range(2)]
    output = [int("".join(str(bin(row & it).count("1") % 2) for it in polynomials), 2) for row in rows]
    return _Machine(2, states, 1 << len(polynomials), [row // 2 for row in rows], output)


def _test(settings: Settings, number: Any, least: int, most: int) -> None:
    if type(number) is not int or not least <= number <= most:
        raise settings.refused(
            "fsm_args", Code.BAD_PARAMETER, "a number of its machine is not %d to %d" % (least, most)
        )


def _constellation(settings: Settings, outputs: int) -> _Constellation:
    """The points of a drawing, of which the metrics of all items that may come are ints."""
    item = settings.word("type", {"s": "s", "i": "i"})
    settings.needs("metric_type", "digital.TRELLIS_EUCLIDEAN", "a decoder here has metrics of distances")
    dimensions = settings.whole("dim", 1, MOST_PORTS)
    if outputs > MOST_PORTS:
        raise settings.refused(
            "fsm_args", Code.BAD_PARAMETER, "it has %d outputs; metrics are made for %d" % (outputs, MOST_PORTS)
        )
    numbers = settings.wholes("table", -(1 << 15), (1 << 15) - 1, outputs * dimensions)
    if len(numbers) != outputs * dimensions:
        raise settings.refused(
            "table", Code.BAD_PARAMETER, "table has %d numbers, and not %d for each output" % (len(numbers), dimensions)
        )
    points = [numbers[at:at + dimensions] for at in range(0, len(numbers), dimensions)]
    found = _Constellation(_LETTERS[item], outputs, dimensions, points)
    # (the least item times twice a number, and the square of that)
    greatest = max(sum(-2 * ItemType.SHORT.least * abs(it) + it * it for it in point) for point in points)
    if found.item is _INT:
        settings.note(
            "has metrics in ints, which wrap where a product of an item and twice a number of table does not fit"
        )
    elif greatest > _INT.most:
        raise settings.refused("table", Code.BAD_PARAMETER, "the metrics of its points do not fit ints")
    return found


def _measured(points: _Constellation) -> Tuple[List[Part], List[Tuple[End, End]]]:
    """For each output T^2 - 2xT, which the square of the distance of x is without the square of x, that all outputs
    of a step share: blocks of which the first takes what came and the last gives the metrics, and the connections
    between."""
    keys = {"type": str(_INT)}
    parts = _converted(points.item, _INT)
    if points.dimensions > 1 or not parts:
        parts.append(Part("deinterleave", {**keys, "ports": points.dimensions}))
    inner = [(End(at), End(at + 1)) for at in range(len(parts) - 1)]
    places = [End(len(parts) - 1, port) for port in range(points.dimensions)]
    ends = []
    for point in points.points:
        products = [End(len(parts) + port) for port in range(points.dimensions)]
        parts += [Part("multiply_const", {**keys, "value": -2 * it}) for it in point]
        inner += zip(places, products)
        if len(products) > 1:
            inner += [(it, End(len(parts), port)) for port, it in enumerate(products)]
            products = [End(len(parts))]
            parts.append(Part("add", {**keys}))
        inner.append((products[0], End(len(parts))))
        ends.append(End(len(parts)))
        parts.append(Part("add_const", {**keys, "value": sum(it * it for it in point)}))
    inner += [(it, End(len(parts), port)) for port, it in enumerate(ends)]
    return [*parts, Part("interleave", {**keys, "ports": points.outputs})], inner
