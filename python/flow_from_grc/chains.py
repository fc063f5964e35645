"""Blocks for which more stands than one kind of their own: kinds in a row, or one of two by what the parameters are."""

from __future__ import annotations

from .entries import ANY, MOST_PORTS, WIDE
from .faults import Code
from .graph import ItemType
from .nodes import End, Node, Part
from .ranges import limit
from .settings import Settings

# How many items a round of `stream_mux` has.
_MOST_ROUND = limit("stream_mux", "lengths", "together")


def interleave(settings: Settings) -> Node:
    """Blocks of more than one item are interleaved by a multiplexer of equal lengths."""
    item = settings.item_type(ANY)
    settings.ones("vlen")
    ports = settings.whole("num_streams", 1, MOST_PORTS)
    size = settings.whole("blocksize", 1, _MOST_ROUND // ports)
    part = Part("interleave", {"type": str(item), "ports": ports})
    if size > 1:
        part = Part("stream_mux", {"type": str(item), "lengths": [size] * ports})
    return Node(settings.block, [item] * ports, [item], [part])


def stream_mux(settings: Settings) -> Node:
    """The lengths say how many inputs there are, and so does a number."""
    item = settings.item_type(ANY)
    settings.ones("vlen")
    lengths = settings.wholes("lengths", 1, _MOST_ROUND, MOST_PORTS)
    if len(lengths) != settings.value("num_inputs"):
        raise settings.refused(
            "lengths", Code.BAD_PARAMETER, "it has %d lengths, and not one for each of its inputs" % len(lengths)
        )
    if sum(lengths) > _MOST_ROUND:
        raise settings.refused(
            "lengths", Code.BAD_PARAMETER,
            "its lengths come to %d together; a kind takes %d" % (sum(lengths), _MOST_ROUND),
        )
    settings.note("gives whole rounds only; GNU Radio's also gives the beginning of the last")
    return Node(
        settings.block, [item] * len(lengths), [item], [Part("stream_mux", {"type": str(item), "lengths": lengths})]
    )


def moving_average(settings: Settings) -> Node:
    """The sum of the last items, and behind it the scale."""
    item = settings.item_type(WIDE)
    settings.ones("vlen")
    parts = [
        Part("moving_sum", {"type": str(item), "length": settings.whole("length", 1, limit("moving_sum", "length"))})
    ]
    scale = settings.whole("scale", item.least, item.most)
    if scale != 1:
        parts.append(Part("multiply_const", {"type": str(item), "value": scale}))
    return Node(settings.block, [item], [item], parts)


def sub(settings: Settings) -> Node:
    """Of one input the kind gives the negatives, and GNU Radio's block the items: so that one is a wire."""
    item = settings.item_type(WIDE)
    settings.ones("vlen")
    ports = settings.whole("num_inputs", 1, MOST_PORTS)
    parts = [Part("sub", {"type": str(item)})] if ports > 1 else []
    return Node(settings.block, [item] * ports, [item], parts)


def char_to_short(settings: Settings) -> Node:
    """GNU Radio's block makes the byte the highest of the short, so that it takes it with a sign."""
    settings.ones("vlen")
    byte, short = ItemType.BYTE, ItemType.SHORT
    parts = [
        Part("convert", {"type": str(byte), "to": str(short)}),
        Part("multiply_const", {"type": str(short), "value": 256}),
    ]
    return Node(settings.block, [byte], [short], parts)


def short_to_char(settings: Settings) -> Node:
    """The lowest byte is cleared, so that the highest is what comes to 256 times."""
    settings.ones("vlen")
    byte, short = ItemType.BYTE, ItemType.SHORT
    parts = [
        Part("and_const", {"type": str(short), "value": -256}),
        Part("scale", {"type": str(short), "factor": 1, "shift": 8}),
    ]
    return Node(settings.block, [short], [byte], [*parts, Part("convert", {"type": str(short), "to": str(byte)})])


def endian_swap(settings: Settings) -> Node:
    """The bytes of an item, the highest first, in reverse order."""
    item = {"s16": ItemType.SHORT, "s32": ItemType.INT}.get(settings.choice("type"))
    if item is None:
        raise settings.refused(
            "type", Code.WRONG_TYPE, "its type is %s; a kind for it takes s16 or s32" % settings.choice("type")
        )
    keys = {"type": str(item), "order": "msb_first", "bits": ItemType.BYTE.bits}
    order = list(reversed(range(item.bits // ItemType.BYTE.bits)))
    parts = [
        Part("packed_to_unpacked", {**keys}), Part("permute", {"type": str(item), "order": order}),
        Part("unpacked_to_packed", {**keys}),
    ]
    return Node(settings.block, [item], [item], parts)


def selector(settings: Settings) -> Node:
    """All inputs but one are mute, and the sum is that one. An output that is not chosen has no items."""
    item = settings.item_type(ANY)
    settings.ones("vlen")
    inputs, outputs = (settings.whole(key, 1, MOST_PORTS) for key in ("num_inputs", "num_outputs"))
    chosen, given = settings.whole("input_index", 0, inputs - 1), settings.whole("output_index", 0, outputs - 1)
    parts = [
        Part("mute", {"type": str(item), "on": int(at != chosen), **({"tags": "none"} if at != chosen else {})})
        for at in range(inputs)
    ]
    parts.append(Part("add", {"type": str(item)}))
    inner, gives = [(End(at), End(inputs, at)) for at in range(inputs)], []
    for at in range(outputs):
        gives.append(End(inputs))
        if at != given or not settings.truth("enabled"):
            gives[-1] = End(len(parts))
            inner.append((End(inputs), gives[-1]))
            parts.append(Part("head", {"type": str(item), "n": 0}))
    if inputs > 1:
        settings.note("ends with the shortest of its inputs; GNU Radio's ends with the chosen one")
    return Node(
        settings.block, [item] * inputs, [item] * outputs, parts, takes=[[End(at)] for at in range(inputs)],
        gives=gives, inner=inner,
    )


def tag_share(settings: Settings) -> Node:
    """The second input is mute and adds its tags alone, as items of the type of the first."""
    settings.ones("vlen")
    item, shared = (settings.item_type(ANY, key) for key in ("io_type", "share_type"))
    parts = [Part("add", {"type": str(item)}), Part("mute", {"type": str(item), "on": 1})]
    inner = [(End(1), End(0, 1))]
    if shared is not item:
        parts.append(Part("convert", {"type": str(shared), "to": str(item)}))
        inner.append((End(2), End(1)))
    return Node(
        settings.block, [item, shared], [item], parts, takes=[[End(0)], [End(len(parts) - 1)]], gives=[End(0)],
        inner=inner,
    )


def sample_and_hold(settings: Settings) -> Node:
    """The kind has two inputs of one type, and GNU Radio's block bytes at the second."""
    item, byte = settings.item_type(ANY), ItemType.BYTE
    parts = [Part("sample_and_hold", {"type": str(item)})]
    inner = []
    if item is not byte:
        parts.append(Part("convert", {"type": str(byte), "to": str(item)}))
        inner.append((End(1), End(0, 1)))
    asks = End(1) if inner else End(0, 1)
    return Node(settings.block, [item, byte], [item], parts, takes=[[End(0)], [asks]], gives=[End(0)], inner=inner)


def tag_gate(settings: Settings) -> Node:
    """A gate that is open is a wire; one that is shut adds nothing to the items, and passes no tags."""
    item = settings.item_type(ANY)
    settings.ones("vlen")
    if settings.choice("propagate_tags") == "True":
        return Node(settings.block, [item], [item])
    if settings.string("single_key"):
        raise settings.refused("single_key", Code.BAD_PARAMETER, "a block passes all tags or none, whatever their keys")
    part = Part("add_const", {"type": str(item), "value": 0, "tags": "none"})
    return Node(settings.block, [item], [item], [part])
