"""What the table of kinds is made of: an entry says what a block of GNU Radio has, and makes of it what stands for
it."""

from __future__ import annotations

from dataclasses import dataclass
from typing import Callable, Mapping, Sequence, Union

from .graph import ItemType, Setting
from .kind_ranges import RANGES
from .nodes import Node, Part, Port
from .ranges import limit
from .settings import Settings

ANY = (ItemType.BYTE, ItemType.SHORT, ItemType.INT)
WIDE = (ItemType.SHORT, ItemType.INT)
BYTES = (ItemType.BYTE,)

MOST_PORTS = limit("interleave", "ports")


@dataclass(frozen=True)
class Entry:
    """A block of GNU Radio. `defaults` has the parameters that it may have, with Companion's texts for those that are
    not given."""

    defaults: Mapping[str, str]
    make: Callable[[Settings], Node]


@dataclass(frozen=True)
class Number:
    """A parameter that is a whole number: its names here and there, and its default there."""

    key: str
    key_there: str
    default: str

    def read(self, settings: Settings, kind: str, item: ItemType) -> Setting:
        """The number that the drawing gives, in the range of the type where that of the parameter has no numbers."""
        numbers = RANGES[kind][self.key]
        return settings.whole(self.key_there, numbers.get("least", item.least), numbers.get("most", item.most))


@dataclass(frozen=True)
class Numbers:
    """A parameter that is a list of whole numbers: its names here and there, and its default there."""

    key: str
    key_there: str
    default: str

    def read(self, settings: Settings, kind: str, _: ItemType) -> Setting:
        """The list that the drawing gives."""
        return settings.wholes(self.key_there, *(limit(kind, self.key, it) for it in ("least", "most", "most_count")))


@dataclass(frozen=True)
class Truth:
    """A parameter that is true or false, for which 1 or 0 is written."""

    key: str
    key_there: str
    default: str

    def read(self, settings: Settings, _: str, __: ItemType) -> Setting:
        """The number that stands for what the drawing gives."""
        return int(settings.truth(self.key_there))


@dataclass(frozen=True)
class Choice:
    """A parameter that has to be this one of its words, and why."""

    key_there: str
    wanted: str
    why: str


Parameter = Union[Number, Numbers, Truth]

# How many ports a block has on a side: so many, or as many as a parameter says.
Ports = Union[int, str]


def block(
    kind: str,
    types: Sequence[ItemType],
    *parameters: Parameter,
    inputs: Ports = 1,
    outputs: Ports = 1,
    ones: Sequence[str] = ("vlen",),
    ignored: Sequence[str] = (),
    choices: Sequence[Choice] = (),
    first_type: str = "complex",
    first_count: str = "2",
    note: Callable[[Mapping[str, Setting]], str] = lambda _: "",
) -> Entry:
    """A block for which a kind of its own stands, with items of one of these types; where that is bytes alone it has no
    parameter for it. Its parameters `ones` have to be 1, and `ignored` say nothing of items. `first_type` is
    Companion's default type, and `first_count` its default of how many ports; `note` tells, of the settings, how GNU
    Radio's block differs."""
    is_typed = types is not BYTES
    defaults = {it.key_there: it.default for it in parameters}
    defaults.update({it.key_there: it.wanted for it in choices})
    defaults.update({it: first_count for it in (inputs, outputs) if isinstance(it, str)})
    defaults.update({it: "1" for it in ones})
    defaults.update({it: "" for it in ignored})
    if is_typed:
        defaults["type"] = first_type

    def make(settings: Settings) -> Node:
        item = settings.item_type(types) if is_typed else ItemType.BYTE
        settings.ones(*ones)
        for it in choices:
            settings.needs(it.key_there, it.wanted, it.why)
        part = Part(kind, {"type": str(item)} if is_typed else {})
        part.settings.update({it.key: it.read(settings, kind, item) for it in parameters})
        counts = [it if isinstance(it, int) else settings.whole(it, 1, MOST_PORTS) for it in (inputs, outputs)]
        settings.note(note(part.settings))
        return Node(settings.block, [item] * counts[0], [item] * counts[1], [part])

    return Entry(defaults, make)


def wire(defaults: Mapping[str, str], test: Callable[[Settings], None]) -> Entry:
    """A block that passes its items on, once `test` has seen that this one does."""

    def make(settings: Settings) -> Node:
        ports: Sequence[Port] = [settings.item_type(ANY)]
        settings.ones("vlen")
        test(settings)
        return Node(settings.block, ports, ports)

    return Entry({"type": "complex", "vlen": "1", **defaults}, make)
