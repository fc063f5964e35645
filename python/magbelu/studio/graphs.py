"""A graph file as the page shows it."""

from __future__ import annotations

from dataclasses import dataclass
from typing import Any, Optional

from .._errors import Refused
from .._kinds import KIND_ROWS
from .._listing import Setting
from .._stream import Stream
from .file import tables_of

# The keys of a block that are no parameters of its kind.
OWN_KEYS = ("name", "kind")
# The refusals that come only once all blocks and connections of a file were found to be right: of ports that are not
# used, of the graph as a whole, and of feeds.
DRAWN = (5, 7, 8, 11, 12, 20, 21, 24, 25, 26)


@dataclass(frozen=True)
class GraphFile:
    """A text that can be drawn, with the tables of its blocks and connections. (The library tells no parameters of
    blocks, and nothing of a graph that it refuses: they are read out of the text.)"""

    text: str
    blocks: list[dict[str, Any]]
    connects: list[dict[str, Any]]
    # Where the library has accepted it: how often blocks fire in an iteration, if the rates are balanced, what may be
    # set of them, and the types of what they give.
    firings: dict[str, int]
    settings: dict[str, Setting]
    _types: dict[str, str]

    @classmethod
    def of(cls, text: str) -> GraphFile:
        """Of a text. One that the library refuses is refused as it does."""
        with Stream(text) as stream:
            types = {it.name: it.output_type for it in stream.blocks if it.output_type}
            found = ((it.name, stream.setting(it.name)) for it in stream.blocks)
            settings = {name: it for name, it in found if it is not None}
            connects = [{"from": it.writer, "from_port": it.out_port, "to": it.reader, "to_port": it.in_port}
                for it in stream.connections]
            return cls(text, tables_of(text).get("block", []), connects, stream.firings or {}, settings, types)

    @classmethod
    def draft(cls, text: str) -> tuple[Optional[GraphFile], Optional[Refused]]:
        """Of a text that may be refused: the graph, where its blocks and connections can be drawn, and the refusal."""
        try:
            return cls.of(text), None
        except Refused as refused:
            if refused.number not in DRAWN:
                return None, refused
            tables = tables_of(text)
            return cls(text, tables.get("block", []), tables.get("connect", []), {}, {}, {}), refused

    def block(self, name: str) -> Optional[dict[str, Any]]:
        """The block of a name."""
        return next((it for it in self.blocks if it["name"] == name), None)

    def type_of(self, name: str) -> str:
        """The type of the items that a block gives. (Until the library tells it, a kind without a type is one of bytes,
        and one with a type `to` gives that.)"""
        block = self.block(name) or {}
        return self._types.get(name) or str(block.get("to", block.get("type", "byte")))

    def named(self, kind: str) -> list[str]:
        """The blocks of a kind, in the order of the file."""
        return [it["name"] for it in self.blocks if it["kind"] == kind]

    def shown(self) -> dict[str, Any]:
        """What the page draws."""
        return {
            "blocks": [self._block(it) for it in self.blocks], "connects": [self._connect(it) for it in self.connects],
            "text": self.text,
        }

    def _block(self, block: dict[str, Any]) -> dict[str, Any]:
        return {
            "name": block["name"],
            "kind": block["kind"],
            "parameters": {key: value for key, value in block.items() if key not in OWN_KEYS},
            "firings": self.firings.get(block["name"]),
            "setting": self._setting(block),
        }

    def _setting(self, block: dict[str, Any]) -> Optional[dict[str, Any]]:
        """What of a block may be set while it runs: the key that has its first value, which is shown too, the least and
        the greatest number, and of taps how many."""
        it = self.settings.get(block["name"])
        if it is None:
            return None
        taps = len(it.value) if isinstance(it.value, list) else None
        return {
            "key": KIND_ROWS[block["kind"]].setting, "low": it.least, "high": it.most, "taps": taps, "value": it.value,
        }

    def _connect(self, it: dict[str, Any]) -> dict[str, Any]:
        return {
            "from": it["from"], "from_port": it.get("from_port", 0), "to": it["to"], "to_port": it.get("to_port", 0),
            "type": self.type_of(it["from"]),
        }
