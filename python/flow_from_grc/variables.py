"""The variables of a drawing: named expressions that may read one another in any order, but not in a ring."""

from __future__ import annotations

import ast
from dataclasses import dataclass
from typing import Any, Dict, List, Mapping, Sequence

from .drawing import DrawnBlock, Text
from .expressions import Long, Symbol, Unclear, UnknownName, names_of, parse, value_of
from .faults import AlreadyReported, Code, Refused, Report, shown

# The blocks whose `value` a variable has: at the start, where a user may move it.
_PLAIN = frozenset(("variable", "variable_config"))
_MOVED = frozenset(
    "variable_qtgui_" + it
    for it in (
        "check_box", "chooser", "dial_control", "entry", "msgcheckbox", "push_button", "range", "toggle_button_msg",
        "toggle_switch",
    )
)
_TAG = "variable_tag_object"


def is_variable(kind: str) -> bool:
    """Whether a block of this id is a variable, with ports or without."""
    return kind == "parameter" or kind.startswith("variable_") or kind == "variable"


@dataclass(frozen=True)
class TagObject:
    """A tag that a source of the drawing puts on one of its items."""

    offset: Any
    key: Any
    value: Any


class Variables:
    """The values of variables, each found where it is asked for, and kept. What has no value is reported once, at its
    own line."""

    def __init__(self, blocks: Sequence[DrawnBlock], report: Report) -> None:
        self._blocks: Dict[str, DrawnBlock] = {it.name: it for it in blocks if is_variable(it.id)}
        self._report = report
        self._values: Dict[str, Any] = {}
        self._refuse_rings()

    def evaluated(self, text: Text, what: str) -> Any:
        """The value of a text, where `what` it is says whose fault it is if it has none."""
        try:
            return value_of(parse(text.value), self._value)
        except Unclear as error:
            raise Refused(text.line, Code.WRONG_TYPE, "%s is %s: %s" % (what, shown(text.value), error)) from None

    def string(self, text: Text, what: str) -> str:
        """The value of a text that stands for a text: itself, as in Companion, where it is no expression of one."""
        try:
            tree = parse(text.value)
        except Unclear:
            return text.value
        try:
            value = value_of(tree, self._value)
        except UnknownName:
            return text.value
        except Unclear as error:
            if not any(isinstance(it, (ast.Call, ast.JoinedStr)) for it in ast.walk(tree)):
                return text.value
            raise Refused(text.line, Code.WRONG_TYPE, "%s is %s: %s" % (what, shown(text.value), error)) from None
        return value if isinstance(value, str) else text.value

    def _value(self, name: str) -> Any:
        if name not in self._blocks:
            raise UnknownName("there is no variable %s" % shown(name))
        if name not in self._values:
            # (Until it is known it counts as one that has none.)
            self._values[name] = AlreadyReported
            self._values[name] = self._found(self._blocks[name])
        if self._values[name] is AlreadyReported:
            raise AlreadyReported
        return self._values[name]

    def _found(self, block: DrawnBlock) -> Any:
        """The value of a variable, or AlreadyReported once it is reported that it has none."""
        try:
            if block.id == _TAG:
                return self._tag(block)
            return self._plain(block)
        except Refused as fault:
            self._report.refuse(fault)
        except AlreadyReported:
            pass
        return AlreadyReported

    def _plain(self, block: DrawnBlock) -> Any:
        if block.id not in _PLAIN | _MOVED | {"parameter"} or "value" not in block.parameters:
            raise Refused(
                block.line, Code.WRONG_TYPE,
                "%s is a %s, which is not evaluated here" % (shown(block.name), shown(block.id)),
            )
        text = block.parameters["value"]
        value = self.evaluated(text, "the variable %s" % shown(block.name))
        if block.id not in _PLAIN:
            self._report.note(text.line, "%s keeps the value that it starts with" % shown(block.name))
        return value

    def _tag(self, block: DrawnBlock) -> TagObject:
        parts: List[Any] = []
        for key, default in (("offset", "0"), ("key", 'pmt.intern("key")'), ("value", 'pmt.intern("value")')):
            text = block.parameters.get(key, Text(default, block.line))
            parts.append(self.evaluated(text, "the %s of the tag %s" % (key, shown(block.name))))
        offset, key, value = parts
        if type(offset) is not int or not isinstance(key, Symbol) or not isinstance(value, Long):
            fault = (
                "the tag %s has not a whole offset, a pmt.intern(..) for its key and a pmt.from_long(..) for its value"
                % shown(block.name)
            )
            raise Refused(block.line, Code.TAG_PLACE, fault)
        return TagObject(offset, key.text, value.value)

    def _refuse_rings(self) -> None:
        """Reports each ring of variables that read one another, and all that read one have no value."""
        reads = {name: self._reads(block) for name, block in self._blocks.items()}
        for ring in rings(reads):
            block = self._blocks[ring[0]]
            text = "the variables read one another in a ring: %s" % " -> ".join(shown(it) for it in [*ring, ring[0]])
            self._report.refuse(Refused(block.line, Code.LOOP, text))
            for name in ring:
                self._values[name] = AlreadyReported

    def _reads(self, block: DrawnBlock) -> List[str]:
        names: List[str] = []
        for key in ("value", "offset", "key"):
            try:
                names += names_of(parse(block.parameters[key].value))
            except KeyError:
                pass
            except Unclear:
                pass
        return [it for it in names if it in self._blocks]


def rings(reads: Mapping[str, Sequence[str]]) -> List[List[str]]:
    """The rings in which names lead to one another, one for each name that leads back into what is being walked."""
    found: List[List[str]] = []
    done = set()
    for start in reads:
        path: List[str] = []
        # (Each step is a name to enter, or None to leave the last one.)
        steps: List[Any] = [start]
        while steps:
            name = steps.pop()
            if name is None:
                done.add(path.pop())
            elif name in path:
                found.append(path[path.index(name):])
            elif name not in done:
                path.append(name)
                steps.append(None)
                steps.extend(reversed(reads[name]))
    return found
