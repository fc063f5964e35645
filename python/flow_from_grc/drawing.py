"""The .grc file: blocks, their parameters as texts, and connections, each with its line."""

from __future__ import annotations

from dataclasses import dataclass
from typing import Callable, Dict, Mapping, Optional, Sequence, TypeVar

import yaml

from .faults import Code, Refused, Report, shown

_FILE_FORMAT = "1"
_Read = TypeVar("_Read")


@dataclass(frozen=True)
class Text:
    """A value of the drawing as Companion would show it."""

    value: str
    line: int


@dataclass(frozen=True)
class DrawnBlock:
    """A block with the parameters that the file gives it, unless it is disabled. `id` is GNU Radio's name of its
    type."""

    name: str
    id: str
    line: int
    state: str
    parameters: Mapping[str, Text]


@dataclass(frozen=True)
class DrawnConnection:
    """A connection. The ports are texts, since those of messages have names."""

    source: str
    source_port: str
    sink: str
    sink_port: str
    line: int


@dataclass(frozen=True)
class Drawing:
    """The blocks and the connections in the order of the file."""

    options: Mapping[str, Text]
    blocks: Sequence[DrawnBlock]
    connections: Sequence[DrawnConnection]


def read_drawing(data: bytes, report: Report) -> Drawing:
    """The drawing that the bytes of a .grc file hold. Faults of single blocks and connections are reported, and these
    left out; Refused is raised where the file as a whole is none."""
    top = _mapping(_document(data), "the file", ("options", "blocks", "connections", "metadata"))
    _test_format(top)
    options: Mapping[str, Text] = {}
    if "options" in top:
        options = _parameters(_mapping(top["options"], "the options"))
    blocks = [it for it in (_unless_refused(_block, node, report) for node in _sequence(top, "blocks")) if it]
    connections = [
        it for it in (_unless_refused(_connection, node, report) for node in _sequence(top, "connections")) if it
    ]
    return Drawing(options, blocks, connections)


def _unless_refused(read: Callable[[yaml.Node], _Read], node: yaml.Node, report: Report) -> Optional[_Read]:
    try:
        return read(node)
    except Refused as fault:
        report.refuse(fault)
        return None


def _document(data: bytes) -> yaml.Node:
    try:
        text = data.decode("utf-8-sig")
    except UnicodeDecodeError as error:
        raise Refused(data.count(b"\n", 0, error.start) + 1, Code.SYNTAX, "the file is not UTF-8") from None
    if text.lstrip().startswith("<"):
        raise Refused(
            1, Code.SYNTAX, "the file is XML, as GNU Radio 3.7 wrote it: open it in Companion 3.10 and save it"
        )
    try:
        node = yaml.compose(text, Loader=yaml.SafeLoader)
    except yaml.MarkedYAMLError as error:
        mark = error.problem_mark or error.context_mark
        raise Refused(
            mark.line + 1 if mark else 1, Code.SYNTAX,
            "the file is not YAML: %s" % shown(error.problem or str(error.context)),
        ) from None
    except yaml.reader.ReaderError as error:
        line = text.count("\n", 0, error.position) + 1
        raise Refused(
            line, Code.SYNTAX, "the file is not YAML: it has the character %s" % shown(chr(error.character))
        ) from None
    except RecursionError:
        raise Refused(1, Code.SYNTAX, "values of the file are nested too deep") from None
    if node is None:
        raise Refused(1, Code.SYNTAX, "the file is empty")
    return node


def _test_format(top: Mapping[str, yaml.Node]) -> None:
    if "metadata" not in top:
        raise Refused(1, Code.MISSING_KEY, "the file has no metadata: it is no drawing of Companion 3.10")
    metadata = _mapping(top["metadata"], "the metadata")
    if "file_format" not in metadata:
        raise Refused(_line(top["metadata"]), Code.MISSING_KEY, "the metadata has no file_format")
    text = _text(metadata["file_format"], "file_format")
    if text.value != _FILE_FORMAT:
        raise Refused(
            text.line, Code.WRONG_TYPE,
            "the file has the format %s, and Companion 3.10 writes %s" % (shown(text.value), _FILE_FORMAT),
        )


def _block(node: yaml.Node) -> DrawnBlock:
    keys = _mapping(node, "a block", ("name", "id", "parameters", "states"))
    for key in ("name", "id"):
        if key not in keys:
            raise Refused(_line(node), Code.MISSING_KEY, "a block has no %s" % key)
    name, kind = (_text(keys[key], "the %s of a block" % key) for key in ("name", "id"))
    state = "enabled"
    if "states" in keys:
        states = _mapping(keys["states"], "the states of %s" % shown(name.value))
        if "state" in states:
            state = _text(states["state"], "the state of %s" % shown(name.value)).value
    return DrawnBlock(name.value, kind.value, name.line, state, {} if state == "disabled" else _parameters(keys))


def _parameters(keys: Mapping[str, yaml.Node]) -> Dict[str, Text]:
    if "parameters" not in keys:
        return {}
    nodes = _mapping(keys["parameters"], "the parameters of a block")
    return {key: _text(node, key) for key, node in nodes.items()}


def _connection(node: yaml.Node) -> DrawnConnection:
    if not isinstance(node, yaml.SequenceNode) or len(node.value) != 4:
        raise Refused(_line(node), Code.WRONG_TYPE, "a connection is a list of two blocks, each with its port")
    source, source_port, sink, sink_port = (_text(it, "an end of a connection").value for it in node.value)
    return DrawnConnection(source, source_port, sink, sink_port, _line(node))


def _line(node: yaml.Node) -> int:
    return int(node.start_mark.line) + 1


def _mapping(node: yaml.Node, what: str, known: Sequence[str] = ()) -> Dict[str, yaml.Node]:
    """The values of a mapping by their keys, none of which stands twice, and which are all known where some are
    named."""
    if not isinstance(node, yaml.MappingNode):
        raise Refused(_line(node), Code.WRONG_TYPE, "%s: a mapping of keys to values has to stand here" % what)
    values: Dict[str, yaml.Node] = {}
    for key, value in node.value:
        name = _text(key, "a key of %s" % what).value
        if name in values:
            raise Refused(_line(key), Code.SYNTAX, "%s: the key %s stands twice" % (what, shown(name)))
        if known and name not in known:
            raise Refused(
                _line(key), Code.UNKNOWN_KEY, "%s: there is no key %s, but %s" % (what, shown(name), ", ".join(known))
            )
        values[name] = value
    return values


def _sequence(top: Mapping[str, yaml.Node], key: str) -> Sequence[yaml.Node]:
    """The values of a list that may be missing or null."""
    node = top.get(key)
    if node is None or node.tag == "tag:yaml.org,2002:null":
        return ()
    if not isinstance(node, yaml.SequenceNode):
        raise Refused(_line(node), Code.WRONG_TYPE, "%s: a list has to stand here" % key)
    return list(node.value)


def _text(node: yaml.Node, what: str) -> Text:
    """The text that Companion makes of a value: Python's own of what YAML takes it for, be it quoted or not, or a list
    of such values."""
    nodes = [node]
    if isinstance(node, yaml.SequenceNode):
        nodes = node.value
    if not all(isinstance(it, yaml.ScalarNode) for it in nodes):
        raise Refused(_line(node), Code.WRONG_TYPE, "%s: a value, or a list of values, has to stand here" % shown(what))
    try:
        value = yaml.constructor.SafeConstructor().construct_document(node)
        return Text(str(value), _line(node))
    except (yaml.YAMLError, ValueError, OverflowError, LookupError, AttributeError):
        # (the last two where a tag says what its text is not)
        raise Refused(_line(node), Code.WRONG_TYPE, "%s: YAML has no such value" % shown(what)) from None
