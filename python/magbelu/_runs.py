"""Calls that a graph file goes into as a text."""

from __future__ import annotations

import ctypes
import os
import pathlib
from typing import Any, Iterable, NamedTuple, Optional, Union

from ._arguments import HIGH, Text, bytes_of, count_of, flag, is_bytes, unmasked
from ._errors import Error, OutOfMemory, Refused
from ._library import Input, Lent, Output, Room, calls

# What a graph is called at the place of a fault in it, where it is given as a text.
NO_PATH = "<graph>"


class Place(NamedTuple):
    """Where a graph file is refused: the line and the column of a word, from 1, how many characters it has on that
    line, and why. A column counts characters.

    >>> Place(2, 1, 4, "there is no key `valu`").line
    2
    """

    line: int
    column: int
    length: int
    why: str


def version() -> int:
    """The version of the library's calls."""
    return int(calls().magbelu_version())


def where(file: Lent, path: str) -> str:
    """Where the graph file of this path is refused, or nothing where it is not."""
    name, error, room = Lent(path.encode(errors="replace")), Room(0), 4096
    while True:
        output = Room(room)
        answer = calls().magbelu_bytes_explain(
            name.at, name.len, file.at, file.len, output.at, output.size, error.at, error.size
        )
        if answer.output_len <= room:
            return output.part(0, answer.output_len).decode(errors="replace")
        room = answer.output_len


def place(file: Text) -> Optional[Place]:
    """Where a graph file's text is refused, or nothing where it is not.

    >>> magbelu.place("[[block]]")
    Place(line=1, column=1, length=1, why='a block needs the key `name`: a text')
    """
    text, room = Lent(bytes_of(file)), 1024
    while True:
        why = Room(room)
        found = calls().magbelu_bytes_place(text.at, text.len, why.at, why.size)
        if found.why_len <= room:
            break
        room = found.why_len
    if found.number == 0:
        return None
    if found.line == 0:
        raise OutOfMemory("32 Memory")
    return Place(found.line, found.column, found.length, why.part(0, found.why_len).decode())


def read_file(path: Union[str, os.PathLike[str]]) -> bytes:
    """The graph file of a path."""
    try:
        return pathlib.Path(path).read_bytes()
    except OSError:
        if "\n" not in str(path):
            raise
        raise ValueError(
            "this is the text of a graph file and no path: Graph(..) and Stream(..) take it, and Flowgraph(text=..) of "
            "GNU Radio"
        ) from None


def hint_of(text: bytes) -> str:
    """What is said where a path is given in place of a text."""
    if b"\n" in text or not (text.endswith(b".toml") or os.path.isfile(text)):
        return ""
    return (
        "(this is taken for the text of a graph file, which pathlib.Path(..).read_text() gives; Graph.from_file and"
        " Stream.from_file open the file of a path)"
    )


def refusal(answer: Any, error: Room, file: Lent, path: str = NO_PATH, output: str = "") -> Error:
    text = error.part(0, answer.error_len).decode().strip()
    text = text.partition(" refused ")[2] or str(answer.number)
    if answer.status == 4:
        return OutOfMemory(text, output)
    return Refused(text, output, where(file, str(path)), hint=hint_of(file.kept) if path == NO_PATH else "")


def texts(name: str, *given: Text, room: int = 65536, path: str = NO_PATH) -> tuple[str, int]:
    """Calls until the output fits, and gives it with the status. The first text is a graph file's, which is called
    `path` where it is refused."""
    lent = [Lent(bytes_of(it)) for it in given]
    words = [word for it in lent for word in (it.at, it.len)]
    error = Room(4096)
    while True:
        output = Room(room)
        answer = getattr(calls(), "magbelu_bytes_" + name)(*words, output.at, output.size, error.at, error.size)
        if answer.output_len <= room:
            break
        room = answer.output_len
    text = output.part(0, answer.output_len).decode()
    if answer.error_len:
        raise refusal(answer, error, lent[0], path, text)
    return text, answer.status


def check(file: Text) -> str:
    """What `flow check` reports of a graph file's text.

    >>> print(magbelu.check(magbelu.EXAMPLE), end="")
    blocks 3
    connections 2
    rates balanced
    q src 1
    q add 1
    q out 1
    """
    return texts("check", file)[0]


def run(file: Text) -> tuple[str, bool]:
    """What `flow run` reports of a graph file's text: what its sinks hold; and whether all blocks came to be done.

    >>> feed = 'feed = [{ source = "src", items = [250, 1], tags = [{ at = 1, key = "burst", value = 7 }] }]'
    >>> magbelu.run(magbelu.EXAMPLE + "\\n" + feed)
    ('sink out 2 4 11 @1:burst=7/0\\ndone\\n', True)
    """
    text, status = texts("run", file)
    return text, status == 0


def script(file: Text, lines: Text) -> str:
    """The replies to the lines of a script.

    >>> print(magbelu.script(magbelu.EXAMPLE, "feed src 250 1\\nsettle\\nread out 0 9"), end="")
    fed 2
    settled quiet
    read 2 4 11
    """
    return texts("script", file, lines)[0]


def input_of(pair: tuple[Text, Any]) -> tuple[Lent, Lent]:
    """The name and the bytes of an input."""
    name, data = pair
    if not is_bytes(unmasked(data, "the input %r" % (name,))):
        raise TypeError("the input %r is bytes, and no %r (of an array its tobytes())" % (name, type(data).__name__))
    return Lent(bytes_of(name)), Lent(data)


def output_of(asked: Any) -> tuple[Lent, bool]:
    """The name of an output, and whether its tags are asked for."""
    if isinstance(asked, (str, bytes, bytearray)):
        return Lent(bytes_of(asked)), False
    name, what = asked
    if what != "tags":
        raise ValueError('of the output %r may be asked "tags", and not %r' % (name, what))
    return Lent(bytes_of(name)), True


def run_items(
    file: Text,
    inputs: Iterable[tuple[Text, Union[bytes, bytearray, memoryview]]],
    outputs: Iterable[Union[Text, tuple[Text, str]]],
    big_endian: bool = False,
    room: Optional[int] = None,
) -> tuple[list[bytes], bool]:
    """Runs a graph between raw items. `inputs` are pairs of a source's name and bytes (any object that lends bytes),
    `outputs` names of sinks, or pairs of a name and "tags". It gives a list with the bytes of each output, and whether
    all blocks came to be done. Where the outputs do not fit into `room` bytes the graph is run once more with enough.

    >>> magbelu.run_items(magbelu.EXAMPLE, [("src", b"ABC")], ["out", ("out", "tags")])
    ([b'KLM', b''], True)
    """
    if isinstance(outputs, (str, bytes, bytearray)):
        raise TypeError("outputs are a list of names, and no name")
    given, wanted = [input_of(it) for it in inputs], [output_of(it) for it in outputs]
    fed = (Input * max(len(given), 1))(*[Input(name.at, name.len, data.at, data.len) for name, data in given])
    asked = (Output * max(len(wanted), 1))(*[Output(name.at, name.len, tags) for name, tags in wanted])
    text, error, big_endian = Lent(bytes_of(file)), Room(4096), flag(big_endian, "big_endian")
    lens = (ctypes.c_uint64 * max(len(wanted), 1))()
    size = 65536 + 4 * sum(data.len for _, data in given) if room is None else count_of(room, "room", HIGH)
    while True:
        got = Room(size)
        answer = calls().magbelu_bytes_run_items(
            text.at, text.len, big_endian, ctypes.addressof(fed), len(given), ctypes.addressof(asked), len(wanted),
            ctypes.addressof(lens), len(wanted), got.at, got.size, error.at, error.size,
        )
        if answer.output_len <= size:
            break
        size = answer.output_len
    if answer.error_len:
        raise refusal(answer, error, text)
    parts, start = [], 0
    for length in lens[: len(wanted)]:
        parts.append(got.part(start, start + length))
        start += length
    return parts, answer.status == 0
