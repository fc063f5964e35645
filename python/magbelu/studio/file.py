"""The tables of a graph file that the library has accepted. (It reads TOML 1.1, of which Python's own reader knows 1.0
alone.)"""

from __future__ import annotations

import re
from typing import Any, Iterator

TOKEN = re.compile(
    r'''"""(?:[^\\]|\\.)*?"{3,5}|\'\'\'.*?'{3,5}|"(?:[^"\\]|\\.)*"|'[^']*'|'''
    r"[A-Za-z0-9_+.:-]+|[][{}=,.]|\#[^\n]*|\s+|\ufeff",
    re.DOTALL,
)
ESCAPES = {"b": "\b", "t": "\t", "n": "\n", "f": "\f", "r": "\r", "e": "\x1b", '"': '"', "\\": "\\"}
ESCAPE = re.compile(r"\\(?:x([0-9A-Fa-f]{2})|u([0-9A-Fa-f]{4})|U([0-9A-Fa-f]{8})|[ \t]*\r?\n\s*|(.))", re.DOTALL)


def unescaped(found: re.Match[str]) -> str:
    code = found[1] or found[2] or found[3]
    return chr(int(code, 16)) if code else ESCAPES.get(found[4], "")


def text_of(word: str) -> str:
    """What a string in quotes says."""
    quote = word[:3] if word[:3] in ('"""', "'''") else word[0]
    text = word[len(quote) : -len(quote)]
    if len(quote) == 3:
        text = re.sub(r"\A\r?\n", "", text)
    return text if quote[0] == "'" else ESCAPE.sub(unescaped, text)


class Reader:
    """Takes the words of a file one by one. Ends of lines say nothing, since no value is cut by one."""

    def __init__(self, text: str) -> None:
        words = (it[0] for it in TOKEN.finditer(text))
        self.words: Iterator[str] = (it for it in words if not it.isspace() and it[0] not in "#\ufeff")
        self.word = next(self.words, "")

    def take(self) -> str:
        word, self.word = self.word, next(self.words, "")
        return word

    def key(self) -> str:
        word = self.take()
        return text_of(word) if word[0] in "\"'" else word

    def header(self) -> str:
        """The name in [[name]]."""
        while self.word == "[":
            self.take()
        keys = []
        while self.word != "]":
            keys.append(self.key())
        while self.word == "]":
            self.take()
        return "".join(keys)

    def entry(self) -> tuple[str, Any]:
        key = self.key()
        self.take()
        return key, self.value()

    def value(self) -> Any:
        word = self.take()
        if word == "[":
            return list(self.until("]", self.value))
        if word == "{":
            return dict(self.until("}", self.entry))
        if word[0] in "\"'":
            return text_of(word)
        return int(word, 0) if re.fullmatch(r"[+-]?[0-9][0-9A-Za-z_]*", word) else word

    def until(self, end: str, part: Any) -> Iterator[Any]:
        while self.word != end:
            yield part()
            if self.word == ",":
                self.take()
        self.take()


def tables_of(text: str) -> dict[str, Any]:
    """The arrays of tables of a graph file, by their names: `block`, `connect`. (Those within a feed are apart.)"""
    tables: dict[str, Any] = {}
    reader, table = Reader(text), tables
    while reader.word:
        if reader.word == "[":
            table = {}
            tables.setdefault(reader.header(), []).append(table)
        else:
            key, value = reader.entry()
            table[key] = value
    return tables
