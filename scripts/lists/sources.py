"""Finds lists in the sources of crates: arms of a match, rows of a definition, items between brackets."""

from __future__ import annotations

import json
import re
from functools import lru_cache
from typing import Iterator, List, Pattern, Sequence, Tuple

_CLOSING = {"(": ")", "[": "]", "{": "}"}
# What is no bracket, though one may stand in it.
_SKIPPED = re.compile(r'"(?:[^"\\]|\\.)*"|//[^\n]*')


@lru_cache(maxsize=None)
def found_in(pattern: Pattern[str], text: str) -> List[Tuple[str, ...]]:
    """What a pattern finds in a source, which is looked through once."""
    return pattern.findall(text)


def behind(text: str, head: str) -> str:
    """What stands behind a text that a source has; nothing where it has it not."""
    return text.partition(head)[2]


def closed(text: str, start: int) -> int:
    """The place behind the bracket that closes the one at a place; the end of the text, where none does."""
    depth, at = 0, start
    while at < len(text):
        skipped = _SKIPPED.match(text, at)
        if skipped:
            at = skipped.end()
            continue
        depth += (text[at] in _CLOSING) - (text[at] in _CLOSING.values())
        at += 1
        if depth == 0:
            return at
    return len(text)


def inside(text: str, head: str) -> str:
    """What stands between the brackets, the first of which ends this head."""
    start = text.find(head)
    if start < 0:
        return ""
    start += len(head) - 1
    return text[start + 1 : closed(text, start) - 1]


def body(text: str, function: str) -> str:
    """The body of a function of Rattle, which begins in a line of its own behind its clauses, or behind its head."""
    head = re.search(rf"fn {function}\b[^{{;]*", text)
    if not head:
        return ""
    start = re.compile(r"(?:^|(?<= ))\{$", re.MULTILINE).search(text, head.start())
    return text[start.end() : closed(text, start.start()) - 1] if start else ""


def arms(match: str) -> Iterator[Tuple[List[str], str]]:
    """The arms of a match, each with its patterns and with what it gives, without braces round it."""
    rest = re.sub(r"(?m)^\s*//.*\n", "", inside(match, match[: match.find("{") + 1]))
    while rest.strip():
        patterns, _, rest = rest.partition("=>")
        rest = rest.lstrip()
        end = closed(rest, 0) if rest[:1] == "{" else _comma(rest)
        value = rest[:end].strip()
        rest = rest[end:].lstrip().removeprefix(",") if rest[end:] else ""
        if value.startswith("{"):
            value = value[1:-1].strip()
        yield [it.strip() for it in patterns.split("|") if it.strip()], value


def _comma(text: str) -> int:
    """The place of the first comma that stands in no brackets."""
    at = 0
    while at < len(text) and text[at] != ",":
        skipped = _SKIPPED.match(text, at)
        at = skipped.end() if skipped else closed(text, at) if text[at] in _CLOSING else at + 1
    return at


@lru_cache(maxsize=None)
def arms_of(text: str, function: str) -> List[Tuple[str, str]]:
    """The arms of the match that a function is, each pattern on its own."""
    found = body(text, function)
    match = found[found.find("match ") :] if "match " in found else ""
    return [(pattern, value) for patterns, value in arms(match) for pattern in patterns]


@lru_cache(maxsize=None)
def rows(text: str, name: str) -> List[Tuple[str, str]]:
    """The rows of a definition of antt, each with its argument and with what it is."""
    found = re.findall(rf"(?m)^{re.escape(name)} (\([^)]*\)|\S+)[^=\n]*=[ \n]*((?:.*\n)(?:    .*\n)*)", text)
    return [(argument, " ".join(value.split())) for argument, value in found]


def texts(value: str) -> List[str]:
    """The texts in quotes of a piece of source, each as what it says."""
    return [json.loads(f'"{it}"') for it in re.findall(r'"((?:[^"\\]|\\.)*)"', value)]


def said(pairs: Sequence[Tuple[str, str]]) -> List[Tuple[str, str]]:
    """Of arms or rows, by their last names, the texts that they are."""
    return [(last(it), "".join(texts(value))) for it, value in pairs]


def named_there(pairs: Sequence[Tuple[str, str]]) -> List[Tuple[str, str]]:
    """The same, of those that are names."""
    return [(last(it), last(value)) for it, value in pairs]


def last(path: str) -> str:
    """The last name of a path, without what stands behind it in brackets: `Kind::Add(_)` as `Add`, and so `kinds.Add`
    and `(blocks.Add b)`."""
    return re.split(r"::|\.", re.split(r"[(\s{]", path.lstrip("("))[0])[-1]
