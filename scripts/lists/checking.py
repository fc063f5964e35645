"""Writes the lists that tables make, and tells what lists have otherwise."""

from __future__ import annotations

from typing import Dict, Iterator, List, Sequence, Tuple

from . import crate_kinds, crate_pages, crate_refusals, grc_lists, kind_lists, python_lists, refusal_lists
from .kind_table import FILE as KINDS
from .kind_table import KindTable, read_kinds
from .listings import Listing
from .refusal_table import FILE as REFUSALS
from .refusal_table import Refusal, read_refusals
from .trees import Tree, Written


def read(tree: Tree) -> Tuple[KindTable, Sequence[Refusal]]:
    """Both tables."""
    return read_kinds(tree.text(KINDS)), read_refusals(tree.text(REFUSALS))


def write(tree: Tree) -> List[str]:
    """Writes all lists outside crates/, and gives what could not be written."""
    missing: List[str] = []
    for file, text in _files(tree, missing):
        if text != tree.text(file):
            (tree.top / file).write_text(text, encoding="utf-8")
    return missing


def faults(tree: Tree) -> Iterator[str]:
    """What lists have otherwise than the tables, a line for each entry."""
    missing: List[str] = []
    for file, text in _files(tree, missing):
        if text != tree.text(file):
            yield _difference(file, tree.text(file), text)
    yield from missing
    for listing in listings(tree):
        yield from listing.faults()


def listings(tree: Tree) -> Iterator[Listing]:
    """The lists of the crates."""
    kinds, refusals = read(tree)
    yield from crate_kinds.listings(tree, kinds)
    yield from crate_pages.listings(tree, kinds)
    yield from crate_refusals.listings(tree, refusals)


def written(tree: Tree) -> Iterator[Written]:
    """What stands outside crates/."""
    kinds, refusals = read(tree)
    yield from kind_lists.written(kinds)
    yield from grc_lists.written(kinds)
    yield from python_lists.written(kinds)
    yield from refusal_lists.written(refusals)


def _files(tree: Tree, missing: List[str]) -> Iterator[Tuple[str, str]]:
    """The files with all that is written into them. A place that a file has not once is a fault."""
    texts: Dict[str, str] = {}
    for it in written(tree):
        text = it.in_file(texts.get(it.file, tree.text(it.file)))
        if text is None:
            missing.append(
                f"{it.file}: it has not once, and one behind the other: {it.before.strip()!r}, {it.behind.strip()!r}"
            )
        else:
            texts[it.file] = text
    yield from texts.items()


def _difference(file: str, found: str, wanted: str) -> str:
    """The first line in which a file is not what a table makes."""
    lines = [*zip(found.splitlines(), wanted.splitlines()), ("(its end)", "(its end)")]
    number = next(at for at, (it, other) in enumerate(lines) if it != other or at == len(lines) - 1)
    ends = [it[number] if number < len(it) else "(its end)" for it in (found.splitlines(), wanted.splitlines())]
    found, wanted = (it.strip() for it in ends)
    return f"{file}:{number + 1}: it has {found!r}, and the table makes {wanted!r}: call scripts/generate"
