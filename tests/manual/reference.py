#!/usr/bin/env python3
"""reference.py TOP SITE: tells each public name of the libraries that the reference has no heading for."""

import re
import sys
from pathlib import Path
from typing import Iterator, Set, Tuple


def rattle_names(top: Path) -> Iterator[str]:
    """What the modules of the crate `magbelu` bring and declare."""
    for file in sorted((top / "crates/magbelu/src").glob("*.rt")):
        text = re.sub(r"//.*", "", file.read_text())
        for names in re.findall(r"(?m)^pub use [\w:]+::(?:\{([^}]*)\}|\w+);", text):
            yield from re.findall(r"\w+", names)
        yield from re.findall(r"(?m)^pub use [\w:]+::(\w+);", text)
        yield from re.findall(r"(?m)^pub (?:struct|enum|trait|fn) (\w+)", text)


def headings(folder: Path) -> Set[str]:
    """The headings of all pages of a folder."""
    texts = (page.read_text() for page in folder.rglob("*.html"))
    return {heading for text in texts for heading in re.findall(r"<h[23] id=\"[^\"]*\">([^<]*)</h", text)}


def c_names(top: Path) -> Iterator[str]:
    """The functions that callers call, and what they hand over. Those that no comment describes, or that it hides, are
    for the header alone."""
    text = (top / "c/magbelu.h").read_text()
    own = re.findall(r"(?m)^static inline .*?\b(magbelu_\w+)\(", text) + re.findall(r"(?m)^struct (\w+) \{", text)
    hidden = re.findall(r"/\* \(not for callers\) \*/\n(.*?)(?=\n/\*)", text, flags=re.DOTALL)
    yield from set(own) - set(re.findall(r"\bmagbelu_\w+", "\n".join(hidden)))


def cpp_names(top: Path) -> Iterator[str]:
    """The classes, and what a graph and a stream do."""
    text = (top / "c/magbelu.hpp").read_text()
    yield from set(re.findall(r"(?m)^(?:class|struct) (\w+)", text)) - {"held"}
    for name in ("feed", "close", "set", "settle", "need", "item_size"):
        yield from (f"graph::{name}", f"stream::{name}")


def python_names(top: Path) -> Iterator[str]:
    """What the two public modules have, and methods of their classes."""
    for module in ("__init__", "gnuradio"):
        listed = re.search(r"(?ms)^__all__ = \[(.*?)\]", (top / f"python/magbelu/{module}.py").read_text())
        yield from re.findall(r'"(\w+)"', listed.group(1) if listed else "")
    yield from ("Graph.read", "Graph.set", "Stream.drain", "Flowgraph.set_all", "Flowgraph.outcome")


def wanted(top: Path) -> Iterator[Tuple[str, Set[str]]]:
    """The folder of each reference, with the names that it has to have."""
    yield "rattle", set(rattle_names(top))
    yield "c", set(c_names(top))
    yield "cpp", set(cpp_names(top))
    yield "python", set(python_names(top))


def main() -> int:
    """Prints the names that lack."""
    top, site = Path(sys.argv[1]), Path(sys.argv[2])
    lacking = 0
    for folder, names in wanted(top):
        for name in sorted(names - headings(site / "reference" / folder)) or ([] if names else ["every name"]):
            lacking += 1
            print(f"the reference of {folder} lacks {name}")
    return 1 if lacking else 0


sys.exit(main())
