"""Makes a page of all crates, layer by layer, from crates.txt and the head of each `lib.rt`, and a page of the laws,
from the doc comments of each `laws.rt`."""

import re
from typing import Iterator, List, Tuple

from rattle_items import plain
from source_files import docs_above
from spec_files import TOP

CRATES_HEAD = """# Crates

Each crate, from the bottom up: the head of its `src/lib.rt`, and what it uses. [ARCHITECTURE.md](ARCHITECTURE.md) has
how data flows through them.
"""
LAWS_HEAD = """# Laws

Each law of the definitions, by the function whose clause states it. [MODEL.md](MODEL.md#laws-and-worked-rows) says what
they come to.
"""
# A name that leads to an item in the reference of rustdoc, and stands here as code.
NAMED = re.compile(r"\[(`[^`\]]+`)\](?:\([\w:]+\))?")


def layers() -> Iterator[Tuple[str, List[Tuple[str, str]]]]:
    """The layers of crates.txt, each with its crates and what these use."""
    _, *parts = re.split(r"(?m)^## ", (TOP / "crates.txt").read_text())
    for part in parts:
        title, *lines = part.splitlines()
        yield title, [(name, uses.strip()) for name, uses in re.findall(r"(?m)^(\w+):(.*)$", "\n".join(lines))]


def head_of(crate: str) -> str:
    """What the head of a crate says of it."""
    source = TOP / "crates" / crate / "src"
    file = source / "lib.rt" if (source / "lib.rt").is_file() else source / "main.rt"
    docs = plain(line for line in file.read_text().splitlines() if line.startswith("//!"))
    return NAMED.sub(r"\1", "\n".join(docs))


def crates_page() -> str:
    """The page of the crates."""
    parts = [CRATES_HEAD]
    for title, crates in layers():
        parts.append(f"## {title}\n")
        for crate, uses in crates:
            used = ", ".join(f"`{name}`" for name in uses.split())
            parts.append(f"### {crate}\n\n{head_of(crate)}\n" + (f"\nUses {used}.\n" if used else ""))
    return "\n".join(parts)


def laws_page() -> str:
    """The page of the laws."""
    parts = [LAWS_HEAD]
    for _, crates in layers():
        for crate, _ in crates:
            file = TOP / "crates" / crate / "src" / "laws.rt"
            if file.is_file():
                lines = file.read_text().splitlines()
                parts.append(f"## Laws of {crate}\n")
                for at, line in enumerate(lines):
                    law = re.match(r"pub fn (\w+)", line)
                    if law:
                        parts.append(f"### {law.group(1)}\n\n{' '.join(plain(docs_above(lines, at)))}\n")
    return "\n".join(parts)
