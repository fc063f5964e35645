#!/usr/bin/env python3
"""turned_facts.py: that `scripts/generate --check` tells each fact that is turned in one place: the cases of
turned_facts.txt. No list that it compares or writes is without a case."""

from __future__ import annotations

import sys
from pathlib import Path
from typing import Iterator, List, NamedTuple, Set

TOP = Path(__file__).resolve().parent.parent
sys.path.insert(0, str(TOP / "scripts"))
from lists import checking  # noqa: E402
from lists.tables import WrongTable  # noqa: E402
from lists.trees import Tree  # noqa: E402


class Case(NamedTuple):
    """A text of a file, what is put in its place, and what is told then."""

    file: str
    old: str
    new: str
    told: str


def cases() -> Iterator[Case]:
    """Those of the file."""
    texts: List[str] = []
    for line in (TOP / "tests" / "turned_facts.txt").read_text(encoding="utf-8").splitlines():
        key, _, text = line.partition(": ")
        if line and not line.startswith("#"):
            if key.rstrip(":") != Case._fields[len(texts)]:
                raise ValueError(
                    f"turned_facts.txt: {line!r} stands where a line of the key {Case._fields[len(texts)]} belongs"
                )
            texts.append(text.replace("\\n", "\n"))
        if len(texts) == len(Case._fields):
            yield Case(*texts)
            texts = []


def told_of(tree: Tree) -> List[str]:
    """What is told of a tree."""
    try:
        return list(checking.faults(tree))
    except WrongTable as fault:
        return [str(fault)]


def main() -> int:
    """Tries them, and prints what is wrong."""
    tree, seen = Tree(TOP), set()
    # (this reads all files, once for all cases)
    wrong = told_of(tree)
    for case in cases():
        text = tree.text(case.file)
        if case.old not in text:
            wrong.append(f"{case.file} has no {case.old!r}")
            continue
        told = told_of(tree.with_change(case.file, text.replace(case.old, case.new, 1)))
        seen |= {list_of(line) for line in told}
        wanted = case.told if case.file.endswith(".toml") else case.file
        if not any(wanted in line and case.told in line for line in told):
            wrong.append(
                f"{case.file}: {case.old!r} turned into {case.new!r}: wanted {case.told!r}, and it tells {told}"
            )
    wrong += [f"{name}: no case turns it" for name in lists_of(tree) if name not in seen]
    print("\n".join(wrong), end="\n" if wrong else "")
    return 1 if wrong else 0


def list_of(fault: str) -> str:
    """The list that a line tells of: a file, or a file and what it is there."""
    file, _, rest = fault.partition(": ")
    return file.partition(":")[0] if "call scripts/generate" in fault else f"{file}: {rest.partition(': ')[0]}"


def lists_of(tree: Tree) -> Set[str]:
    """All lists that are compared, and the files that are written."""
    return {f"{it.file}: {it.what}" for it in checking.listings(tree)} | {it.file for it in checking.written(tree)}


if __name__ == "__main__":
    sys.exit(main())
