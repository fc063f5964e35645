"""docs/user/COVERAGE.md has a line for each block of the GNU Radio that is installed: `coverage.py` tells those that it
lacks, and what else is wrong with the page.

Not counted, and without a line, are blocks whose name ends in the letters of float or complex streams, as `add_ff`.
"""

from __future__ import annotations

import importlib
import inspect
import pathlib
import re
import sys
from typing import Iterator, NamedTuple

import gnuradio
from gnuradio import gr

TOP = pathlib.Path(__file__).resolve().parents[2]
PAGE = TOP / "docs" / "user" / "COVERAGE.md"
# Modules of tools, and the one of the classes that blocks are made of.
TOOLS = frozenset(
    ("bindtool", "blocktool", "eng_arg", "eng_notation", "eng_option", "gr", "gr_unittest", "grc", "modtool")
)
BASES = frozenset(("basic_block", "block", "sync_block", "hier_block2"))
FLOATS = re.compile(r"_[bsivpdz]*[fc][bsivpfcdz]*$")
# What a line says: that a kind of its own stands for the block, that others do, that nothing does, or that it is not
# counted.
SAYS = ("kind", "by", "no", "out")


class Line(NamedTuple):
    """A line of a table: the names of its blocks, what it says, and of which kinds or why."""

    names: list[str]
    says: str
    text: str


def installed(others: set[str]) -> Iterator[tuple[str, list[str]]]:
    """The modules that have blocks, each with their names, but for others."""
    folder = pathlib.Path(gnuradio.__file__).parent
    for name in sorted(it.name.removesuffix(".py") for it in folder.iterdir()):
        if name in TOOLS | others or name.startswith(("_", "plot_", "pyqt_")):
            continue
        module = importlib.import_module("gnuradio." + name)
        found = [
            key
            for key, it in vars(module).items()
            if inspect.isclass(it) and BASES & {base.__name__ for base in it.__mro__}
        ]
        if found:
            yield name, sorted(found)


def expanded(text: str) -> list[str]:
    """The names that stand in a cell, where `add_{ii,ss}` are two."""
    names = []
    for it in text.split():
        before, _, rest = it.strip("`").partition("{")
        ends, _, behind = rest.partition("}")
        names += [before + end + behind for end in ends.split(",")]
    return names


def tables(page: str) -> dict[str, list[Line]]:
    """The lines of each module's table."""
    found: dict[str, list[Line]] = {}
    for part in re.split(r"^## ", page, flags=re.M)[1:]:
        rows = [[cell.strip() for cell in it.split("|")[1:-1]] for it in part.splitlines() if it.startswith("| `")]
        found[part.partition("\n")[0]] = [Line(expanded(names), says, text) for names, says, text in rows]
    return found


def counts(lines: list[Line]) -> str:
    """The sentence that counts the blocks of all lines."""
    of = {says: sum(len(it.names) for it in lines if it.says == says) for says in SAYS}
    return "Of %d such blocks %d can be had: %d by a kind of their own, and %d by others." % (
        of["kind"] + of["by"] + of["no"], of["kind"] + of["by"], of["kind"], of["by"],
    )


def faults() -> Iterator[str]:
    """What is wrong with the page."""
    page = PAGE.read_text()
    kinds = set(re.findall(r"^(\w+): ", (TOP / "docs" / "user" / "KINDS.md").read_text(), re.M))
    lines_of = tables(page)
    # (Modules of which no block is counted take long to import.)
    there = dict(installed({module for module, lines in lines_of.items() if [it.names for it in lines] == [["*"]]}))
    if list(lines_of) != sorted(lines_of):
        yield "the modules are not in order"
    for module, lines in lines_of.items():
        firsts, names = [it.names[0] for it in lines], [name for it in lines for name in it.names]
        if firsts != sorted(firsts):
            yield "%s: the lines are not in the order of their first names" % module
        for it in lines:
            words = set(re.findall(r"`(\w+)`", it.text)) if it.says in ("kind", "by") else set()
            if it.says not in SAYS or not words <= kinds or (it.says == "kind" and len(words) != 1):
                yield "%s: the line of %s says %s: %s" % (module, it.names[0], it.says, it.text)
        for name in names:
            if names.count(name) > 1:
                yield "%s: %s has two lines" % (module, name)
            if module in there and name not in there[module] and gr.version().startswith("3.10.5"):
                yield "%s: there is no block %s" % (module, name)
    for module, blocks in there.items():
        known = {name for it in lines_of.get(module, []) for name in it.names}
        for name in blocks:
            if name not in known and not FLOATS.search(name):
                yield "%s: %s has no line" % (module, name)
    wanted = counts([it for lines in lines_of.values() for it in lines])
    if wanted not in page:
        yield "the page does not say: " + wanted


if __name__ == "__main__":
    found = list(faults())
    print("\n".join(found) or counts([it for lines in tables(PAGE.read_text()).values() for it in lines]))
    sys.exit(1 if found else 0)
