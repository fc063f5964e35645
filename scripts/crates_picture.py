#!/usr/bin/env python3
"""crates_picture.py [--text]: draws crates.txt by Graphviz's `dot` as docs/contribute/crates.svg: the crates in their
layers, and which uses which, but where another that it uses does so too. The lowest layer has what all others mean, and
nothing points at it. With --text it prints what `dot` is given."""

import subprocess
import sys
from dataclasses import dataclass
from pathlib import Path
from typing import Dict, Iterator, List, Set

TOP = Path(__file__).resolve().parent.parent
CRATES, PICTURE = TOP / "crates.txt", TOP / "docs" / "contribute" / "crates.svg"
# A line that begins a layer; the colours of the layers, which take turns, and that of a line.
HEADING = "## "
COLOURS, LINE = ("#e8eef7", "#f7f1e3"), "#7a8794"


@dataclass
class Layer:
    """A layer of crates.txt: its name, what it is for, and its crates."""

    name: str
    saying: str
    crates: List[str]


def read(uses: Dict[str, Set[str]]) -> List[Layer]:
    """The layers from the lowest up; `uses` gets the crates of the repository that each crate uses."""
    layers: List[Layer] = []
    for line in CRATES.read_text().splitlines():
        if line.startswith(HEADING):
            name, _, saying = line[len(HEADING) :].partition(": ")
            layers.append(Layer(name, saying, []))
        elif line and not line.startswith("#"):
            head, _, rest = line.partition(":")
            crate = head.split()[0]
            if not layers:
                raise ValueError(f"crates.txt has {crate} before the first layer")
            layers[-1].crates.append(crate)
            uses[crate] = set(rest.split())
    for crate in uses:
        uses[crate] &= set(uses)
    return layers


def test(layers: List[Layer], uses: Dict[str, Set[str]]) -> None:
    """Refuses a crate that uses one of a layer above."""
    height = {crate: at for at, layer in enumerate(layers) for crate in layer.crates}
    for crate, below in uses.items():
        for other in sorted(below):
            if height[other] > height[crate]:
                raise ValueError(
                    f"crates.txt has {crate} in the layer {layers[height[crate]].name}, and it uses {other} of "
                    f"{layers[height[other]].name}"
                )


def reached(crate: str, uses: Dict[str, Set[str]], seen: Set[str]) -> Set[str]:
    """All crates that one stands on."""
    for other in uses[crate] - seen:
        seen.add(other)
        reached(other, uses, seen)
    return seen


def shown(layers: List[Layer], uses: Dict[str, Set[str]]) -> Iterator[str]:
    """The lines of what `dot` is given. A bar that is not seen stands between two layers, so that each lies above the
    one before."""
    yield "digraph crates {"
    yield '  rankdir=BT; newrank=true; nodesep=0.15; ranksep=0.28; fontname="sans-serif"; fontsize=13;'
    yield (
        '  node [shape=box, style=filled, fillcolor=white, fontname="sans-serif", fontsize=12, height=0.3,'
        ' margin="0.08,0.03"];'
    )
    yield '  edge [arrowsize=0.6];'
    for at, layer in enumerate(layers):
        yield (
            f'  subgraph cluster_{at} {{ label="{layer.name}: {layer.saying}"; labeljust=l; style=filled;'
            f' color="{COLOURS[at % 2]}";'
        )
        yield from (f'    "{crate}";' for crate in layer.crates)
        yield "  }"
    for at, (below, above) in enumerate(zip(layers, layers[1:])):
        yield f'  "bar_{at}" [style=invis, height=0, width=0, label=""];'
        yield from (f'  "{crate}" -> "bar_{at}" [style=invis];' for crate in below.crates)
        yield from (f'  "bar_{at}" -> "{crate}" [style=invis];' for crate in above.crates)
    stands_on = {crate: reached(crate, uses, set()) for crate in uses}
    lowest = set(layers[0].crates)
    for crate, below in uses.items():
        direct = {other for other in below if not any(other in stands_on[it] for it in below)}
        yield from (
            f'  "{other}" -> "{crate}" [dir=back, color="{LINE}"];'
            for other in sorted(direct)
            if crate in lowest or other not in lowest
        )
    yield "}"


def main(words: List[str]) -> int:
    """Draws the picture, or prints the text."""
    if words not in ([], ["--text"]):
        print("crates_picture.py: its words are: [--text]", file=sys.stderr)
        return 2
    uses: Dict[str, Set[str]] = {}
    try:
        layers = read(uses)
        test(layers, uses)
    except ValueError as fault:
        print(f"crates_picture.py: {fault}", file=sys.stderr)
        return 1
    text = "\n".join(shown(layers, uses)) + "\n"
    if words:
        print(text, end="")
        return 0
    drawn = subprocess.run(["dot", "-Tsvg"], input=text, capture_output=True, text=True, check=True)
    PICTURE.write_text(drawn.stdout)
    return 0


if __name__ == "__main__":
    sys.exit(main(sys.argv[1:]))
