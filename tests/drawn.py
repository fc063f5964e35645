#!/usr/bin/env python3
"""drawn.py TEXT PICTURE: tells where a picture is not that of a graph: the nodes with their words, the connections with
ports, words and colour, and the groups with their words and nodes, of the text beside those of the SVG that `dot` made
of it. The text is that of `flow draw` or of scripts/crates_picture.py. Where they stand differs from one version of
Graphviz to another, and is not looked at, but for which nodes are in a group."""

import re
import sys
import xml.etree.ElementTree as tree
from typing import Dict, List, Tuple

SVG = "{http://www.w3.org/2000/svg}"

# By the title of each node, each connection and each group its words, those of a group with its nodes behind them, and
# the colour of the line.
Parts = Dict[str, Tuple[List[str], str]]


def of_text(text: str) -> Parts:
    """The parts of a text for `dot`."""
    found: Parts = {}
    for name, label in re.findall(r'(?m)^  "([^"]+)" \[label="([^"]*)"\];$', text):
        found[name] = ([word for word in re.split(r"[{}|]|\\n|<\w+> ", label) if word], "black")
    for start, start_side, end, end_side, label, colour in re.findall(
        r'(?m)^  "([^"]+)":\w+:(\w) -> "([^"]+)":\w+:(\w) \[label="([^"]*)", color="([^"]*)"\];$', text
    ):
        found[f"{start}:{start_side}->{end}:{end_side}"] = ([label], colour.lower())
    for start, end, colour in re.findall(r'(?m)^  "([^"]+)" -> "([^"]+)" \[.*color="([^"]*)"\];$', text):
        found[f"{start}->{end}"] = ([], colour)
    for name, label, colour, inside in re.findall(
        r'(?ms)^  subgraph (\w+) \{ label="([^"]*)";.*?color="([^"]*)";$(.*?)^  \}$', text
    ):
        nodes = re.findall('"([^"]+)";', inside)
        found[name] = ([label, *sorted(nodes)], colour)
        found.update((node, ([node], "black")) for node in nodes)
    return found


def box(part: tree.Element) -> Tuple[float, float, float, float]:
    """The left, top, right and bottom of a node or a group."""
    points = [
        tuple(map(float, it.split(","))) for line in part.iter(f"{SVG}polygon") for it in line.get("points", "").split()
    ]
    return min(x for x, _ in points), min(y for _, y in points), max(x for x, _ in points), max(y for _, y in points)


def inside(group: tree.Element, nodes: List[tree.Element]) -> List[str]:
    """The nodes that stand in a group."""
    left, top, right, bottom = box(group)
    boxes = {node.findtext(f"{SVG}title", ""): box(node) for node in nodes}
    return sorted(
        name for name, it in boxes.items() if left <= it[0] and top <= it[1] and it[2] <= right and it[3] <= bottom
    )


def of_picture(root: tree.Element) -> Parts:
    """The parts of a picture that `dot` made."""
    found: Parts = {}
    nodes = [part for part in root.iter(f"{SVG}g") if part.get("class") == "node"]
    for part in root.iter(f"{SVG}g"):
        if part.get("class") not in ("node", "edge", "cluster"):
            continue
        line = part.find(f"{SVG}polygon")
        colour = line.get("stroke", "") if line is not None else ""
        words = [it.text or "" for it in part.iter(f"{SVG}text")]
        found[part.findtext(f"{SVG}title", "")] = (
            words + (inside(part, nodes) if part.get("class") == "cluster" else []),
            colour,
        )
    return found


def main() -> int:
    """Prints what differs."""
    with open(sys.argv[1], encoding="utf-8") as file:
        wanted = of_text(file.read())
    came = of_picture(tree.parse(sys.argv[2]).getroot())
    for name in sorted({*wanted, *came}):
        if wanted.get(name) != came.get(name):
            print(f"{name}: wanted {wanted.get(name)}, and the picture has {came.get(name)}")
    return 0 if wanted and wanted == came else 1


sys.exit(main())
