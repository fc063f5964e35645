#!/usr/bin/env python3
"""picture.py SCRIPT: holds what the script draws of a part of a trace against rectangles that were worked out by hand.
It prints what is wrong, and ends in status 1 then."""

import json
import subprocess
import sys
import tempfile
import xml.etree.ElementTree

SVG = "{http://www.w3.org/2000/svg}"
# The blocks, of which one has a name that is a word of the format too; and their turns and waits: the track, the
# beginning and the length.
BLOCKS = ["thread_name", "out", "a&b"]
SPANS = [
    ("turn", 1, 0.0, 10.0),
    ("turn", 1, 10.0, 0.5),
    ("wait", 1, 11.0, 9.0),
    ("turn", 1, 20.0, 1.0),
    ("turn", 2, 4.5, 7.5),
    ("wait", 2, 12.0, 8.5),
    ("wait", 3, 0.25, 29.75),
    ("turn", 3, 15.0, 0.0),
]
# From 10 to 20 microseconds, each of 87 pixels, what is cut ends at the edge, and what only touches it is not there.
# (What took no time is 0.3 pixels wide.)
WANTED = [
    ("thread_name: 0.5 us", "90.00", "4", "43.50"),
    ("thread_name: 9.0 us", "177.00", "4", "783.00"),
    ("out: 7.5 us", "90.00", "30", "174.00"),
    ("out: 8.5 us", "264.00", "30", "696.00"),
    ("a&b: 29.75 us", "90.00", "56", "870.00"),
    ("a&b: 0.0 us", "525.00", "56", "0.30"),
]


def trace():
    """The trace as `flow run --trace` writes it."""
    events = [
        {"ph": "M", "pid": 1, "tid": at, "name": "thread_name", "args": {"name": name}}
        for at, name in enumerate(BLOCKS, 1)
    ]
    for kind, track, begin, length in SPANS:
        event = {"ph": "X", "pid": 1, "tid": track, "ts": begin, "dur": length, "name": BLOCKS[track - 1], "cat": kind}
        events.append({**event, "args": {"firings": 1}} if kind == "turn" else event)
    return json.dumps({"traceEvents": events})


def made(*words):
    """The picture."""
    with tempfile.NamedTemporaryFile("w") as file:
        file.write(trace())
        file.flush()
        picture = subprocess.run(
            [sys.executable, sys.argv[1], file.name, *words], stdout=subprocess.PIPE, check=True, text=True
        ).stdout
    return xml.etree.ElementTree.fromstring(picture)


def drawn(*words):
    """The rectangles of a picture but for the ground: what each tells who points at it, and its left, its top and its
    width; and the texts."""
    top = made(*words)
    rectangles = [(it[0].text, it.get("x"), it.get("y"), it.get("width")) for it in top.iter(SVG + "rect") if len(it)]
    return rectangles, [it.text for it in top.iter(SVG + "text")]


def labels(*words):
    """The times below a picture, with where each stands."""
    texts = [it for it in made(*words).iter(SVG + "text") if it.text.endswith(" us")]
    return [(it.text, float(it.get("x")), it.get("text-anchor")) for it in texts]


def main():
    rectangles, texts = drawn("10", "20")
    if rectangles != WANTED or texts[: len(BLOCKS)] != BLOCKS:
        print(f"wanted {WANTED} of {BLOCKS}, and there came {rectangles} of {texts}")
        sys.exit(1)
    # Round times stand below, each within the picture: the last one of 20 ends at its edge.
    for words, wanted in [
        (["10", "20"], ["10 us", "12 us", "14 us", "16 us", "18 us", "20 us"]),
        ([], ["0 us", "5 us", "10 us", "15 us", "20 us", "25 us", "30 us"]),
        (["13", "1000"], ["200 us", "400 us", "600 us", "800 us", "1000 us"]),
        (["0.1", "0.65"], ["0.1 us", "0.2 us", "0.3 us", "0.4 us", "0.5 us", "0.6 us"]),
    ]:
        if drawn(*words)[1][len(BLOCKS) :] != wanted:
            print(f"wanted {wanted} below the picture of {words}, and there came {drawn(*words)[1][len(BLOCKS) :]}")
            sys.exit(1)
    for words in (["10", "20"], ["8000", "9000"], ["0", "199990"]):
        for text, place, anchor in labels(*words):
            half = 4 * len(text)
            if place + {"middle": half, "end": 0}[anchor] > 960 or place - half < 0:
                print(f"{text} is not within the picture of {words}: {place} {anchor}")
                sys.exit(1)
    if len(drawn()[0]) != len(SPANS):
        print("not all is drawn where no times are said")
        sys.exit(1)


if __name__ == "__main__":
    main()
