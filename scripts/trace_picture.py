#!/usr/bin/env python3
"""trace_picture.py TRACE [FIRST [LAST]]: draws a trace of `flow run --trace` as SVG: a row for each block, its turns
dark, its waits pale, from FIRST to LAST microseconds."""

import json
import math
import sys
from xml.sax.saxutils import escape

# In pixels: the width of a picture, of the names, and of a letter, and the height of a row.
WIDTH, NAMES, LETTER, ROW = 960, 90, 8, 26
COLORS = {"turn": "#2c6fbb", "wait": "#f0d9b5"}


def read(path):
    """The names of the tracks by their numbers, and the spans that last."""
    with open(path, encoding="utf-8") as file:
        events = json.load(file)["traceEvents"]
    # (a turn has the name of its block, which may be this word)
    names = {it["tid"]: it["args"]["name"] for it in events if it["ph"] == "M" and it["name"] == "thread_name"}
    return names, [it for it in events if it["ph"] == "X"]


def rectangle(span, left, width):
    """A span, or a part of it, as a rectangle, with its name and how long it took for who points at it."""
    top = (span["tid"] - 1) * ROW + 4
    title = escape(f"{span['name']}: {span['dur']} us")
    place = f'x="{left:.2f}" y="{top}" width="{max(width, 0.3):.2f}" height="{ROW - 8}"'
    return f'<rect {place} fill="{COLORS[span["cat"]]}"><title>{title}</title></rect>'


def times(first, last):
    """Round times, at most seven, with what they are called: multiples of 1, 2 or 5 of a unit."""
    unit = 10.0 ** math.floor(math.log10((last - first) / 6))
    step = next(it * unit for it in (1, 2, 5, 10) if (last - first) / 6 <= it * unit * (1 + 1e-9))
    digits = max(0, -math.floor(math.log10(step) + 1e-9))
    for count in range(math.ceil(first / step - 1e-9), math.floor(last / step + 1e-9) + 1):
        yield count * step, f"{count * step:.{digits}f} us"


def picture(names, spans, first, last):
    """The lines of the picture."""
    scale = (WIDTH - NAMES) / (last - first)
    height = len(names) * ROW + 24
    view = f'viewBox="0 0 {WIDTH} {height}"'
    yield f'<svg xmlns="http://www.w3.org/2000/svg" {view} font-family="sans-serif" font-size="12">'
    yield f'<rect width="{WIDTH}" height="{height}" fill="white"/>'
    for span in spans:
        begin, end = max(span["ts"], first), min(span["ts"] + span["dur"], last)
        # (one that took no time is there too)
        if begin < end or (begin == end and not span["dur"]):
            yield rectangle(span, NAMES + (begin - first) * scale, (end - begin) * scale)
    for number, name in names.items():
        yield f'<text x="4" y="{number * ROW - 9}">{escape(name)}</text>'
    for time, label in times(first, last):
        left = NAMES + (time - first) * scale
        # (the last one ends at its time where it would leave the picture)
        anchor = "middle" if left + len(label) * LETTER / 2 <= WIDTH else "end"
        yield f'<text x="{left:.0f}" y="{height - 8}" text-anchor="{anchor}">{label}</text>'
    yield "</svg>"


def main(words):
    if not 1 <= len(words) <= 3:
        sys.exit(__doc__)
    names, spans = read(words[0])
    first = float(words[1]) if len(words) > 1 else 0.0
    last = float(words[2]) if len(words) > 2 else max((it["ts"] + it["dur"] for it in spans), default=first + 1)
    if last <= first:
        sys.exit("trace_picture: LAST has to be behind FIRST")
    print("\n".join(picture(names, spans, first, last)))


if __name__ == "__main__":
    main(sys.argv[1:])
