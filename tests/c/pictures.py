"""Pictures and plots of python/magbelu, over a stand-in for the library that has a drawing and holds items.
tests/parts/c.sh calls it."""

import ctypes
import re
import shutil
import xml.etree.ElementTree

import magbelu
from magbelu import _library
from magbelu._plot import plot

try:
    from matplotlib import pyplot
except ImportError:
    pyplot = None

ECHO_DOT = r"""digraph {
  rankdir=LR;
  node [shape=record];
  "src" [label="{src\nvector_source\nq 1|{<o0> 0}}"];
  "late" [label="{{<i0> 0}|late\ndelay\nn 2\nq 1|{<o0> 0}}"];
  "sum" [label="{{<i0> 0|<i1> 1}|sum\nadd\nq 1|{<o0> 0}}"];
  "out" [label="{{<i0> 0}|out\nvector_sink\nq 1}"];
  "dry" [label="{{<i0> 0}|dry\nvector_sink\nq 1}"];
  "src":o0:e -> "sum":i0:w [label="byte", color="#9C27B0"];
  "src":o0:e -> "late":i0:w [label="byte", color="#9C27B0"];
  "late":o0:e -> "sum":i1:w [label="byte", color="#9C27B0"];
  "sum":o0:e -> "out":i0:w [label="byte", color="#9C27B0"];
  "src":o0:e -> "dry":i0:w [label="byte", color="#9C27B0"];
}
"""

ITEMS, TAGS = [250, 1, 2, 3], "@1:burst=7/0\n@3:end=-1/0\n"


class Holding:
    """Stands for the library: a graph has this drawing, and its sink these items and tags."""

    def __init__(self, dot, items=(), tags=""):
        self.drawings, self.items, self.tags = [dot.encode(), b"flowchart LR\n"], bytes(items), tags.encode()

    def magbelu_bytes_open(self, plant, *words):
        return _library.Answer(0, 0, 0, 0)

    def magbelu_bytes_free(self, plant):
        return _library.Reply(0, 0, 0, 0)

    def magbelu_bytes_draw(self, plant, format, output, room):
        text = self.drawings[format]
        if len(text) <= room:
            ctypes.memmove(output, text, len(text))
        return _library.Answer(0, 0, len(text), 0)

    def magbelu_bytes_read(self, plant, name, name_len, start, most, order, data, room, tags, tags_room):
        shown = self.items[start : start + most]
        ctypes.memmove(data, shown, len(shown))
        ctypes.memmove(tags, self.tags, len(self.tags))
        return _library.Piece(0, 0, len(self.items), 1, len(shown), len(self.tags))


def graph_of(dot, *held):
    _library._loaded = Holding(dot, *held)
    return magbelu.Graph("")


def echo():
    return graph_of(ECHO_DOT)


def graphs_are_drawn():
    assert echo().draw() == echo().draw("dot") == ECHO_DOT
    assert echo().draw("mermaid") == "flowchart LR\n"
    # (longer than a first room)
    assert graph_of(100000 * "-").draw() == 100000 * "-"
    for wrong in ["png", "", None]:
        try:
            echo().draw(wrong)
        except ValueError:
            continue
        raise AssertionError("%r is drawn" % (wrong,))


def pictures_are_made():
    """By `dot`, where that is installed; a notebook gets none elsewhere."""
    if shutil.which("dot") is None:
        assert echo()._repr_svg_() is None
        try:
            echo().draw("svg")
        except FileNotFoundError:
            return
        raise AssertionError("an SVG without dot")
    picture, shown = echo().draw("svg"), echo()._repr_svg_()
    # A notebook puts what it is shown into its page, where no declaration may stand.
    assert shown.startswith("<svg") and picture.startswith("<?xml") and picture.endswith(shown), shown[:200]
    names = [it.text for it in xml.etree.ElementTree.fromstring(picture).iter("{http://www.w3.org/2000/svg}title")]
    assert {"src", "late", "sum", "out", "dry"} < set(names), names


def items_are_plotted():
    axes = graph_of("", ITEMS, TAGS).plot("out")
    line, *marks = axes.lines
    assert axes.get_title() == "out" and list(line.get_xdata()) == [0, 1, 2, 3] and list(line.get_ydata()) == ITEMS
    assert [it.get_xdata()[0] for it in marks] == [1, 3] and [it.get_text() for it in axes.texts] == [
        "burst=7",
        "end=-1",
    ]
    own = pyplot.subplots()[1]
    assert graph_of("", ITEMS, "").plot("out", 2, 1, axes=own) is own
    assert list(own.lines[0].get_xdata()) == [2] and list(own.lines[0].get_ydata()) == [2] and len(own.lines) == 1


def labels_cover_no_other():
    """Labels of tags that are close, or on one item, stand beside one another, each behind its item, and items are
    numbered by whole numbers."""
    for tags, count in [
        ("@1:burst=7/0\n@1:end=-1/0\n@2:x=5/0\n", 4),
        ("@100:burst=7/0\n@103:end=-1/0\n@105:packet_length=500/0\n@106:a=1/0\n@600:b=2/0\n@601:c=3/0\n", 1000),
    ]:
        axes = graph_of("", [1] * count, tags).plot("out")
        axes.figure.canvas.draw()
        boxes = [it.get_window_extent() for it in axes.texts]
        assert sum(len(it.get_text().split("\n")) for it in axes.texts) == tags.count("\n")
        assert not [1 for at, box in enumerate(boxes) for other in boxes[:at] if box.overlaps(other)], boxes
        for text, box in zip(axes.texts, boxes):
            assert box.x0 >= axes.transData.transform((text.xy[0], 0))[0] and box.x1 <= axes.figure.bbox.x1, text
        assert all(it == int(it) for it in axes.get_xticks()), axes.get_xticks()


def items_are_numbered():
    """By whole numbers written out, whether there are none or many, and wherever they begin; no number covers
    another."""
    for start, count in [(0, 0), (0, 1), (7, 1), (0, 2), (0, 100), (10**9, 50), (2**32 - 10, 10), (123456, 20_000_000)]:
        axes = plot("out", start, range(count), [], False, None)
        axes.figure.canvas.draw()
        shown = [
            it for it in axes.get_xticklabels() if axes.get_xlim()[0] <= it.get_position()[0] <= axes.get_xlim()[1]
        ]
        assert shown and all(re.fullmatch("[0-9]+", it.get_text()) for it in shown), (start, count, shown)
        assert axes.xaxis.get_offset_text().get_text() == "", axes.xaxis.get_offset_text()
        boxes = [it.get_window_extent() for it in shown]
        assert not [1 for one, other in zip(boxes, boxes[1:]) if one.overlaps(other)], (start, count, shown)
        pyplot.close(axes.figure)


def many_labels_are_counted():
    """Those for which there is no room are told by their number."""
    axes = graph_of("", [1] * 200, "".join("@%d:key=%d/0\n" % (at, at) for at in range(200))).plot("out")
    axes.figure.canvas.draw()
    boxes = [it.get_window_extent() for it in axes.texts]
    assert not [
        1 for at, box in enumerate(boxes) for other in boxes[:at] if box.overlaps(other)
    ], "labels cover one another"
    assert all(it.x1 <= axes.figure.bbox.x1 for it in boxes) and len(axes.lines) == 201
    *told, last = [it.get_text() for it in axes.texts]
    assert (
        told == ["key=%d" % at for at in range(len(told))] and last == "%d more" % (200 - len(told)) and len(told) > 20
    ), last


def spectra_are_plotted():
    """A sine of an eighth of a cycle per item, with the amplitude 100, about 0: twice 20 decibels."""
    sine = [round(100 * x) % 256 for x in 32 * [0, 0.5**0.5, 1, 0.5**0.5, 0, -(0.5**0.5), -1, -(0.5**0.5)]]
    unsigned = [it ^ 128 for it in sine]
    line = graph_of("", unsigned).plot("out", spectrum=True).lines[0]
    levels = dict(zip(line.get_xdata(), line.get_ydata()))
    assert len(levels) == 129 and max(levels) == 0.5 and abs(levels[0.125] - 40) < 0.1
    # (at 0 is their mean of 128, and the window lets a line touch its neighbours)
    assert all(
        level < 10 for place, level in levels.items() if abs(place - 0.125) > 2.5 / 256 and place > 2.5 / 256
    ), levels
    try:
        graph_of("").plot("out", spectrum=True)
    except ValueError:
        return
    raise AssertionError("a spectrum of nothing")


tests = [graphs_are_drawn, pictures_are_made]
tests += (
    [items_are_plotted, labels_cover_no_other, items_are_numbered, many_labels_are_counted, spectra_are_plotted]
    if pyplot is not None
    else []
)
for test in tests:
    test()
print(
    "c: %d tests of the pictures of python/magbelu passed%s"
    % (len(tests), "" if pyplot is not None else ", without matplotlib")
)
