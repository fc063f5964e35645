"""Plots of what a sink holds, by matplotlib, which is loaded at the first of them."""

from __future__ import annotations

from typing import Any, Iterator, Sequence


# In points: the size of a label's font, the least distance to its tag's line, and how much room a label takes with its
# edges.
SIZE, BEHIND, WIDTH = 8, 3, 13


def labels_of(axes: Any, tags: Sequence[Any]) -> Iterator[tuple[int, float, str]]:
    """The labels of tags in their order: the item, how many points it is behind that, and the text. Where the one
    before it stands, a label goes behind that. Behind the last for which there is room, the number of the others is
    told."""
    points = 72 / axes.figure.dpi
    edge, behind = axes.bbox.x1 * points, 0.0
    for at, tag in enumerate(tags):
        place = axes.transData.transform((tag.offset, 0))[0] * points
        left = max(place + BEHIND, behind)
        behind = left + WIDTH
        if behind + WIDTH > edge and at + 1 < len(tags):
            yield tag.offset, left - place, "%d more" % (len(tags) - at)
            return
        yield tag.offset, left - place, "%s=%d" % (tag.key, tag.value)


def plot_items(axes: Any, start: int, items: Any, tags: Sequence[Any]) -> None:
    """Items over their numbers, and a line with its name at each tag."""
    from matplotlib.ticker import MaxNLocator

    axes.plot(range(start, start + len(items)), items, marker="." if len(items) <= 100 else "", linewidth=1)
    # (of one item, or of none, two numbers would not be whole)
    axes.xaxis.set_major_locator(MaxNLocator("auto", steps=[1, 2, 5, 10], integer=True, min_n_ticks=1))
    axes.xaxis.set_major_formatter("{x:.0f}")
    for tag in tags:
        axes.axvline(tag.offset, color="tab:red", linewidth=1, alpha=0.6)
    for offset, shift, text in labels_of(axes, tags):
        axes.annotate(
            text, (offset, 1), xycoords=("data", "axes fraction"), xytext=(shift, -3), textcoords="offset points",
            rotation=90, va="top", fontsize=SIZE,
            bbox={"facecolor": "white", "edgecolor": "none", "alpha": 0.8, "pad": 1}, annotation_clip=False,
        )
    axes.set_xlabel("item")
    axes.set_ylabel("value")


def plot_spectrum(axes: Any, items: Any) -> None:
    """The amplitudes of the items' sines over their frequencies, in decibels over an amplitude of 1, through a Hann
    window."""
    import numpy

    if len(items) == 0:
        raise ValueError("a spectrum needs items")
    window = numpy.hanning(len(items))
    amplitudes = 2 * numpy.abs(numpy.fft.rfft(numpy.asarray(items, dtype=float) * window)) / max(window.sum(), 1)
    # (an amplitude of 0 has no decibels: no item is as quiet as this one)
    axes.plot(
        numpy.arange(len(amplitudes)) / len(items), 20 * numpy.log10(numpy.maximum(amplitudes, 1e-3)), linewidth=1
    )
    axes.set_xlabel("cycles per item")
    axes.set_ylabel("amplitude in dB")


def plot(title: str, start: int, items: Any, tags: Sequence[Any], spectrum: bool, axes: Any) -> Any:
    if axes is None:
        from matplotlib import pyplot

        axes = pyplot.subplots(figsize=(9, 3), layout="constrained")[1]
    if spectrum:
        plot_spectrum(axes, items)
    else:
        plot_items(axes, start, items, tags)
    axes.set_title(title)
    return axes
