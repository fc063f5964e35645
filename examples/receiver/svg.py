"""Plots as SVG: axes, lines, dots and stripes, without a library."""

from typing import Iterable, List, Sequence, Tuple
from xml.sax.saxutils import escape

# In pixels: a plot, and its edges at the left, the right, the top and the bottom.
WIDTH, HEIGHT = 760, 280
LEFT, RIGHT, TOP, BOTTOM = 70, 16, 16, 44
BLUE, ORANGE, GREEN, PURPLE, RED, GREY = "#2c6fbb", "#d9822b", "#2e8b57", "#7d3c98", "#c0392b", "#8a8a8a"
Point = Tuple[float, float]


class Plot:
    """A plot of what lies between two places on each axis. What is drawn first lies below."""

    def __init__(self, across: Tuple[float, float], up: Tuple[float, float], height: int = HEIGHT) -> None:
        self.across, self.up, self.height = across, up, height
        self.parts: List[str] = []

    def place(self, point: Point) -> Point:
        """Where a point stands in the picture."""
        x = LEFT + (point[0] - self.across[0]) / (self.across[1] - self.across[0]) * (WIDTH - LEFT - RIGHT)
        y = TOP + (self.up[1] - point[1]) / (self.up[1] - self.up[0]) * (self.height - TOP - BOTTOM)
        return x, y

    def line(self, points: Iterable[Point], colour: str, width: float = 1.5, extra: str = "") -> None:
        """A line through the points."""
        places = " ".join(f"{x:.1f},{y:.1f}" for x, y in map(self.place, points))
        self.parts.append(f'<polyline points="{places}" fill="none" stroke="{colour}" stroke-width="{width}"{extra}/>')

    def dots(self, points: Iterable[Point], colour: str) -> None:
        """A dot at each point."""
        self.parts.extend(
            f'<circle cx="{x:.1f}" cy="{y:.1f}" r="3.5" fill="{colour}"/>' for x, y in map(self.place, points)
        )

    def stripes(self, runs: Iterable[Tuple[float, float, float]], thick: float, colour: str) -> None:
        """A stripe for each of these: from one place across to another, at a place up; all are so thick, in pixels."""
        drawn = []
        for begin, end, height in runs:
            (left, y), (right, _) = self.place((begin, height)), self.place((end, height))
            drawn.append(f"M{left:.1f} {y:.1f}h{right - left:.1f}")
        self.parts.append(f'<path d="{"".join(drawn)}" stroke="{colour}" stroke-width="{thick}"/>')

    def words(self, x: float, y: float, text: str, colour: str = "black", anchor: str = "start") -> None:
        """A text at a place of the picture, in pixels, with a white edge over what is drawn there."""
        edge = 'stroke="white" stroke-width="3" paint-order="stroke"'
        self.parts.append(
            f'<text x="{x:.1f}" y="{y:.1f}" fill="{colour}" text-anchor="{anchor}" {edge}>{escape(text)}</text>'
        )

    def legend(self, entries: Sequence[Tuple[str, str]], left: float, top: float) -> None:
        """A line of text for each colour and what it shows."""
        for number, (colour, text) in enumerate(entries):
            self.words(left, top + 17 * number, text, colour)

    def axes(
        self, ticks: Sequence[Tuple[float, str]], marks: Sequence[Tuple[float, str]], below: str, beside: str
    ) -> None:
        """Thin lines at these places across and up, each with its text, and what the axes show."""
        for value, text in ticks:
            self.line([(value, self.up[0]), (value, self.up[1])], "#e4e4e4", 1)
            self.words(self.place((value, 0))[0], self.height - BOTTOM + 16, text, anchor="middle")
        for value, text in marks:
            self.line([(self.across[0], value), (self.across[1], value)], "#e4e4e4", 1)
            self.words(LEFT - 6, self.place((0, value))[1] + 4, text, anchor="end")
        self.words((LEFT + WIDTH - RIGHT) / 2, self.height - 8, below, anchor="middle")
        middle = (TOP + self.height - BOTTOM) / 2
        self.parts.append(
            f'<text transform="translate(14 {middle:.1f}) rotate(-90)" text-anchor="middle">{escape(beside)}</text>'
        )

    def text(self) -> str:
        """The picture."""
        head = (f'<svg xmlns="http://www.w3.org/2000/svg" viewBox="0 0 {WIDTH} {self.height}" '
            'font-family="sans-serif" font-size="12">')
        return "\n".join(
            [head, f'<rect width="{WIDTH}" height="{self.height}" fill="white"/>', *self.parts, "</svg>", ""]
        )
