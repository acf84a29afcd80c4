"""Pictures as SVG, written as text."""

from __future__ import annotations

from html import escape
from typing import List, Sequence, Tuple

Point = Tuple[float, float]

INK, PALE, PAPER = "#1a1a1a", "#b4b4b4", "#ffffff"
"""What is there, what was undone, and the ground."""
LINE, PATH, FORCED = "#c0392b", "#1f6fb2", "#d35400"
"""A recovery line, a zigzag path, forced checkpoints in a chart."""

FONT = "Helvetica, Arial, 'DejaVu Sans', sans-serif"


def number(value: float) -> str:
    """A coordinate, to a tenth."""
    text = f"{value:.1f}"
    return text[:-2] if text.endswith(".0") else text


class Picture:
    """A picture of this size, to which parts are added. What goes on top comes last."""

    def __init__(self, width: float, height: float, title: str) -> None:
        self.width, self.height = width, height
        self._title = title
        self._parts: List[str] = []

    def _add(self, name: str, text: str = "", **attributes: object) -> None:
        words = [name]
        for key, value in attributes.items():
            if value is not None:
                written = number(value) if isinstance(value, float) else str(value)
                words.append(f'{key.replace("_", "-")}="{escape(written)}"')
        self._parts.append(f"<{' '.join(words)}>{escape(text)}</{name}>" if text else f"<{' '.join(words)}/>")

    def line(self, start: Point, end: Point, colour: str = INK, width: float = 1.5, dashes: str = "") -> None:
        """A straight line."""
        (x1, y1), (x2, y2) = start, end
        self._add("line", x1=float(x1), y1=float(y1), x2=float(x2), y2=float(y2), stroke=colour, stroke_width=float(width), stroke_dasharray=dashes or None)

    def shape(self, points: Sequence[Point], colour: str = INK, fill: str = "none", width: float = 1.5, dashes: str = "", closed: bool = True) -> None:
        """A polygon, or a line through points."""
        written = " ".join(f"{number(x)},{number(y)}" for x, y in points)
        self._add("polygon" if closed else "polyline", points=written, stroke=colour, fill=fill, stroke_width=float(width), stroke_dasharray=dashes or None, stroke_linejoin="round")

    def circle(self, centre: Point, radius: float, colour: str = INK, fill: str = "none", width: float = 1.5) -> None:
        """A circle."""
        self._add("circle", cx=float(centre[0]), cy=float(centre[1]), r=float(radius), stroke=colour, fill=fill, stroke_width=float(width))

    def rectangle(self, corner: Point, width: float, height: float, fill: str) -> None:
        """A filled rectangle."""
        self._add("rect", x=float(corner[0]), y=float(corner[1]), width=float(width), height=float(height), fill=fill)

    def text(self, place: Point, text: str, size: float = 12, colour: str = INK, anchor: str = "start", weight: str = "") -> None:
        """A line of text; `anchor` says which end of it stands at the place: start, middle or end."""
        self._add("text", text, x=float(place[0]), y=float(place[1]), font_size=float(size), fill=colour, text_anchor=anchor, font_weight=weight or None)

    def arrow(self, start: Point, end: Point, colour: str = INK, width: float = 1.3, dashes: str = "", room: float = 0) -> None:
        """An arrow, which ends a little before its end."""
        (x1, y1), (x2, y2) = start, end
        length = max(1.0, ((x2 - x1) ** 2 + (y2 - y1) ** 2) ** 0.5)
        ux, uy = (x2 - x1) / length, (y2 - y1) / length
        tip = (x2 - room * ux, y2 - room * uy)
        back = (tip[0] - 8 * ux, tip[1] - 8 * uy)
        self.line(start, back, colour, width, dashes)
        self.shape([tip, (back[0] - 3.2 * uy, back[1] + 3.2 * ux), (back[0] + 3.2 * uy, back[1] - 3.2 * ux)], colour, colour, 0.5)

    def cross(self, centre: Point, size: float, colour: str) -> None:
        """A cross, where something is lost."""
        x, y = centre
        self.line((x - size, y - size), (x + size, y + size), colour, 2)
        self.line((x - size, y + size), (x + size, y - size), colour, 2)

    def include(self, other: "Picture", place: Point) -> None:
        """Another picture in this one, its corner at the place."""
        self._parts.append(f'<g transform="translate({number(place[0])},{number(place[1])})">')
        self._parts += other._parts
        self._parts.append("</g>")

    def written(self) -> str:
        """The whole file."""
        width, height = number(self.width), number(self.height)
        head = f'<svg xmlns="http://www.w3.org/2000/svg" width="{width}" height="{height}" viewBox="0 0 {width} {height}" font-family="{FONT}">'
        ground = f'<rect width="{width}" height="{height}" fill="{PAPER}"/>'
        return "\n".join([head, f"<title>{escape(self._title)}</title>", ground, *self._parts, "</svg>", ""])
