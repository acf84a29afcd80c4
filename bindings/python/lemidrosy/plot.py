"""Charts of whole numbers, one below the other over the same axis."""

from __future__ import annotations

from dataclasses import dataclass
from typing import List, Sequence, Tuple

from .svg import INK, PALE, PATH, Picture

_LEFT, _RIGHT, _TOP, _BOTTOM = 66, 30, 52, 56
_WIDE, _HIGH, _BETWEEN = 640, 130, 44


@dataclass(frozen=True)
class Chart:
    """A chart: its name, and points whose first numbers ascend."""

    name: str
    points: Sequence[Tuple[int, int]]


def steps(most: int, count: int = 4) -> List[int]:
    """Round numbers from 0 to the first that is not below the greatest."""
    size = 1
    while size * count < most:
        for factor in (2, 5, 10):
            if size * factor * count >= most:
                return list(range(0, most + size * factor, size * factor))
        size *= 10
    return list(range(0, most + size, size))


def chart(title: str, below: str, charts: Sequence[Chart]) -> Picture:
    """The charts as a picture."""
    height = _TOP + len(charts) * (_HIGH + _BETWEEN) + _BOTTOM - _BETWEEN
    picture = Picture(_LEFT + _WIDE + _RIGHT, height, title)
    picture.text((12, 20), title, 13, weight="bold")
    for place, one in enumerate(charts):
        draw(picture, one, _TOP + place * (_HIGH + _BETWEEN))
    first, last = charts[0].points[0][0], charts[0].points[-1][0]
    base = height - _BOTTOM
    for value in ticks(first, last):
        picture.text((across(value, first, last), base + 16), str(value), 10, INK, "middle")
    picture.text((_LEFT + _WIDE / 2, base + 38), below, 11, INK, "middle")
    return picture


def ticks(first: int, last: int) -> List[int]:
    """Round numbers within a range."""
    size = steps(max(1, last - first), 10)[1]
    return [value for value in range(-(-first // size) * size, last + 1, size)] or [first]


def across(value: int, first: int, last: int) -> float:
    """Where a number stands on the axis below."""
    return _LEFT + _WIDE * (value - first + 0.5) / (last - first + 1)


def draw(picture: Picture, one: Chart, top: float) -> None:
    """One chart."""
    first, last = one.points[0][0], one.points[-1][0]
    marks = steps(max(1, max(value for _, value in one.points)))
    base = top + _HIGH
    picture.text((_LEFT, top - 8), one.name, 11.5, weight="bold")
    for value in marks:
        y = base - _HIGH * value / marks[-1]
        picture.line((_LEFT, y), (_LEFT + _WIDE, y), PALE, 0.6)
        picture.text((_LEFT - 7, y + 3.5), f"{value:,}", 10, INK, "end")
    points = [(across(place, first, last), base - _HIGH * value / marks[-1]) for place, value in one.points]
    picture.shape(points, PATH, width=1.8, closed=False)
    for point in points if len(points) <= 80 else ():
        picture.circle(point, 2.4, PATH, PATH, 0.8)
