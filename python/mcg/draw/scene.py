"""A picture as a list of marks in points, y downward, before any program draws it.

The back ends read scenes and know nothing of graphs: `svg`, `tikz`, `dot` and `on_axes`.
"""
from __future__ import annotations

import math
from dataclasses import dataclass, field, replace
from typing import Any, Dict, List, NamedTuple, Optional, Sequence, Tuple, Union

from . import style
from .style import Point


class Run(NamedTuple):
    """A piece of a text: plain, italic (the name of a set, with a bar over it or not), a
    subscript, or bold."""

    text: str
    italic: bool = False
    sub: bool = False
    over: bool = False
    bold: bool = False


Runs = List[Run]
Words = Union[str, Runs]
# ("M", x, y), ("L", x, y), ("C", a, b, c, d, x, y) or ("Z",)
Step = Tuple[Any, ...]
Steps = List[Step]
Dash = Optional[Tuple[float, ...]]


class Pen(NamedTuple):
    """How a shape is filled and outlined."""

    fill: Optional[str] = None
    stroke: Optional[str] = style.INK
    width: float = style.EDGE
    dash: Dash = None


@dataclass(frozen=True)
class Path:
    """A curve; `edge` has the number of the edge that it draws, `ends` the keys of its ends."""

    steps: Steps
    pen: Pen
    ends: Optional[Tuple[str, str]] = None

    def moved(self, dx: float, dy: float, scale: float) -> Path:
        """Returns the path at another place, its lengths scaled."""
        by = (dx, dy)
        steps = [
            (it[0], *(v * scale + by[k % 2] for k, v in enumerate(it[1:]))) for it in self.steps
        ]
        return replace(self, steps=steps)


@dataclass(frozen=True)
class Disc:
    """A disc; `key` tells vertices apart for `dot`, `name` is what such a vertex is called."""

    x: float
    y: float
    radius: float
    pen: Pen
    key: str = ""
    name: str = ""

    def moved(self, dx: float, dy: float, scale: float) -> Disc:
        """Returns the disc at another place, its lengths scaled."""
        return replace(
            self, x=self.x * scale + dx, y=self.y * scale + dy, radius=self.radius * scale
        )


@dataclass(frozen=True)
class Polygon:
    """A closed polygon; `key`, `name` and `shape` as for a disc, for those that are vertices."""

    points: List[Point]
    pen: Pen
    key: str = ""
    name: str = ""
    shape: str = ""

    def moved(self, dx: float, dy: float, scale: float) -> Polygon:
        """Returns the polygon at another place, its lengths scaled."""
        return replace(self, points=[(x * scale + dx, y * scale + dy) for x, y in self.points])


@dataclass(frozen=True)
class Rectangle:
    """A rectangle, its corners round if the radius is not 0."""

    x: float
    y: float
    wide: float
    high: float
    radius: float
    pen: Pen

    def moved(self, dx: float, dy: float, scale: float) -> Rectangle:
        """Returns the rectangle at another place, its lengths scaled."""
        return Rectangle(
            self.x * scale + dx,
            self.y * scale + dy,
            self.wide * scale,
            self.high * scale,
            self.radius * scale,
            self.pen,
        )


@dataclass(frozen=True)
class Text:
    """A line of text; y is the middle of its capitals, `wide` its width."""

    x: float
    y: float
    runs: Runs
    size: float
    anchor: str
    fill: str
    wide: float
    kind: str = ""

    def moved(self, dx: float, dy: float, scale: float) -> Text:
        """Returns the text at another place, its lengths scaled."""
        return replace(
            self,
            x=self.x * scale + dx,
            y=self.y * scale + dy,
            size=self.size * scale,
            wide=self.wide * scale,
        )

    @property
    def left(self) -> float:
        """Where the text begins."""
        return self.x - {"middle": self.wide / 2, "start": 0.0, "end": self.wide}[self.anchor]


@dataclass(frozen=True)
class Group:
    """The beginning of a group of marks: its kind, a title (a tool tip), and where it leads."""

    kind: str = ""
    title: str = ""
    href: str = ""
    data: Dict[str, Any] = field(default_factory=dict)

    def moved(self, dx: float, dy: float, scale: float) -> Group:
        """Returns itself: it has no place."""
        return self


@dataclass(frozen=True)
class End:
    """The end of a group."""

    def moved(self, dx: float, dy: float, scale: float) -> End:
        """Returns itself: it has no place."""
        return self


Mark = Union[Path, Disc, Polygon, Rectangle, Text, Group, End]


class Scene:
    """A list of `marks`, and the `box` around them: left, top, right, bottom."""

    def __init__(self) -> None:
        self.marks: List[Mark] = []
        self.box = (math.inf, math.inf, -math.inf, -math.inf)

    @property
    def wide(self) -> float:
        """How wide the box is."""
        return self.box[2] - self.box[0]

    @property
    def high(self) -> float:
        """How high the box is."""
        return self.box[3] - self.box[1]

    def grow(self, x0: float, y0: float, x1: float, y1: float) -> None:
        """Makes the box hold this one."""
        a, b, c, d = self.box
        self.box = (min(a, x0), min(b, y0), max(c, x1), max(d, y1))

    def _grow(self, xs: Sequence[float], ys: Sequence[float], more: float) -> None:
        self.grow(min(xs) - more, min(ys) - more, max(xs) + more, max(ys) + more)

    def path(self, steps: Steps, pen: Pen, ends: Optional[Tuple[str, str]] = None) -> None:
        """Adds a curve."""
        xs = [v for it in steps for v in it[1::2]]
        ys = [v for it in steps for v in it[2::2]]
        self._grow(xs, ys, pen.width / 2)
        self.marks.append(Path(steps, pen, ends))

    def line(self, a: Point, b: Point, pen: Pen) -> None:
        """Adds a straight line."""
        self.path([("M", *a), ("L", *b)], pen)

    def shape(
        self, shape: str, at: Point, radius: float, pen: Pen, key: str = "", name: str = ""
    ) -> None:
        """Adds a disc or the polygon of that name, of about the area of the disc."""
        points = style.corners(shape, *at, radius)
        if points is None:
            self._grow(
                [at[0] - radius, at[0] + radius], [at[1] - radius, at[1] + radius], pen.width / 2
            )
            self.marks.append(Disc(*at, radius, pen, key, name))
        else:
            self.polygon(points, pen, key, name, shape)

    def polygon(
        self, points: List[Point], pen: Pen, key: str = "", name: str = "", shape: str = ""
    ) -> None:
        """Adds a polygon."""
        self._grow([x for x, _ in points], [y for _, y in points], pen.width / 2)
        self.marks.append(Polygon(points, pen, key, name, shape))

    def rectangle(
        self, x0: float, y0: float, x1: float, y1: float, pen: Pen, radius: float = 0.0
    ) -> None:
        """Adds a rectangle."""
        self._grow([x0, x1], [y0, y1], pen.width / 2)
        self.marks.append(Rectangle(x0, y0, x1 - x0, y1 - y0, radius, pen))

    def text(
        self,
        x: float,
        y: float,
        words: Words,
        size: float,
        anchor: str = "middle",
        fill: str = style.INK,
        kind: str = "",
    ) -> None:
        """Adds a line of text; y is the middle of its capitals."""
        runs = as_runs(words)
        mark = Text(x, y, runs, size, anchor, fill, words_width(runs, size), kind)
        self.grow(mark.left, y - 0.5 * size, mark.left + mark.wide, y + 0.5 * size)
        self.marks.append(mark)

    def open(self, kind: str = "", title: str = "", href: str = "", **data: Any) -> None:
        """Begins a group."""
        self.marks.append(Group(kind, title, href, data))

    def close(self) -> None:
        """Ends a group."""
        self.marks.append(End())

    def put(self, other: Scene, dx: float = 0.0, dy: float = 0.0, scale: float = 1.0) -> None:
        """Adds another scene at a place, its lengths scaled."""
        self.marks += [mark.moved(dx, dy, scale) for mark in other.marks]
        a, b, c, d = other.box
        if a <= c:
            self.grow(a * scale + dx, b * scale + dy, c * scale + dx, d * scale + dy)


def as_runs(words: Words) -> Runs:
    """Returns a text as runs."""
    return [Run(words)] if isinstance(words, str) else list(words)


def words_width(words: Words, size: float) -> float:
    """Returns how wide a text is."""
    return sum(style.width(it.text, size * (0.7 if it.sub else 1)) for it in as_runs(words))


def plain_words(words: Words) -> str:
    """Returns the letters of a text."""
    return "".join(it.text for it in as_runs(words))
