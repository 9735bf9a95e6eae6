"""Draws shores: dashed curves with their names, lines through cuts that cross, grey patches."""
from __future__ import annotations

import itertools
import math
from typing import FrozenSet, Iterator, List, NamedTuple, Optional, Sequence, Tuple

import numpy as np

from . import style
from .contours import as_steps, within
from .curves import around, segment_distance, through
from .geometry import Box, Segment, box_distance, overlap, segments, touches
from .graph_scene import Frame
from .layout.arrays import Array
from .nodes import barred, cut_name
from .scene import Pen, Run, Runs, Scene, words_width
from .style import Point

BLUE = Pen(stroke=style.BLUE, width=style.CUT, dash=style.DASH)
RUST = Pen(stroke=style.RUST, width=style.CUT, dash=style.SECOND_DASH)
NAME_SIZE = 12.0


def shade(scene: Scene, frame: Frame, parts: Sequence[Sequence[int]]) -> None:
    """Puts a grey patch below each of some sets of vertices."""
    for part in parts:
        for loop in around(frame, part).loops:
            scene.path(as_steps(loop), Pen(style.SHADE, None, 0))


def draw_cuts(scene: Scene, frame: Frame, cuts: Sequence[FrozenSet[int]]) -> None:
    """Draws cuts: a closed curve round each shore, blue for the first and rust for others, or lines
    through the cuts if two of them cross. They are called X, Y, .. or X with numbers."""
    names = set_names(len(cuts))
    everything = frozenset(range(frame.graph.order))
    if any(_cross(a, b, everything) for a, b in itertools.combinations(cuts, 2)):
        for k, cut in enumerate(cuts):
            _draw_line(scene, frame, cut, names[k], BLUE if k == 0 else RUST)
        return
    draw_shores(scene, frame, [Shore(cut, name, BLUE) for cut, name in zip(cuts, names)])


def set_names(count: int) -> List[Runs]:
    """Returns names of sets: X, Y, Z, or X with numbers if there are more."""
    if count <= 3:
        return [[Run(letter, italic=True)] for letter in "XYZ"[:count]]
    return [cut_name(k, count) for k in range(count)]


def _cross(a: FrozenSet[int], b: FrozenSet[int], everything: FrozenSet[int]) -> bool:
    return bool(a & b and a - b and b - a and everything - a - b)


def _draw_line(scene: Scene, frame: Frame, cut: FrozenSet[int], name: Runs, pen: Pen) -> None:
    """A line through a cut, with the name of the cut at its upper end."""
    for line in through(frame, cut):
        scene.path(as_steps(line, closed=False), pen)
        at, before = (line[0], line[3]) if line[0][1] < line[-1][1] else (line[-1], line[-4])
        way = (at - before) / max(math.dist(at, before), 1e-9)
        x, y = at + way * 10
        scene.text(float(x), float(y), [Run("∂"), *name], NAME_SIZE, fill=str(pen.stroke))


class Shore(NamedTuple):
    """A shore to be drawn: its vertices, its name, and the pen of its curve."""

    vertices: FrozenSet[int]
    name: Runs
    pen: Pen = BLUE


def draw_shores(scene: Scene, frame: Frame, shores: Sequence[Shore]) -> List[Array]:
    """Draws a curve round each shore with its name, and returns all loops. Where the curve goes
    round the other side, the name gets a bar."""
    depth = [sum(other.vertices < it.vertices for other in shores) for it in shores]
    depth = [
        d + sum(o.vertices == it.vertices for o in shores[:k])
        for k, (d, it) in enumerate(zip(depth, shores))
    ]
    curves = [around(frame, it.vertices, d) for it, d in zip(shores, depth)]
    for curve, shore in zip(curves, shores):
        for loop in curve.loops:
            scene.path(as_steps(loop), shore.pen)
    every = [loop for curve in curves for loop in curve.loops]
    taken: List[Box] = []
    for curve, shore in zip(curves, shores):
        name = barred(shore.name) if curve.is_round_the_rest else shore.name
        _NamePlace(frame, curve.loops, every, taken).write(scene, name, str(shore.pen.stroke))
    return every


class _NamePlace:
    """Finds a place for the name of a shore beside its curve, where it touches nothing: high and to
    the side first; failing that at the border, with a thin line to the curve."""

    def __init__(
        self, frame: Frame, loops: List[Array], every: List[Array], taken: List[Box]
    ) -> None:
        self.frame, self.loops, self.taken = frame, loops, taken
        self.lines: List[Segment] = [s for line in frame.lines().values() for s in segments(line)]
        for loop in every:
            points = [(float(x), float(y)) for x, y in loop]
            self.lines += segments([*points, points[0]])

    def write(self, scene: Scene, name: Runs, colour: str) -> None:
        wide, high = words_width(name, NAME_SIZE), NAME_SIZE
        spots = sorted(self._beside(wide, high))
        at = next((at for _, at in spots if self._is_free(self._box(at, wide, high))), None)
        if at is None:
            found = self._at_border(wide, high)
            if found is None:
                return
            at, start, end = found
            scene.line(start, end, Pen(stroke=colour, width=0.7))
        self.taken.append(self._box(at, wide, high))
        scene.text(*at, name, NAME_SIZE, fill=colour, kind="shore-name")

    def _beside(self, wide: float, high: float) -> Iterator[Tuple[float, Point]]:
        """Places outside the loops, each with its rank."""
        mx, my = self.frame.middle()
        for loop in self.loops:
            side = -1 if float(loop[:, 0].mean()) <= mx + 1 else 1
            step = np.roll(loop, -1, 0) - np.roll(loop, 1, 0)
            long = np.maximum(np.hypot(step[:, 0], step[:, 1]), 1e-9)[:, None]
            normal = np.stack([step[:, 1], -step[:, 0]], 1) / long
            if within(tuple((loop[0] + normal[0] * 3).tolist()), loop):
                normal = -normal
            for (x, y), (nx, ny) in zip(loop[::2].tolist(), normal[::2].tolist()):
                for off in (3.5, 7.0, 12.0):
                    reach = off + abs(nx) * wide / 2 + abs(ny) * high / 2
                    at = (x + nx * reach, y + ny * reach)
                    rank = (at[1] - my) - 0.55 * side * (at[0] - mx) + 3 * off
                    yield round(rank, 6), at

    def _at_border(self, wide: float, high: float) -> Optional[Tuple[Point, Point, Point]]:
        """A place at the border of the picture, and the line from there to the curve: the shortest
        that stays off the vertices."""
        points = np.array(self.frame.points)
        far = self.frame.radius + 14
        (x0, y0), (x1, y1) = (points.min(0) - far).tolist(), (points.max(0) + far).tolist()
        xs, ys = np.linspace(x0, x1, 24).tolist(), np.linspace(y0, y1, 24).tolist()
        border = [(x, y) for x in xs for y in (y0, y1)] + [(x, y) for y in ys for x in (x0, x1)]
        best: Optional[Tuple[float, Point, Point, Point]] = None
        for at in border:
            if not self._is_free(self._box(at, wide, high)):
                continue
            for loop in self.loops:
                end = loop[int(np.hypot(loop[:, 0] - at[0], loop[:, 1] - at[1]).argmin())]
                way = end - np.array(at)
                start = np.array(at) + way * min(
                    1.0, 0.62 * max(wide, high) / max(math.hypot(*way), 1e-6)
                )
                is_near = (
                    segment_distance(points, start[None], end[None]).min() < self.frame.radius + 2
                )
                rank = math.dist(start, end) + (500 if is_near else 0)
                if best is None or rank < best[0] - 1e-9:
                    best = (
                        rank,
                        at,
                        (float(start[0]), float(start[1])),
                        (float(end[0]), float(end[1])),
                    )
        return best[1:] if best else None

    @staticmethod
    def _box(at: Point, wide: float, high: float) -> Box:
        x, y = at
        return x - wide / 2 - 1.5, y - high / 2 - 2.5, x + wide / 2 + 1.5, y + high / 2 + 1.5

    def _is_free(self, box: Box) -> bool:
        if any(box_distance(box, it) < self.frame.radius + 2 for it in self.frame.points):
            return False
        if any(overlap(box, it) for it in self.taken):
            return False
        return not any(touches(box, it) for it in self.lines)
