"""Closed curves round a shore, and open lines through a cut.

The curve is where two distances balance. Let S be the drawing of the shore (its vertices and the
edges among them) and T that of the rest. A point is inside if it is near S, and nearer to S than to
T. Both shores of a tight cut are connected, so in a plane drawing the curve meets each edge of the
cut once and no other edge. A convex hull may hold foreign vertices instead.
"""
from __future__ import annotations

import math
from typing import Dict, FrozenSet, Iterable, List, NamedTuple, Optional, Tuple

import numpy as np

from .contours import contours, smooth, within
from .contours import inside as contains
from .geometry import meetings, segments
from .graph_scene import Frame
from .layout.arrays import Array
from .style import Point

STEP = 3.0  # of the grid
_FAR = 1e6
_COARSE = 40  # vertices; for more the grid is coarser

Line = List[Point]


class Curve(NamedTuple):
    """The closed loops of a curve; `is_round_the_rest` if the shore surrounds the other side, so
    that the curve goes round that."""

    loops: List[Array]
    is_round_the_rest: bool


def segment_distance(q: Array, a: Array, b: Array) -> Array:
    """Returns the least distance of each point from some segments."""
    best = np.full(len(q), np.inf)
    for p0, p1 in zip(a, b):
        d = p1 - p0
        x, y = q[:, 0] - p0[0], q[:, 1] - p0[1]
        t = np.clip((x * d[0] + y * d[1]) / max(float(d @ d), 1e-9), 0.0, 1.0)
        best = np.minimum(best, np.hypot(x - t * d[0], y - t * d[1]))
    return best


def pieces(lines: Iterable[Line]) -> Tuple[Array, Array]:
    """Returns the starts and the ends of all segments of some lines."""
    a = [p for line in lines for p in line[:-1]]
    b = [p for line in lines for p in line[1:]]
    return np.array(a).reshape(-1, 2), np.array(b).reshape(-1, 2)


def skeletons(frame: Frame, shore: FrozenSet[int]) -> Tuple[List[Line], List[Line]]:
    """Returns the drawings of the shore and of the rest.

    Where edges of the two cross, they would have no line between them; then the shore keeps a
    shortest tree that crosses the rest as little as can be, and the rest what that tree leaves.
    """
    inner: List[Tuple[int, int, Line]] = []
    outer: List[Tuple[int, int, Line]] = []
    for k, line in frame.lines().items():
        a, b = frame.graph.edges[k]
        if (a in shore) == (b in shore):
            (inner if a in shore else outer).append((a, b, line))
    hits = _hits(inner, outer)
    if any(map(any, hits)):
        kept = _shortest_tree(inner, hits)
        outer = [it for j, it in enumerate(outer) if not any(hits[k][j] for k in kept)]
        inner = [inner[k] for k in kept]
    dots = [
        [[p, p] for v, p in enumerate(frame.points) if (v in shore) is side]
        for side in (True, False)
    ]
    return dots[0] + [it[2] for it in inner], dots[1] + [it[2] for it in outer]


def _hits(
    inner: List[Tuple[int, int, Line]], outer: List[Tuple[int, int, Line]]
) -> List[List[bool]]:
    """Which edges of the shore cross which of the rest."""
    others = [segments(it[2]) for it in outer]
    boxes = [_box(it[2]) for it in outer]
    found = []
    for _, _, line in inner:
        x0, y0, x1, y1 = _box(line)
        one = segments(line)
        found.append(
            [
                x0 < box[2]
                and box[0] < x1
                and y0 < box[3]
                and box[1] < y1
                and meetings(one, other) > 0
                for box, other in zip(boxes, others)
            ]
        )
    return found


def _box(line: Line) -> Tuple[float, float, float, float]:
    xs, ys = [x for x, _ in line], [y for _, y in line]
    return min(xs) - 1e-3, min(ys) - 1e-3, max(xs) + 1e-3, max(ys) + 1e-3


def _shortest_tree(inner: List[Tuple[int, int, Line]], hits: List[List[bool]]) -> List[int]:
    """Edges that join the shore, those that cross the rest last."""
    head: Dict[int, int] = {}

    def find(v: int) -> int:
        while head.get(v, v) != v:
            v = head[v]
        return v

    kept = []
    for k in sorted(
        range(len(inner)), key=lambda k: (sum(hits[k]), math.dist(inner[k][2][0], inner[k][2][-1]))
    ):
        a, b = find(inner[k][0]), find(inner[k][1])
        if a != b:
            head[a] = b
            kept.append(k)
    return kept


class _Grid:
    """The points of a grid around a drawing, and distances from lines."""

    def __init__(self, points: Array, margin: float, order: int) -> None:
        low, high = points.min(0) - margin, points.max(0) + margin
        self.step = STEP if order <= _COARSE else 4.0
        self.xs, self.ys = (np.arange(low[k], high[k] + self.step, self.step) for k in (0, 1))
        self.shape = (len(self.ys), len(self.xs))

    def distance(self, lines: List[Line], reach: float) -> Array:
        """The distance of each point of the grid from the lines, as far as it is less than the
        reach: each piece is looked at only near itself."""
        found = np.full(self.shape, _FAR)
        for (ax, ay), (bx, by) in zip(*pieces(lines)):
            i0, i1 = self._span(self.xs, min(ax, bx) - reach, max(ax, bx) + reach)
            j0, j1 = self._span(self.ys, min(ay, by) - reach, max(ay, by) + reach)
            x, y = self.xs[None, i0:i1] - ax, self.ys[j0:j1, None] - ay
            dx, dy = bx - ax, by - ay
            square = dx * dx + dy * dy
            if square > 1e-9:
                t = np.minimum(np.maximum((x * dx + y * dy) / square, 0.0), 1.0)
                x, y = x - t * dx, y - t * dy
            part = found[j0:j1, i0:i1]
            np.minimum(part, np.sqrt(x * x + y * y), out=part)
        return found

    def _span(self, axis: Array, low: float, high: float) -> Tuple[int, int]:
        start = max(0, int((low - axis[0]) / self.step))
        return start, min(len(axis), int((high - axis[0]) / self.step) + 2)


def around(frame: Frame, shore: Iterable[int], depth: int = 0) -> Curve:
    """Returns the curve of a shore. Of nested curves the outer ones, of a lower depth, keep further
    off: `depth` counts the curves inside."""
    inside = frozenset(shore)
    points = np.array(frame.points)
    pad = frame.radius + 8.0 + 4.5 * depth
    s, t = skeletons(frame, inside)
    grid = _Grid(_points_of(s), pad + 12, len(points))
    ds, _, balance = _balance(frame, inside, grid, s, t)
    loops = contours(grid.xs, grid.ys, np.minimum(pad - ds, 0.75 * balance))
    is_in = np.isin(np.arange(len(points)), sorted(inside))
    held = [contains(points, it) for it in loops]
    outer = [it for it, has in zip(loops, held) if has[is_in].any()]
    holds = np.any([has for has in held if has[is_in].any()], axis=0)
    if outer and bool(np.all(holds | is_in)):
        return _round_the_rest(frame, inside, pad, s, t)
    # a hole of the region counts only if foreign vertices lie in it
    holes = [it for it, has in zip(loops, held) if not has[is_in].any() and has[~is_in].any()]
    return Curve([smooth(it) for it in _outermost(outer) + holes], False)


def _points_of(lines: List[Line]) -> Array:
    return np.array([point for line in lines for point in line])


def _balance(
    frame: Frame, inside: FrozenSet[int], grid: _Grid, s: List[Line], t: List[Line]
) -> Tuple[Array, ...]:
    """The distances of the grid from the shore and from the rest, and how much nearer the shore is;
    for that a vertex counts from its rim."""
    reach = 2 * frame.radius + 40.0
    ds, dt = grid.distance(s, reach), grid.distance(t, reach)
    outside = [v for v in range(len(frame.points)) if v not in inside]
    dots = [[[frame.points[v]] * 2 for v in part] for part in (sorted(inside), outside)]
    rims = [grid.distance(it, reach) - frame.radius for it in dots]
    return ds, dt, np.minimum(dt, rims[1]) - np.minimum(ds, rims[0])


def _round_the_rest(
    frame: Frame, inside: FrozenSet[int], pad: float, s: List[Line], t: List[Line]
) -> Curve:
    """The curve round the other side of a shore that surrounds it."""
    grid = _Grid(_points_of(t), pad + 12, len(frame.points))
    _, dt, balance = _balance(frame, inside, grid, s, t)
    loops = contours(grid.xs, grid.ys, np.minimum(pad - dt, -0.75 * balance))
    outside = np.array([p for v, p in enumerate(frame.points) if v not in inside])
    outer = [it for it in loops if contains(outside, it).any()]
    return Curve([smooth(it) for it in _outermost(outer)], True)


def _outermost(loops: List[Array]) -> List[Array]:
    return [
        it
        for it in loops
        if not any(it is not other and within(tuple(it[0].tolist()), other) for other in loops)
    ]


def through(frame: Frame, shore: Iterable[int]) -> List[Array]:
    """Returns the cut as lines from one side of the drawing to the other: straight if a straight
    line parts the shore from the rest, else all points as far from one as from the other."""
    inside = frozenset(shore)
    reach = frame.radius + 16
    line = _straight(frame, inside, reach)
    if line is not None:
        return [line]
    s, t = skeletons(frame, inside)
    grid = _Grid(np.array(frame.points), reach, len(frame.points))
    far = max(grid.shape) * STEP
    value = grid.distance(t, far) - grid.distance(s, far)
    whole = pieces(s + t + list(frame.lines().values()))
    found = []
    for line in contours(grid.xs, grid.ys, value):
        good = np.flatnonzero(segment_distance(line, *whole) < reach)
        if len(good) > 6:
            is_loop = len(good) == len(line) and math.dist(line[0], line[-1]) < 2 * STEP
            part = line if is_loop else line[good[0] : good[-1] + 1]
            found.append(smooth(part, closed=is_loop, rounds=26 if is_loop else 90))
    return found


def _straight(frame: Frame, inside: FrozenSet[int], reach: float) -> Optional[Array]:
    """The straight line between a shore and the rest that is farthest from both, if there is room
    for one; it reaches a little beyond the edges that it crosses."""
    points = np.array(frame.points)
    is_in = np.isin(np.arange(len(points)), sorted(inside))
    best = (-math.inf, 0.0, np.zeros(2))
    for turn in np.pi * np.arange(180) / 180:
        axis = np.array([math.cos(turn), math.sin(turn)])
        x = points @ axis
        for low, high in ((x[is_in], x[~is_in]), (x[~is_in], x[is_in])):
            room = float(high.min() - low.max())
            if room > best[0] + 1e-9:
                best = room, float(high.min() + low.max()) / 2, axis
    room, at, axis = best
    if room < 2 * frame.radius + 6:
        return None
    along = np.array([-axis[1], axis[0]])
    spots = []
    for a, b in frame.graph.pairs:
        if is_in[a] != is_in[b]:
            part = (at - points[a] @ axis) / ((points[b] - points[a]) @ axis)
            spots.append(float((points[a] + part * (points[b] - points[a])) @ along))
    ends = [axis * at + along * far for far in (min(spots) - reach, max(spots) + reach)]
    return np.array([ends[0] + f * (ends[1] - ends[0]) for f in np.linspace(0, 1, 10)])
