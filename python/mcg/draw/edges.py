"""The paths of edges: straight, bent round foreign vertices, parallel ones as arcs."""
from __future__ import annotations

import math
from typing import Dict, List, Sequence, Tuple

from . import style
from .geometry import flat, room
from .plain import PlainGraph
from .scene import Steps
from .style import Point

MOST_ARCS = 4  # more parallel edges are one line with their number on it
_SHIFTS = (0.0, 4.0, -4.0, 8.0, -8.0, 13.0, -13.0, 19.0, -19.0, 27.0, -27.0)


def edge_paths(
    graph: PlainGraph, points: Sequence[Point], radius: float, is_merged: bool = False
) -> Dict[int, Tuple[Steps, int]]:
    """Returns the path of each edge that is drawn, and for how many edges it stands.

    Parallel edges are arcs next to one another; where they are merged, or more than four, the
    first of them stands for all. An edge that would touch a foreign vertex is bent to the side
    where there is room.
    """
    found: Dict[int, Tuple[Steps, int]] = {}
    for (a, b), many in graph.parallel().items():
        p, q = points[a], points[b]
        if is_merged or len(many) > MOST_ARCS:
            found[many[0]] = ([("M", *p), ("L", *q)], 1 if is_merged else len(many))
            continue
        foreign = _nearby(points, a, b)
        for k, arc in zip(many, _bundle(p, q, len(many), foreign, radius)):
            found[k] = (arc, 1)
    return found


def _nearby(points: Sequence[Point], a: int, b: int) -> List[Point]:
    """The other vertices that a slightly bent edge might touch."""
    (x0, y0), (x1, y1) = points[a], points[b]
    far = 45.0
    low, high = (min(x0, x1) - far, min(y0, y1) - far), (max(x0, x1) + far, max(y0, y1) + far)
    return [
        it
        for v, it in enumerate(points)
        if v not in (a, b) and low[0] < it[0] < high[0] and low[1] < it[1] < high[1]
    ]


def _bundle(p: Point, q: Point, count: int, foreign: List[Point], radius: float) -> List[Steps]:
    """The arcs of some parallel edges, as near to the straight line as the others allow. No vertex
    comes to lie between the straight line and an arc, so that bending makes no crossing."""
    long = math.hypot(q[0] - p[0], q[1] - p[1])
    gap = min(style.ARC_GAP, 0.22 * long, 2.4 * radius / max(1, count - 1) + 3)
    beside = [_beside(it, p, q, long) for it in foreign]
    best: List[Steps] = []
    most = -math.inf
    for shift in _SHIFTS:
        offs = [(k - (count - 1) / 2) * gap + shift for k in range(count)]
        if best and (abs(shift) > 0.35 * long or any(_passes(off, beside) for off in offs)):
            continue
        arcs = [arc(p, q, off) for off in offs]
        free = min(room(foreign, flat(it)) for it in arcs) if foreign else math.inf
        if free > most + 0.5 or not best:
            best, most = arcs, free
        if free >= radius + 2.5:
            break
    return best


def _beside(point: Point, p: Point, q: Point, long: float) -> Tuple[float, float]:
    """How far along the line from p to q a point is, from 0 to 1, and how far off it."""
    dx, dy = (q[0] - p[0]) / max(long, 1e-6), (q[1] - p[1]) / max(long, 1e-6)
    x, y = point[0] - p[0], point[1] - p[1]
    return (x * dx + y * dy) / max(long, 1e-6), y * dx - x * dy


def _passes(off: float, beside: List[Tuple[float, float]]) -> bool:
    """Whether an arc that is that far off at its middle has a point between it and the line."""
    for along, away in beside:
        if 0 < along < 1:
            reach = off * 4 * along * (1 - along)
            if 1e-9 < away < reach or reach < away < -1e-9:
                return True
    return False


def arc(p: Point, q: Point, off: float) -> Steps:
    """Returns a line from p to q that is that far from the straight one at its middle."""
    if abs(off) < 0.2:
        return [("M", *p), ("L", *q)]
    long = max(math.hypot(q[0] - p[0], q[1] - p[1]), 1e-6)
    along = ((q[0] - p[0]) * 0.28, (q[1] - p[1]) * 0.28)
    out = (-(q[1] - p[1]) / long * off * 4 / 3, (q[0] - p[0]) / long * off * 4 / 3)
    first = (p[0] + along[0] + out[0], p[1] + along[1] + out[1])
    second = (q[0] - along[0] + out[0], q[1] - along[1] + out[1])
    return [("M", *p), ("C", *first, *second, *q)]
