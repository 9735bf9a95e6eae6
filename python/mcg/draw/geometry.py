"""Distances and meetings of points, segments and boxes, without any other package."""
from __future__ import annotations

import math
from typing import Iterable, List, Sequence, Tuple

from .scene import Steps
from .style import Point

Segment = Tuple[float, float, float, float]
Box = Tuple[float, float, float, float]

_PIECES = 14  # into which a cubic is cut


def flat(steps: Steps) -> List[Point]:
    """Returns points along a path, close enough to stand for it."""
    found: List[Point] = []
    for step in steps:
        if step[0] in "ML":
            found.append((step[1], step[2]))
        elif step[0] == "C":
            found += _cubic(found[-1], step)
        elif step[0] == "Z":
            found.append(found[0])
    return found


def _cubic(start: Point, step: Tuple[float, ...]) -> List[Point]:
    x0, y0 = start
    _, x1, y1, x2, y2, x3, y3 = step
    found = []
    for k in range(1, _PIECES + 1):
        t = k / _PIECES
        a, b, c, d = (1 - t) ** 3, 3 * t * (1 - t) ** 2, 3 * t * t * (1 - t), t**3
        found.append((a * x0 + b * x1 + c * x2 + d * x3, a * y0 + b * y1 + c * y2 + d * y3))
    return found


def segments(points: Sequence[Point]) -> List[Segment]:
    """Returns the segments between these points, one after the other."""
    return [(*a, *b) for a, b in zip(points, points[1:])]


def distance(point: Point, segment: Segment) -> float:
    """Returns the distance of a point from a segment."""
    x, y = point
    x0, y0, x1, y1 = segment
    dx, dy = x1 - x0, y1 - y0
    square = dx * dx + dy * dy
    t = ((x - x0) * dx + (y - y0) * dy) / square if square > 1e-18 else 0.0
    t = 0.0 if t < 0.0 else 1.0 if t > 1.0 else t
    return math.hypot(x - x0 - t * dx, y - y0 - t * dy)


def room(points: Iterable[Point], line: Sequence[Point]) -> float:
    """Returns the least distance of some points from a line of segments."""
    pieces = segments(line)
    return min((distance(p, it) for p in points for it in pieces), default=math.inf)


def box_distance(box: Box, point: Point) -> float:
    """Returns the distance of a point from a box, 0 inside."""
    x0, y0, x1, y1 = box
    return math.hypot(
        max(0.0, x0 - point[0], point[0] - x1), max(0.0, y0 - point[1], point[1] - y1)
    )


def overlap(a: Box, b: Box) -> bool:
    """Returns whether two boxes have a point in common."""
    return a[0] < b[2] and b[0] < a[2] and a[1] < b[3] and b[1] < a[3]


def widened(box: Box, by: float) -> Box:
    """Returns the box that is larger by this on each side."""
    return box[0] - by, box[1] - by, box[2] + by, box[3] + by


def touches(box: Box, segment: Segment) -> bool:
    """Returns whether a segment meets a box (Liang and Barsky)."""
    ax, ay, bx, by = segment
    if max(ax, bx) < box[0] or min(ax, bx) > box[2] or max(ay, by) < box[1] or min(ay, by) > box[3]:
        return False
    low, high = 0.0, 1.0
    for start, step, least, most in ((ax, bx - ax, box[0], box[2]), (ay, by - ay, box[1], box[3])):
        if abs(step) < 1e-12:
            continue  # the quick test above has decided this one
        t, u = (least - start) / step, (most - start) / step
        low, high = max(low, min(t, u)), min(high, max(t, u))
    return low <= high


def _turn(ox: float, oy: float, ax: float, ay: float, bx: float, by: float) -> float:
    return (ax - ox) * (by - oy) - (ay - oy) * (bx - ox)


def meetings(one: Sequence[Segment], other: Sequence[Segment]) -> int:
    """Returns how often two lines of segments cross."""
    count = 0
    for ax, ay, bx, by in one:
        for cx, cy, dx, dy in other:
            if max(ax, bx) < min(cx, dx) or max(cx, dx) < min(ax, bx):
                continue
            s, t = _turn(ax, ay, bx, by, cx, cy), _turn(ax, ay, bx, by, dx, dy)
            u, v = _turn(cx, cy, dx, dy, ax, ay), _turn(cx, cy, dx, dy, bx, by)
            count += s * t < -1e-9 and u * v < -1e-9
    return count
