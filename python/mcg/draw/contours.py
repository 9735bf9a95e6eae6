"""Lines where a field on a grid is zero, and smooth paths through points."""
from __future__ import annotations

from typing import Dict, List, Sequence

import numpy as np

from .layout.arrays import Array, Flags, Integers
from .scene import Steps


def contours(xs: Array, ys: Array, value: Array) -> List[Array]:
    """Returns the lines where the field is zero, by marching squares; open ones end at the border.
    `value[j, i]` is the field at (xs[i], ys[j])."""
    number = np.arange(value.size).reshape(value.shape)
    above = value > 0
    ring = above[:-1, :-1].astype(int) + above[:-1, 1:] + above[1:, 1:] + above[1:, :-1]
    j, i = np.nonzero((ring > 0) & (ring < 4))
    # the sides of each square that the line may meet, in their order round it; those from one row
    # to the next have higher numbers
    level, upright = number, value.size + number
    sides = np.stack([level[j, i], upright[j, i + 1], level[j + 1, i], upright[j, i]], 1)
    around = (j, i), (j, i + 1), (j + 1, i + 1), (j + 1, i)
    corners = np.stack([above[at] for at in around], 1)
    met = corners != np.roll(corners, -1, 1)
    middle = sum(value[at] for at in around) > 0
    is_turned = met.all(1) & (corners[:, 0] != middle)
    sides[is_turned] = np.roll(sides[is_turned], -1, 1)
    return _walks(sides[met].reshape(-1, 2), _meetings(xs, ys, value))


def _meetings(xs: Array, ys: Array, value: Array) -> Array:
    """Where the line meets each side of the grid, if it does."""
    found = np.zeros((2, *value.shape, 2))
    found[0, :, :-1, 0] = xs[:-1] + _part(value[:, :-1], value[:, 1:]) * np.diff(xs)
    found[0, :, :, 1] = ys[:, None]
    found[1, :, :, 0] = xs
    found[1, :-1, :, 1] = ys[:-1, None] + _part(value[:-1], value[1:]) * np.diff(ys)[:, None]
    return found.reshape(-1, 2)


def _part(start: Array, end: Array) -> Array:
    """How far from the start the field is zero, as a part of the way to the end."""
    found: Array = start / np.where(start == end, 1.0, start - end)
    return found


def _walks(pairs: Integers, places: Array) -> List[Array]:
    """The lines of which each pair of sides is a piece, from their ends if they have some."""
    links: Dict[int, List[int]] = {}
    for one, other in pairs.tolist():
        links.setdefault(one, []).append(other)
        links.setdefault(other, []).append(one)
    found, seen = [], set()
    for start in sorted(links, key=lambda side: len(links[side])):
        walk: List[int] = []
        at = None if start in seen else start
        while at is not None:
            seen.add(at)
            walk.append(at)
            at = next((side for side in links[at] if side not in seen), None)
        if len(walk) > 6:
            found.append(places[walk])
    return found


def smooth(line: Array, closed: bool = True, apart: float = 4.0, rounds: int = 26) -> Array:
    """Returns points at equal distances along a line, smoothed by Taubin's way: round without
    shrinking."""
    loop = np.vstack([line, line[:1]]) if closed else line
    step = np.diff(loop, axis=0)
    along = np.concatenate([[0.0], np.cumsum(np.hypot(step[:, 0], step[:, 1]))])
    count = max(8, int(along[-1] / apart))
    where = np.linspace(0.0, along[-1], count, endpoint=not closed)
    q: Array = np.stack([np.interp(where, along, loop[:, k]) for k in (0, 1)], 1)
    if closed:  # each round multiplies a wave along the line by the same number
        wave = np.cos(2 * np.pi * np.arange(count // 2 + 1) / count) - 1
        kept = ((1 + 0.5 * wave) * (1 - 0.515 * wave)) ** rounds
        smoothed: Array = np.fft.irfft(np.fft.rfft(q, axis=0) * kept[:, None], count, axis=0)
        return smoothed
    for factor in (0.5, -0.515) * rounds:
        q[1:-1] += factor * ((q[:-2] + q[2:]) / 2 - q[1:-1])
    return q


def as_steps(q: Array, closed: bool = True, every: int = 3) -> Steps:
    """Returns a path of cubics through every third point (Catmull and Rom)."""
    p = q[::every]
    if not closed and len(q) % every != 1:
        p = np.vstack([p, q[-1:]])
    points = [(float(x), float(y)) for x, y in p]
    n = len(points)
    steps: Steps = [("M", *points[0])]
    for k in range(n if closed else n - 1):
        near = [(k + i) % n if closed else min(max(k + i, 0), n - 1) for i in (-1, 0, 1, 2)]
        (ax, ay), (bx, by), (cx, cy), (ex, ey) = (points[i] for i in near)
        first = (bx + (cx - ax) / 6, by + (cy - ay) / 6)
        second = (cx - (ex - bx) / 6, cy - (ey - by) / 6)
        steps.append(("C", *first, *second, cx, cy))
    return steps + [("Z",)] if closed else steps


def inside(points: Array, loop: Array) -> Flags:
    """Returns which points are inside a closed line."""
    x, y = points[:, 0, None], points[:, 1, None]
    a, b = loop, np.concatenate([loop[1:], loop[:1]])
    crosses = (a[:, 1] > y) != (b[:, 1] > y)
    rise = np.where(a[:, 1] != b[:, 1], b[:, 1] - a[:, 1], 1.0)
    at = a[:, 0] + (y - a[:, 1]) * ((b[:, 0] - a[:, 0]) / rise)
    found: Flags = (crosses & (x < at)).sum(1) % 2 == 1
    return found


def within(point: Sequence[float], loop: Array) -> bool:
    """Returns whether a point is inside a closed line."""
    return bool(inside(np.array([point], dtype=float), loop)[0])
