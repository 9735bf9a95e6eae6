"""What makes a drawing good or bad: crossings, room, angles, symmetries, and the cost of all."""
from __future__ import annotations

import math
from typing import Dict, Iterable, List, Optional, Sequence, Tuple

import numpy as np

from .arrays import TINY, Array, Flags, Integers, Pairs, cross, ends_of

_TOLERANCE = 0.06  # by which an image may miss its vertex, of the size of the drawing


def apart(p: Array) -> Array:
    """Returns the distances of the vertices, infinite from a vertex to itself."""
    d: Array = np.hypot(p[:, None, 0] - p[None, :, 0], p[:, None, 1] - p[None, :, 1])
    np.fill_diagonal(d, np.inf)
    return d


def lengths(p: Array, pairs: Pairs) -> Array:
    """Returns the lengths of the edges."""
    e = ends_of(pairs)
    d = p[e[:, 0]] - p[e[:, 1]]
    found: Array = np.hypot(d[:, 0], d[:, 1])
    return found


def scaled(p: Array, pairs: Pairs) -> Array:
    """Returns the drawing with a mean edge of 1."""
    found: Array = p / max(float(lengths(p, pairs).mean()), TINY)
    return found


def crossing_matrix(p: Array, pairs: Pairs) -> Flags:
    """Returns which two edges without a common end cross."""
    e = ends_of(pairs)
    x, y = np.ascontiguousarray(p[:, 0]), np.ascontiguousarray(p[:, 1])
    ax, ay = x[e[:, 0], None], y[e[:, 0], None]
    # on which side of each edge each vertex is; its own ends are on none, exactly
    side = (x[e[:, 1], None] - ax) * (y - ay) - (y[e[:, 1], None] - ay) * (x - ax)
    parted = side[:, e[:, 0]] * side[:, e[:, 1]] < -1e-12
    found: Flags = parted & parted.T
    return found


def crossings(p: Array, pairs: Pairs) -> int:
    """Returns how many pairs of edges without a common end cross."""
    return int(crossing_matrix(p, pairs).sum()) // 2 if len(pairs) > 1 else 0


def vertex_edge(p: Array, e: Integers) -> Array:
    """Returns the distance of each vertex from each edge, infinite for its own edges."""
    a = p[e[:, 0]]
    d = p[e[:, 1]] - a
    x = p[:, 0, None] - a[None, :, 0]
    y = p[:, 1, None] - a[None, :, 1]
    square = np.maximum(d[:, 0] ** 2 + d[:, 1] ** 2, TINY)
    t: Array = np.clip((x * d[:, 0] + y * d[:, 1]) / square, 0.0, 1.0)
    x, y = x - t * d[:, 0], y - t * d[:, 1]
    far: Array = np.hypot(x, y)
    k = np.arange(len(e))
    far[e[:, 0], k] = np.inf
    far[e[:, 1], k] = np.inf
    return far


def least_angle(p: Array, pairs: Pairs) -> float:
    """Returns the least angle between two edges at one vertex, in degrees."""
    e = ends_of(pairs)
    d = p[e[:, 1]] - p[e[:, 0]]
    turn = np.degrees(np.arctan2(d[:, 1], d[:, 0]))
    vertex = np.concatenate([e[:, 0], e[:, 1]])
    angle = np.concatenate([turn, turn + 180.0]) % 360.0
    order = np.lexsort((angle, vertex))
    vertex, angle = vertex[order], angle[order]
    same = vertex[1:] == vertex[:-1]
    gaps = (angle[1:] - angle[:-1])[same]
    first = np.flatnonzero(np.r_[True, ~same])
    last = np.r_[first[1:] - 1, len(vertex) - 1]
    several = last > first
    around = (angle[first] + 360.0 - angle[last])[several]
    return float(min(gaps.min(initial=360.0), around.min(initial=360.0)))


def symmetries(p: Array, pairs: Pairs) -> Tuple[int, List[float]]:
    """Returns the order of the rotations and the mirror axes (angles) that map the drawing to
    itself."""
    order, _, axes = symmetric_images(p, pairs)
    return order, [angle for angle, _ in axes]


Images = Tuple[int, Integers, List[Tuple[float, Integers]]]


def symmetric_images(p: Array, pairs: Pairs) -> Images:
    """Returns the order of the rotations of a drawing and the images of the vertices under the
    first of them, and the angle of each mirror axis with the images."""
    q = p - p.mean(0)
    size = float(np.abs(q).max()) or 1.0
    edges = _adjacency(len(p), pairs)
    far = int(np.hypot(q[:, 0], q[:, 1]).argmax())
    order, images = 1, np.arange(len(p))
    for k in range(min(len(p), 20), 1, -1):
        found = _image(q, turn_of(2 * math.pi / k), size, edges, far)
        if found is not None:
            order, images = k, found
            break
    axes = []
    radius = np.hypot(q[:, 0], q[:, 1])
    for v in np.flatnonzero(np.abs(radius - radius[far]) <= _TOLERANCE * size).tolist():
        angle = (math.atan2(q[far, 1], q[far, 0]) + math.atan2(q[v, 1], q[v, 0])) / 2
        found = _image(q, mirror_of(angle), size, edges, v)
        if found is not None:
            axes.append((angle % math.pi, found))
    return order, images, axes


def turn_of(angle: float) -> Array:
    """Returns the matrix of a rotation."""
    c, s = math.cos(angle), math.sin(angle)
    return np.array([[c, -s], [s, c]])


def mirror_of(angle: float) -> Array:
    """Returns the matrix of the mirror with an axis at this angle."""
    c, s = math.cos(2 * angle), math.sin(2 * angle)
    return np.array([[c, s], [s, -c]])


def _adjacency(n: int, pairs: Pairs) -> Tuple[Integers, Flags]:
    e, near = ends_of(pairs), np.zeros((n, n), bool)
    near[e[:, 0], e[:, 1]] = near[e[:, 1], e[:, 0]] = True
    return e, near


def _image(
    q: Array, turn: Array, size: float, edges: Tuple[Integers, Flags], probe: int
) -> Optional[Integers]:
    """The images of the vertices if a turn or a mirror maps a drawing to itself; `probe` is tried
    first."""
    image = q @ turn.T
    for v in (probe, 0, len(q) // 2):
        if np.hypot(q[:, 0] - image[v, 0], q[:, 1] - image[v, 1]).min() > _TOLERANCE * size:
            return None
    d = np.hypot(image[:, None, 0] - q[None, :, 0], image[:, None, 1] - q[None, :, 1])
    to: Integers = d.argmin(1)
    if d[np.arange(len(q)), to].max() > _TOLERANCE * size or len(np.unique(to)) < len(q):
        return None
    e, near = edges
    return to if near[to[e[:, 0]], to[e[:, 1]]].all() else None


def evened(p: Array, pairs: Pairs) -> Array:
    """Returns a drawing that is symmetric up to small errors without these: each vertex is moved to
    the mean of where the rotations and a mirror bring its images."""
    order, images, axes = symmetric_images(p, pairs)
    q: Array = p - p.mean(0)
    if order > 1:
        total, at = q.copy(), images
        for k in range(1, order):
            total = total + q[at] @ turn_of(-2 * math.pi * k / order).T
            at = images[at]
        q = total / order
    if axes:
        angle, images = min(axes, key=lambda it: round(it[0], 6))
        q = (q + q[images] @ mirror_of(angle).T) / 2
    is_worse = crossings(q, pairs) > crossings(p, pairs)
    return p if is_worse or resolution(q, pairs) < 0.9 * resolution(p, pairs) else q


def resolution(p: Array, pairs: Pairs) -> float:
    """Returns the least room of a vertex (from vertices, and from edges a little less), against
    what as many places in a disc would have."""
    middle = p - p.mean(0)
    far = float(np.hypot(middle[:, 0], middle[:, 1]).max())
    room = float(apart(p).min())
    if len(pairs) > 1:
        room = min(room, 1.6 * float(vertex_edge(p, ends_of(pairs)).min()))
    return room * math.sqrt(len(p)) / max(2 * far, TINY)


def knots(p: Array, pairs: Pairs, matrix: Flags) -> int:
    """Returns how many pairs of crossings fall nearly together: three edges through one point are
    hard to follow."""
    hit = np.argwhere(np.triu(matrix))
    if not 2 <= len(hit) <= 80:
        return 0
    e = ends_of(pairs)
    a, b = p[e[hit[:, 0], 0]], p[e[hit[:, 0], 1]]
    c, d = p[e[hit[:, 1], 0]], p[e[hit[:, 1], 1]]
    one, other = cross(c, d, a), cross(c, d, b)
    fall = one - other
    t = one / np.where(np.abs(fall) < TINY, 1.0, fall)
    point = a + t[:, None] * (b - a)
    near = apart(point) < 0.09 * float(lengths(p, pairs).mean())
    return int(near.sum()) // 2


def hull(points: Array) -> Array:
    """Returns the corners of the convex hull, counterclockwise."""
    ordered: List[Tuple[float, ...]] = sorted((float(x), float(y)) for x, y in points)
    if len(ordered) < 3:
        return np.array(ordered)
    found: List[Tuple[float, ...]] = []
    for part in (ordered, ordered[::-1]):
        half: List[Tuple[float, ...]] = []
        for q in part:
            while len(half) > 1 and _is_right(half[-2], half[-1], q):
                half.pop()
            half.append(q)
        found += half[:-1]
    return np.array(found)


def _is_right(a: Sequence[float], b: Sequence[float], c: Sequence[float]) -> bool:
    return (b[0] - a[0]) * (c[1] - a[1]) <= (b[1] - a[1]) * (c[0] - a[0])


def strangers(p: Array, shores: Sequence[Iterable[int]]) -> int:
    """Returns for all shores together how many foreign vertices the convex hull of each holds, or
    that of its complement if it holds fewer."""
    total = 0
    everything = set(range(len(p)))
    for shore in shores:
        inside = set(shore)
        total += min(_held(p, it, everything - it) for it in (inside, everything - inside))
    return total


def _held(p: Array, inside: Iterable[int], outside: Iterable[int]) -> int:
    corners, others = hull(p[sorted(inside)]), p[sorted(outside)]
    if len(corners) < 3 or not len(others):
        return 0
    turn = cross(corners[None], np.roll(corners, -1, 0)[None], others[:, None])
    return int((turn > -TINY).all(1).sum())


def quick_cost(p: Array, pairs: Pairs) -> float:
    """Returns a rough cost, fast, to choose the drawings that are worth a closer look."""
    size = lengths(p, pairs)
    near = float(apart(p).min()) / max(float(size.mean()), TINY)
    return (
        crossings(p, pairs) * 12 / max(12, len(pairs))
        + 2.5 * float(size.std() / max(float(size.mean()), TINY))
        + 8.0 * max(0.0, 0.4 - near)
    )


def cost(p: Array, pairs: Pairs, shores: Sequence[Iterable[int]] = ()) -> float:
    """Returns what makes a drawing bad, in units of one crossing or so."""
    size = lengths(p, pairs)
    matrix = crossing_matrix(p, pairs)
    order, axes = symmetries(p, pairs)
    room = resolution(p, pairs)
    wide, high = float(np.ptp(p[:, 0])), float(np.ptp(p[:, 1]))
    aspect = max(wide, high) / max(min(wide, high), 0.15 * max(wide, high), TINY)
    parts: Dict[str, float] = {
        "crossings": int(matrix.sum()) // 2 * (12 / max(12, len(pairs))),
        "knots": 0.4 * min(knots(p, pairs, matrix), 10),
        "room": 9.0 * max(0.0, 0.62 - room) / 0.62,
        "no room": 14.0 * max(0.0, 0.34 - room) / 0.34,
        "strangers": 1.2 * strangers(p, shores),
        "angle": 4.0 * max(0.0, 26.0 - least_angle(p, pairs)) / 26.0,
        "spread": 2.5 * float(size.std()) / max(float(size.mean()), TINY),
        "aspect": 1.2 * max(0.0, aspect - 1.8),
        "symmetry": -2.4 * math.log2(1 + (order - 1) / 2 + len(axes) / 2),
    }
    return sum(parts.values())
