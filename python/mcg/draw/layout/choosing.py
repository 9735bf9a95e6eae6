"""The layout: several drawings of a graph, each made good, and the one of least cost."""
from __future__ import annotations

import itertools
import math
from functools import lru_cache
from typing import FrozenSet, Iterable, List, Optional, Sequence, Tuple

import numpy as np

from ..plain import PlainGraph
from .arrays import TINY, Array, Pairs, centred, ends_of, turned_by
from .measures import (
    cost,
    crossings,
    evened,
    hull,
    lengths,
    resolution,
    scaled,
    symmetries,
    vertex_edge,
)
from .plane import plane_drawings
from .relaxing import distances, majorize
from .starts import circles, round_table, rows, tangled
from .symmetry import refined, turns_and_mirrors

Shores = Sequence[Iterable[int]]
_NO_ROOM = 0.03  # where vertices are as near as that, all go on one circle
_CHORDS = 3  # the most edges that may be too many for a symmetric drawing of the rest


def place(graph: PlainGraph, shores: Shores = ()) -> Array:
    """Returns places for the vertices in units of a mean edge, y upward, the same in every run.

    `shores` are those of a decomposition, if one is known: their vertices are kept together. The
    least costly of several drawings is chosen; what makes up the cost is in `measures`. The simple
    graphs placed last are remembered.
    """
    known = _placed(graph.order, tuple(graph.pairs), tuple(frozenset(it) for it in shores))
    return known.copy()


@lru_cache(maxsize=64)
def _placed(
    order: int, pairs: Tuple[Tuple[int, int], ...], shores: Tuple[FrozenSet[int], ...]
) -> Array:
    graph = PlainGraph([""] * order, pairs)
    parts = graph.components()
    if len(parts) > 1:
        return _side_by_side(graph, parts)
    if graph.order <= 2 or not graph.pairs:
        return np.array([[1.2 * k, 0.0] for k in range(graph.order)]).reshape(-1, 2)
    if len(graph.pairs) == graph.order - 1 and all(len(near) <= 2 for near in graph.near):
        return _path(graph)
    plane = plane_drawings(graph, shores)
    side = None if plane else graph.sides()
    if side and graph.order <= 12:
        if len(graph.pairs) >= 0.7 * side.count(0) * side.count(1):
            return centred(rows(graph, side))
    if plane and len(graph.pairs) == graph.order - 1:
        d = distances(graph)
        plane.append(majorize(circles(graph, d)[None], d)[0])
    elif not plane:
        near = _near_a_symmetric_one(graph)
        if near is not None:
            return near
    options = [scaled(p, graph.pairs) for p in plane or tangled(graph, shores)]
    best = evened(_best(graph, options, shores, bool(plane)), graph.pairs)
    if not plane and resolution(best, graph.pairs) < _NO_ROOM:
        best = scaled(round_table(graph), graph.pairs)
    return centred(upright(best, graph.pairs))


def _best(graph: PlainGraph, options: List[Array], shores: Shores, is_planar: bool) -> Array:
    """The drawing of least cost; of drawings that are as good, the one with low numbers outside."""

    def rank(p: Array) -> float:
        out = np.hypot(*(p - p.mean(0)).T) / (1 + np.arange(len(p)))
        crossed = 40 if is_planar and crossings(p, graph.pairs) else 0
        found = cost(p, graph.pairs, shores) - 0.02 * float(out.sum()) / math.sqrt(len(p))
        return round(found + crossed, 9)

    return min(options, key=rank)


def _path(graph: PlainGraph) -> Array:
    """A path as a straight line, from its end of lower number."""
    at = min(v for v in range(graph.order) if len(graph.near[v]) == 1)
    walk = [at]
    while len(walk) < graph.order:
        walk += [w for w in graph.near[walk[-1]] if w not in walk[-2:]]
    p = np.zeros((graph.order, 2))
    p[walk, 0] = np.arange(graph.order)
    return centred(p)


def _side_by_side(graph: PlainGraph, parts: List[List[int]]) -> Array:
    """The components side by side, the largest first; single vertices in a row below."""
    p, x = np.zeros((graph.order, 2)), 0.0
    large = sorted((c for c in parts if len(c) > 1), key=lambda c: (-len(c), c))
    for part in large:
        q = place(graph.induced(part))
        p[part] = q + np.array([x - q[:, 0].min(), 0.0])
        x += float(np.ptp(q[:, 0])) + 1.0
    low = min((float(p[v, 1]) for c in large for v in c), default=0.8)
    alone = [c[0] for c in parts if len(c) == 1]
    for k, v in enumerate(alone):
        p[v] = 0.8 * k, low - 1.0
    return centred(p) if graph.order else p


# ------------------------------------------------------------------ graphs near a symmetric one


def _near_a_symmetric_one(graph: PlainGraph) -> Optional[Array]:
    """The drawing of a symmetric graph to which at most three edges were added, if there is just
    that: a famous graph with chords is to look like itself."""
    least = min(len(near) for near in graph.near)
    excess = [len(near) - least for near in graph.near]
    if not 0 < sum(excess) <= 2 * _CHORDS or graph.order > 24:
        return None
    many = [pair for pair in graph.pairs if excess[pair[0]] and excess[pair[1]]]
    found: List[Tuple[int, int, Array]] = []
    for chords in itertools.combinations(many, sum(excess) // 2):
        left = list(excess)
        for end in itertools.chain(*chords):
            left[end] -= 1
        if any(left):
            continue
        rest = PlainGraph(graph.names, [it for it in graph.pairs if it not in chords])
        if (
            len(rest.components()) == 1
            and len(set(refined(rest))) == 1
            and turns_and_mirrors(rest)[0]
        ):
            p = place(rest)
            turns, mirrors = symmetries(p, rest.pairs)
            if turns >= 3 and _keeps_off(p, graph.pairs):
                found.append((-turns - len(mirrors), crossings(p, graph.pairs), p))
    return min(found, key=lambda it: it[:2])[2] if found else None


def _keeps_off(p: Array, pairs: Pairs) -> bool:
    """Whether all edges keep off all foreign vertices."""
    return bool(vertex_edge(p, ends_of(pairs)).min() > 0.04 * float(lengths(p, pairs).mean()))


# ------------------------------------------------------------------ turning


def upright(p: Array, pairs: Pairs) -> Array:
    """Returns the drawing turned: a mirror axis upright if there is one, else an outer edge level;
    then wide rather than high, flat at the bottom, low numbers at the top left."""
    q = p - p.mean(0)
    turned: List[Array] = [
        (q @ turned_by(turn + extra)) * np.array([flip, 1])
        for turn in _turns(q, pairs)
        for extra in (0.0, math.pi)
        for flip in (1, -1)
    ]
    return min(turned, key=lambda r: _stance(r, pairs))


def _turns(q: Array, pairs: Pairs) -> List[float]:
    """The turns that make a mirror axis upright or an outer edge level; if the drawing is long,
    those that lay it down."""
    axes = symmetries(q, pairs)[1]
    turns = [math.pi / 2 - a for a in axes]
    turns += [t + math.pi / 2 for t in turns]
    corners = hull(q)
    around = np.roll(corners, -1, 0) - corners
    level = [-math.atan2(y, x) for x, y in around] if len(corners) > 2 else []
    values, vectors = np.linalg.eigh(np.cov(q.T))
    if values[1] <= 1.35 * max(float(values[0]), TINY):
        return turns or level or [0.0]
    major = -math.atan2(vectors[1, 1], vectors[0, 1])

    def lean(t: float) -> float:
        return abs((t - major + math.pi / 2) % math.pi - math.pi / 2)

    return [t for t in turns if lean(t) < 0.05] or [t for t in level if lean(t) < 0.6] or [major]


def _stance(r: Array, pairs: Pairs) -> Tuple[bool, int, bool, float]:
    """How a turned drawing stands: the less the better."""
    e = ends_of(pairs)
    d = r[e[:, 0]] - r[e[:, 1]]
    slope = np.abs(np.arctan2(d[:, 1], d[:, 0])) % (math.pi / 2)
    straight = int((np.minimum(slope, math.pi / 2 - slope) < 0.02).sum())
    wide, high = float(np.ptp(r[:, 0])), float(np.ptp(r[:, 1]))
    foot = int((r[:, 1] < r[:, 1].min() + 0.05 * max(high, TINY)).sum())
    head = int((r[:, 1] > r[:, 1].max() - 0.05 * max(high, TINY)).sum())
    weight = (1.0 + np.arange(len(r))) ** -1.5
    number = float(((0.6 * r[:, 0] - r[:, 1]) * weight).sum())
    return bool(wide < 0.98 * high), -straight, head > foot, round(number, 6)
