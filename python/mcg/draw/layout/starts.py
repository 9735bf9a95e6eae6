"""Drawings of graphs that are not planar: from symmetric starts, random ones, circles and rows."""
from __future__ import annotations

import math
from typing import Dict, Iterable, List, Sequence

import numpy as np

from ..plain import PlainGraph
from .arrays import Array, Integers, Pairs
from .measures import cost, crossings, lengths, quick_cost, scaled
from .relaxing import distances, majorize, relax_all
from .symmetry import coprime, mirrored, one_circle, rings, snapped, turns_and_mirrors

_SEEDS, _FEW_SEEDS = 4, 2  # random radii tried for each rotation and each mirror
_CLOSER, _FEW_CLOSER = 32, 10  # symmetric drawings that get a closer look
_MANY = 40  # vertices; of larger graphs fewer drawings are tried


def tangled(graph: PlainGraph, shores: Sequence[Iterable[int]]) -> List[Array]:
    """Returns drawings of a graph that is not planar, the better ones also relaxed."""
    n, pairs = graph.order, graph.pairs
    d = distances(graph)
    others: List[Array] = []
    for far in [d, _kept_together(d, shores)] if shores else [d]:
        others += majorized(_random(n), far, 120)
        others += majorized([circles(graph, d)], far, 30)
    if len(pairs) > 3 * n:
        others.append(round_table(graph))
    closer = _CLOSER if n <= _MANY else _FEW_CLOSER
    listed = _promising(symmetric(graph, d), pairs, closer) + _promising(others, pairs, 10)
    listed.sort(key=lambda p: round(cost(p, pairs, shores), 6))
    listed = listed[: 5 if n <= _MANY else 3]
    steps = 120 if n <= _MANY else 60
    return listed + relax_all(listed, pairs, steps, [1.1] * len(listed))


def _promising(drawings: List[Array], pairs: Pairs, count: int) -> List[Array]:
    """The drawings that look best at a glance."""
    listed = [scaled(p, pairs) for p in drawings if np.isfinite(p).all()]
    listed.sort(key=lambda p: round(quick_cost(p, pairs), 6))
    return listed[:count]


def _kept_together(d: Array, shores: Sequence[Iterable[int]]) -> Array:
    """The distances, more for two vertices the more shores part them."""
    found = d.copy()
    for shore in shores:
        inside = np.isin(np.arange(len(d)), list(shore))
        found += 0.7 * (inside[:, None] != inside[None, :])
    return found


def majorized(starts: Sequence[Array], d: Array, steps: int = 200) -> List[Array]:
    """Returns the starts, each made better."""
    return list(majorize(np.array(starts), d, steps)) if starts else []


def _random(n: int) -> List[Array]:
    count = 16 if n <= _MANY else 8
    return [np.random.RandomState(k).uniform(-1, 1, (n, 2)) * math.sqrt(n) for k in range(count)]


def symmetric(graph: PlainGraph, d: Array) -> List[Array]:
    """Returns drawings with a rotation or a mirror, as far as the graph has such symmetries."""
    n, pairs = graph.order, graph.pairs
    turns, mirrors = turns_and_mirrors(graph)
    seeds, most = (_SEEDS, 8) if n <= _MANY else (_FEW_SEEDS, 4)
    found: List[Array] = []
    for k in sorted(turns, reverse=True)[:5]:
        listed = turns[k]
        starts = []
        for walks in listed[:: max(1, len(listed) // 3)][:3]:
            if n % k == 0 and n // k <= 4 and n <= _MANY:
                for step in coprime(k)[:4]:
                    turned = [[w[i * step % k] for i in range(len(w))] for w in walks]
                    found.append(one_circle(n, pairs, turned, k))
            for step in coprime(k)[:3]:
                starts += [rings(n, walks, k, step, seed) for seed in range(seeds)]
        for p in _promising(_distinct(majorized(starts, d, 120), pairs), pairs, most):
            found += [p, *snapped(p, k)]
    some = mirrors[:2] + mirrors[-2:] if len(mirrors) > 4 else mirrors
    starts = [mirrored(n, walks, seed) for walks in some for seed in range(seeds)]
    return found + _distinct(majorized(starts, d, 120), pairs)


def _distinct(drawings: List[Array], pairs: Pairs) -> List[Array]:
    """One of each drawing that comes twice, up to where its vertices are."""
    kinds: Dict[object, Array] = {}
    for p in drawings:
        size = np.sort(lengths(p, pairs))
        kinds.setdefault(
            (crossings(p, pairs), tuple(np.round(size[:: max(1, len(size) // 8)], 1))), p
        )
    return list(kinds.values())


def circles(graph: PlainGraph, d: Array) -> Array:
    """Returns the breadth-first layers from the centre as circles, each vertex near the mean angle
    of its neighbours before it."""
    root = int(d.max(1).argmin())
    p = np.zeros((graph.order, 2))
    angle = {root: 0.0}

    def mean(v: int) -> float:
        z = sum(
            complex(math.cos(angle[w]), math.sin(angle[w])) for w in graph.near[v] if w in angle
        )
        return round(math.atan2(z.imag, z.real), 9) if abs(z) > 1e-6 else 0.0

    for k in range(1, int(d[root].max()) + 1):
        layer = [int(v) for v in np.flatnonzero(d[root] == k)]
        layer.sort(key=lambda v: (mean(v), v))
        for i, v in enumerate(layer):
            angle[v] = 2 * math.pi * i / len(layer)
            p[v] = k * math.cos(angle[v]), k * math.sin(angle[v])
    return p


def round_table(graph: PlainGraph) -> Array:
    """Returns all vertices on one circle, so that no edge meets a foreign vertex, in an order in
    which neighbours sit near one another: the way to draw a dense graph."""
    n = graph.order
    seats = [max(range(n), key=lambda v: (len(graph.near[v]), -v))]
    while len(seats) < n:
        left = [v for v in range(n) if v not in seats]
        last = {v: k for k, v in enumerate(seats, 1)}
        seats.append(max(left, key=lambda v: (sum(last.get(w, 0) for w in graph.near[v]), -v)))
    near = np.zeros((n, n))
    for a, b in graph.pairs:
        near[a, b] = near[b, a] = 1.0
    place = np.array(seats)
    for _ in range(4):
        place = _exchanged(place, near)
    p = np.zeros((n, 2))
    turn = 2 * math.pi * np.arange(n) / n
    p[place] = np.stack([np.sin(turn), np.cos(turn)], 1)
    return p


def _exchanged(seats: Integers, near: Array) -> Integers:
    """The seats with each two neighbours exchanged if that makes the chords shorter."""
    n = len(seats)
    seat = np.zeros(n, dtype=np.int64)
    seat[seats] = np.arange(n)
    for k in range(n):
        a, b = seats[k], seats[(k + 1) % n]
        before = _chords(seat, near, a) + _chords(seat, near, b)
        seat[a], seat[b] = seat[b], seat[a]
        if _chords(seat, near, a) + _chords(seat, near, b) < before - 1e-9:
            seats[k], seats[(k + 1) % n] = b, a
        else:
            seat[a], seat[b] = seat[b], seat[a]
    return seats


def _chords(seat: Integers, near: Array, v: int) -> float:
    return float((near[v] * np.abs(np.sin(math.pi * (seat - seat[v]) / len(seat)))).sum())


def rows(graph: PlainGraph, side: Sequence[int]) -> Array:
    """Returns the two sides of a bipartite graph as two rows, ordered by repeated means of the
    neighbours' places; of eight starts the one with the fewest crossings."""
    tried = [_two_rows(graph, side, start) for start in range(8)]
    return min(tried, key=lambda p: crossings(p, graph.pairs))


def _two_rows(graph: PlainGraph, side: Sequence[int], seed: int) -> Array:
    orders = [[v for v in range(graph.order) if side[v] == k] for k in (0, 1)]
    if seed:
        np.random.RandomState(seed).shuffle(orders[0])
    for _ in range(12):
        for k in (1, 0):
            x = {v: i - len(orders[1 - k]) / 2 for i, v in enumerate(orders[1 - k])}
            mean = {
                v: sum(x[w] for w in graph.near[v]) / max(1, len(graph.near[v])) for v in orders[k]
            }
            orders[k].sort(key=lambda v: (round(mean[v], 9), v))
    p, widest = np.zeros((graph.order, 2)), max(map(len, orders))
    for k, row in enumerate(orders):
        for i, v in enumerate(row):
            p[v] = (i - (len(row) - 1) / 2) * widest / len(row), -k * max(1.6, 0.42 * widest)
    return p
