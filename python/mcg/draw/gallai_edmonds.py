"""The picture of the structure theorem of Gallai and Edmonds: A in a row, the components of D below
it, C to the left."""
from __future__ import annotations

import math
from typing import AbstractSet, List, Tuple

import numpy as np

from .layout import place
from .layout.arrays import Array, centred, turned_by
from .plain import PlainGraph


def places(
    graph: PlainGraph, D: AbstractSet[int], A: AbstractSet[int], C: AbstractSet[int]
) -> Tuple[Array, List[List[int]]]:
    """Returns the places, and the components of D. Both rows are ordered by repeated means, so that
    few edges cross."""
    below, row = _ordered(graph, D, A, C)
    p, x = np.zeros((graph.order, 2)), 0.0
    for part in below:
        q = _component(graph, part, A)
        p[part] = q + np.array([x, 0.0])
        x += float(np.ptp(q[:, 0])) + 1.0
    x -= 1.0
    apart = max(1.0, 0.6 * x / max(1, len(row)))
    for k, a in enumerate(row):
        p[a] = x / 2 + (k - (len(row) - 1) / 2) * apart, 1.5
    left = -1.1
    for part in graph.components(gone=A | D):
        q = _component(graph, part, A)
        wide = float(np.ptp(q[:, 0]))
        p[part] = q + np.array([left - wide, 0.35])
        left -= wide + 0.9
    return centred(p), below


def _ordered(
    graph: PlainGraph, D: AbstractSet[int], A: AbstractSet[int], C: AbstractSet[int]
) -> Tuple[List[List[int]], List[int]]:
    """The components of D and the vertices of A, each in the order of the others' means."""
    below = sorted(graph.components(gone=A | C), key=lambda part: (-len(part), part))
    row = sorted(A)

    def mean(values: List[float]) -> float:
        return round(sum(values) / len(values), 9) if values else 0.0

    for _ in range(8):
        at = {a: k - (len(row) - 1) / 2 for k, a in enumerate(row)}
        below.sort(key=lambda part: (mean([at[w] for v in part for w in graph.near[v] & A]), part))
        spot = {v: k - (len(below) - 1) / 2 for k, part in enumerate(below) for v in part}
        row.sort(key=lambda a: (mean([spot[w] for w in graph.near[a] & D]), a))
    return below, row


def _component(graph: PlainGraph, part: List[int], A: AbstractSet[int]) -> Array:
    """A component by itself, its top left at (0, 0), its vertices with neighbours in A turned up."""
    q: Array = place(graph.induced(part)) * 0.85
    tied = [k for k, v in enumerate(part) if graph.near[v] & A]
    if tied and len(part) > 1:
        turns = [q @ turned_by(math.pi * k / 6) for k in range(12)]
        q = max(turns, key=lambda r: round(float(r[tied, 1].sum()), 6))
    moved: Array = q - np.array([q[:, 0].min(), q[:, 1].max()])
    return moved
