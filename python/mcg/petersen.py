"""Recognises the Petersen graph, which matters in counting bricks."""
from __future__ import annotations

from typing import Dict, Set

from .graphs import Graph, GraphLike


def is_petersen(graph: GraphLike) -> bool:
    """Returns whether the simple graph beneath a graph is the Petersen graph.

    No program is asked. The Petersen graph is the one graph with ten vertices in which each vertex
    has three neighbours, adjacent vertices have no common neighbour, and all others have exactly
    one.

        >>> import mcg
        >>> [mcg.is_petersen(text) for text in ("IheA@GUAo", "C~")]
        [True, False]
    """
    numbered = Graph(graph)
    if numbered.order != 10:
        return False
    near: Dict[int, Set[int]] = {k: set() for k in range(1, 11)}
    for a, b in numbered.ends:
        near[a].add(b)
        near[b].add(a)
    return all(
        len(near[a] & near[b]) == (3 if a == b else 0 if b in near[a] else 1)
        for a in near
        for b in near
    )
