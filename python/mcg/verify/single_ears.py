"""Whether an ear decomposition could go on with a single ear where one has two."""
from __future__ import annotations

from typing import Dict, List, Set

from .matchings import Search, maximum
from .places import Simple
from .structure import Given


def single_ear_exists(given: Given, edges: Set[int], vertices: Set[int]) -> bool:
    """Returns whether some ear decomposition of the graph goes on with a single ear after the stage
    with these edges and vertices, by their places from 0.

    A single ear with the ends u and v is one if the stage without u and v has a perfect matching,
    and so has what the ear leaves of the graph outside the stage. So it is asked of each u where an
    alternating path through the vertices outside leads. Any stage that is matching covered can be
    continued if the graph outside it has a perfect matching (Lovász and Plummer, section 5.4).
    """
    place = {v: k for k, v in enumerate(sorted(vertices))}
    table = Simple(len(place), [(place[a], place[b]) for a, b in (given.pairs[k] for k in edges)]).table
    outside = [v for v in range(given.graph.order) if v not in vertices]
    name = {v: k for k, v in enumerate(outside)}
    new = [given.pairs[k] for k in range(given.graph.size) if k not in edges]
    near: Dict[int, Set[int]] = {v: set() for v in range(given.graph.order)}
    for a, b in new:
        near[a].add(b)
        near[b].add(a)
    rows = [[name[w] for w in sorted(near[v]) if w in name] for v in outside]
    mate = maximum(rows)
    for u in vertices:
        ends = set(near[u] & vertices)
        for w in _reached(rows, mate, [name[w] for w in near[u] if w in name]):
            ends |= near[outside[w]] & vertices
        if any(v != u and table[place[u]][place[v]] for v in ends):
            return True
    return False


def _reached(rows: List[List[int]], mate: List[int], first: List[int]) -> List[int]:
    """The vertices outside that are reached over an alternating path of even length from one more
    vertex, which is joined to those in `first`."""
    root = len(rows)
    joined = [[*row, *([root] if v in first else [])] for v, row in enumerate(rows)] + [first]
    outer = Search(joined, [*mate, -1], root, [False] * (root + 1)).outer
    return [v for v in range(root) if outer[v]]
