"""Graphs as pictures need them: vertices 0, 1, .. with names, and edges as pairs of these."""
from __future__ import annotations

from typing import Dict, FrozenSet, Hashable, Iterable, List, Optional, Sequence, Set, Tuple

from ..graphs import Graph

Pair = Tuple[int, int]


def name_of(label: Hashable) -> str:
    """Returns the name of a vertex in a picture: its text on one line, a set in braces."""
    if isinstance(label, (frozenset, set)):
        return "{" + ", ".join(sorted(map(name_of, label))) + "}"
    if isinstance(label, tuple):
        return "(" + ", ".join(map(name_of, label)) + ")"
    return " ".join("".join(c if c.isprintable() else " " for c in str(label)).split(" "))


class PlainGraph:
    """A multigraph without loops: `names`, and `edges` as pairs of numbers from 0; parallel edges
    are repeated pairs. `near` has the neighbours of each vertex, `pairs` the edges of the simple
    graph beneath as rising pairs, in order."""

    def __init__(self, names: Iterable[str], edges: Iterable[Pair]) -> None:
        self.names = list(names)
        self.edges = [(a, b) for a, b in edges]
        self.near: List[Set[int]] = [set() for _ in self.names]
        for a, b in self.edges:
            self.near[a].add(b)
            self.near[b].add(a)
        self.pairs: List[Pair] = sorted({(min(e), max(e)) for e in self.edges})

    @classmethod
    def of(cls, graph: Graph) -> PlainGraph:
        """Returns the graph with the names of its labels."""
        names = [name_of(label) for label in graph.vertices]
        return cls(names, [(a - 1, b - 1) for a, b in graph.ends])

    @property
    def order(self) -> int:
        """The number of vertices."""
        return len(self.names)

    def parallel(self) -> Dict[Pair, List[int]]:
        """Returns for each pair of adjacent vertices the numbers of its edges."""
        found: Dict[Pair, List[int]] = {}
        for k, (a, b) in enumerate(self.edges):
            found.setdefault((min(a, b), max(a, b)), []).append(k)
        return found

    def sides(self) -> Optional[List[int]]:
        """Returns the side of each vertex, 0 or 1, if the graph is bipartite, and else None."""
        side: List[Optional[int]] = [None] * self.order
        for root in range(self.order):
            if side[root] is None:
                side[root] = 0
                waiting = [root]
                while waiting:
                    v = waiting.pop()
                    for w in self.near[v]:
                        if side[w] is None:
                            side[w] = 1 - (side[v] or 0)
                            waiting.append(w)
                        elif side[w] == side[v]:
                            return None
        return [it or 0 for it in side]

    def components(self, gone: Iterable[int] = ()) -> List[List[int]]:
        """Returns the vertices of each component of what is left without some vertices."""
        seen, found = set(gone), []
        for root in range(self.order):
            if root not in seen:
                part, waiting = {root}, [root]
                while waiting:
                    fresh = self.near[waiting.pop()] - part - seen
                    part |= fresh
                    waiting += fresh
                seen |= part
                found.append(sorted(part))
        return found

    def induced(self, vertices: Sequence[int]) -> PlainGraph:
        """Returns the subgraph on these vertices, numbered as they are listed."""
        at = {v: k for k, v in enumerate(vertices)}
        edges = [(at[a], at[b]) for a, b in self.edges if a in at and b in at]
        return PlainGraph([self.names[v] for v in vertices], edges)

    def contracted(self, blocks: Sequence[FrozenSet[int]]) -> PlainGraph:
        """Returns the graph whose vertices are these blocks, without loops."""
        place = {v: k for k, block in enumerate(blocks) for v in block}
        edges = [(place[a], place[b]) for a, b in self.edges if place[a] != place[b]]
        names = [",".join(self.names[v] for v in sorted(block)) for block in blocks]
        return PlainGraph(names, edges)
