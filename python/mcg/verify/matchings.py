"""Matchings of small simple graphs, by Edmonds' search for an alternating path.

A graph is the list of the neighbours of each vertex, the vertices being 0, 1, ..; a matching is
the list of the partners, -1 where there is none.
"""
from __future__ import annotations

from typing import Callable, List, Optional, Sequence

Rows = Sequence[Sequence[int]]


class Search:
    """The search from one root that the matching misses, in the graph without some vertices.

    `outer` has for each vertex whether an alternating path of even length leads to it from the
    root. `end` is a vertex at which an augmenting path ends, if there is one; the search stops
    there.

    Source: J. Edmonds, "Paths, trees, and flowers", Canadian J. Math. 17 (1965). Takes time in
    the number of edges times the number of blossoms.
    """

    def __init__(self, rows: Rows, mate: Sequence[int], root: int, gone: Sequence[bool]) -> None:
        count = len(rows)
        self.mate, self.root = mate, root
        self.base = list(range(count))
        self.parent = [-1] * count
        self.outer = [False] * count
        self.outer[root] = True
        self.queue = [root]
        self.end: Optional[int] = None
        for v in self.queue:
            for w in rows[v]:
                if gone[w] or self.base[v] == self.base[w] or mate[v] == w:
                    continue
                if self.outer[w]:
                    self._shrink(v, w)
                elif self.parent[w] == -1:
                    self.parent[w] = v
                    if mate[w] == -1:
                        self.end = w
                        return
                    self.outer[mate[w]] = True
                    self.queue.append(mate[w])

    def _shrink(self, v: int, w: int) -> None:
        """Makes the odd cycle that the edge between two outer vertices closes one outer vertex."""
        top = self._meeting(v, w)
        inside = [False] * len(self.base)
        self._mark(v, top, w, inside)
        self._mark(w, top, v, inside)
        for u, base in enumerate(self.base):
            if inside[base]:
                self.base[u] = top
                if not self.outer[u]:
                    self.outer[u] = True
                    self.queue.append(u)

    def _meeting(self, v: int, w: int) -> int:
        """The base at which the paths from two outer vertices to the root meet."""
        passed = set()
        while True:
            v = self.base[v]
            passed.add(v)
            if v == self.root:
                break
            v = self.parent[self.mate[v]]
        while self.base[w] not in passed:
            w = self.parent[self.mate[self.base[w]]]
        return self.base[w]

    def _mark(self, v: int, top: int, child: int, inside: List[bool]) -> None:
        while self.base[v] != top:
            partner = self.mate[v]
            inside[self.base[v]] = inside[self.base[partner]] = True
            self.parent[v] = child
            child, v = partner, self.parent[partner]

    def augment(self, mate: List[int]) -> None:
        """Exchanges the edges of the matching along the path that was found."""
        w = -1 if self.end is None else self.end
        while w != -1:
            v = self.parent[w]
            after = mate[v]
            mate[v], mate[w] = w, v
            w = after


def improved(rows: Rows, mate: List[int], root: int, gone: Sequence[bool]) -> bool:
    """Matches the root too, if the matching can be exchanged so; returns whether it was."""
    search = Search(rows, mate, root, gone)
    if search.end is None:
        return False
    search.augment(mate)
    return True


def maximum(rows: Rows) -> List[int]:
    """Returns a maximum matching."""
    mate = [-1] * len(rows)
    gone = [False] * len(rows)
    for v, near in enumerate(rows):
        if mate[v] == -1:
            free = next((w for w in near if mate[w] == -1), None)
            if free is not None:
                mate[v], mate[free] = free, v
    for v in range(len(rows)):
        if mate[v] == -1:
            improved(rows, mate, v, gone)
    return mate


def without(mate: Sequence[int], vertices: Sequence[int]) -> List[int]:
    """Returns the matching without the edges at these vertices."""
    left = list(mate)
    for v in vertices:
        if left[v] != -1:
            left[left[v]] = -1
            left[v] = -1
    return left


def missed_vertices(rows: Rows, mate: Sequence[int]) -> List[bool]:
    """Returns for each vertex whether some maximum matching misses it; `mate` is a maximum one."""
    found = [False] * len(rows)
    gone = [False] * len(rows)
    for root, partner in enumerate(mate):
        if partner == -1:
            outer = Search(rows, mate, root, gone).outer
            found = [a or b for a, b in zip(found, outer)]
    return found


def pair_table(rows: Rows, mate: Sequence[int]) -> List[List[bool]]:
    """Returns for each two vertices u and v whether the graph without them has a perfect matching;
    `mate` is a perfect matching. The search is from the partner of u, in the graph without u."""
    table = []
    for u, partner in enumerate(mate):
        gone = [False] * len(rows)
        gone[u] = True
        outer = Search(rows, without(mate, [u]), partner, gone).outer
        table.append(outer)
    return table


def has_perfect(rows: Rows, mate: Sequence[int], removed: Sequence[int]) -> bool:
    """Returns whether the graph without these vertices has a perfect matching; `mate` is a
    perfect matching of the graph."""
    gone = [False] * len(rows)
    for v in removed:
        gone[v] = True
    left = without(mate, removed)
    return all(gone[v] or left[v] != -1 or improved(rows, left, v, gone) for v in range(len(rows)))


def joint_matching(
    rows: Rows, mate: Sequence[int], v: int, w: int, allows: Callable[[int, int], bool]
) -> Optional[List[int]]:
    """Returns a perfect matching that has at v and at w only edges that are allowed there, and None
    if there is none; `mate` is a perfect matching."""
    near = [list(row) for row in rows]
    left = list(mate)
    gone = [False] * len(rows)
    for u in (v, w):
        for x in [x for x in near[u] if not allows(u, x)]:
            near[u].remove(x)
            near[x].remove(u)
        if left[u] != -1 and not allows(u, left[u]):
            left = without(left, [u])
    is_perfect = all(left[u] != -1 or improved(near, left, u, gone) for u in range(len(rows)))
    return left if is_perfect else None


def together(
    rows: Rows, mate: Sequence[int], v: int, w: int, allows: Callable[[int, int], bool]
) -> bool:
    """Returns whether some perfect matching has at v and at w only edges that are allowed there;
    `mate` is a perfect matching."""
    return joint_matching(rows, mate, v, w, allows) is not None
