"""The third part of the candidates in a graph that is not bipartite, by least cuts.

For an edge ab, the sets X with a and without b whose cut is tight are closed under intersection and
union. Each perfect matching has an odd number of edges in the cut of such a set. So if the edges
are weighed by the number of times that they come in a list of perfect matchings, the tight cuts are
among the least cuts between a and b. The sets of least cuts are those that no arc leaves of what a
greatest flow leaves over (Picard and Queyranne 1980), so the least one that holds a vertex is found
by search. Whether its cut is tight is then asked by itself, and if not, a perfect matching with more
edges in it joins the list. So the answer does not depend on which matchings were in the list.
"""
from __future__ import annotations

import random
from collections import deque
from itertools import combinations
from typing import Deque, Dict, List, Optional

from .matchings import improved, joint_matching
from .places import Simple, members

# How many perfect matchings through an edge are drawn to find vertices that go together.
DRAWN = 6


def crossing_matching(simple: Simple, shore: int) -> Optional[List[int]]:
    """Returns a perfect matching with more than one edge in the cut of an odd shore, and None if the
    cut is tight, of a graph that has perfect matchings."""
    outside = (1 << simple.order) - 1 & ~shore
    sides = [[v for v in members(it) if simple.near[v] & ~it] for it in (shore, outside)]

    def crosses(v: int, w: int) -> bool:
        return bool((shore >> v ^ shore >> w) & 1)

    boundary = min(sides, key=len)
    for v, w in combinations(boundary, 2):
        found = joint_matching(simple.rows, simple.mate, v, w, crosses)
        if found is not None:
            return found
    return None


class FlowCuts:
    """A matching covered graph, with perfect matchings that cover its edges."""

    def __init__(self, simple: Simple) -> None:
        self.simple = simple
        self._draw = random.Random(simple.order)
        self.count = 0
        self.weight = [[0] * simple.order for _ in range(simple.order)]
        for a, row in enumerate(simple.rows):
            for b in row:
                if a < b and not self.weight[a][b]:
                    self._take(self._through(a, b))

    def _take(self, mate: List[int]) -> None:
        self.count += 1
        for v, w in enumerate(mate):
            self.weight[v][w] += 1

    def _through(self, a: int, b: int) -> List[int]:
        """A perfect matching in which a and b are partners, drawn at random."""
        gone = [v in (a, b) for v in range(self.simple.order)]
        mate = [-1] * self.simple.order
        for v in self._draw.sample(range(self.simple.order), self.simple.order):
            free = [w for w in self.simple.rows[v] if mate[w] == -1 and not gone[w]]
            if free and mate[v] == -1 and not gone[v]:
                w = self._draw.choice(free)
                mate[v], mate[w] = w, v
        for v in range(self.simple.order):
            if mate[v] == -1 and not gone[v]:
                improved(self.simple.rows, mate, v, gone)
        mate[a], mate[b] = b, a
        return mate

    def cut_of(self, a: int, b: int) -> Optional[int]:
        """Returns the tight set that the candidate of an edge is the cut of, with a and without b:
        for the first vertex x that some such set tells from another vertex than a and b, the least
        one that holds x. None if there is no x."""
        groups = self._groups(a, b)
        while len(set(groups)) > 3:
            found = self._least_set(a, b, groups)
            witness = None if found is None else crossing_matching(self.simple, found)
            if witness is None:
                return found
            self._take(witness)
        return None

    def _groups(self, a: int, b: int) -> List[int]:
        """For each vertex the least of those that no tight cut with the edge ab tells from it, as far
        as some perfect matchings through ab show: their other edges are not in such a cut."""
        groups = list(range(self.simple.order))
        for _ in range(DRAWN):
            for v, w in enumerate(self._through(a, b)):
                one, other = groups[v], groups[w]
                if one != other and v not in (a, b):
                    low, high = min(one, other), max(one, other)
                    groups = [low if it == high else it for it in groups]
            if len(set(groups)) <= 3:
                break
        return groups

    def _least_set(self, a: int, b: int, groups: List[int]) -> Optional[int]:
        """The least set of a least cut that holds a and the first possible vertex x, if one leaves out
        another vertex than b."""
        room = self._left_over(a, b, groups)
        for x in range(self.simple.order):
            if groups[x] == x and x not in (a, b):
                reached = _reached(room, x) | {a}
                found = sum(1 << v for v, it in enumerate(groups) if it in reached)
                if bin(found).count("1") <= self.simple.order - 3:
                    return found
        return None

    def _left_over(self, a: int, b: int, groups: List[int]) -> Dict[int, Dict[int, int]]:
        """What a greatest flow from a to b leaves over of the weights between groups."""
        room: Dict[int, Dict[int, int]] = {it: {} for it in groups}
        for v, row in enumerate(self.simple.rows):
            for w in row:
                one, other = groups[v], groups[w]
                if one != other:
                    room[one][other] = room[one].get(other, 0) + self.weight[v][w]
        value = 0
        while True:
            path = _path(room, a, b)
            if path is None:
                break
            most = min(room[v][w] for v, w in zip(path, path[1:]))
            for v, w in zip(path, path[1:]):
                room[v][w] -= most
                room[w][v] = room[w].get(v, 0) + most
            value += most
        assert value == self.count, "each perfect matching has an odd number of edges in each odd cut"
        return room


def _path(room: Dict[int, Dict[int, int]], a: int, b: int) -> Optional[List[int]]:
    """A shortest path from a to b with room left on it."""
    before, waiting = {a: a}, deque([a])  # type: Dict[int, int], Deque[int]
    while waiting and b not in before:
        v = waiting.popleft()
        for w, left in room[v].items():
            if left and w not in before:
                before[w] = v
                waiting.append(w)
    if b not in before:
        return None
    path = [b]
    while path[-1] != a:
        path.append(before[path[-1]])
    return path[::-1]


def _reached(room: Dict[int, Dict[int, int]], x: int) -> set[int]:
    """The groups to which what is left over leads from one of them."""
    seen, waiting = {x}, [x]
    for v in waiting:
        for w, left in room[v].items():
            if left and w not in seen:
                seen.add(w)
                waiting.append(w)
    return seen
