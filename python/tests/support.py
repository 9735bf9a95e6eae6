"""What the tests share: the programs, random graphs with odd labels, and a brute force."""
import os
import random
import stat
import sys
from functools import lru_cache
from itertools import combinations
from unittest import mock

HERE = os.path.dirname(os.path.realpath(__file__))
ROOT = os.path.dirname(os.path.dirname(HERE))
sys.path.insert(0, os.path.dirname(HERE))
for name in ("mcg", "mcg6"):
    os.environ.setdefault(name.upper(), f"{ROOT}/crates/{name}_front/out/{name}_front")

import mcg  # noqa: E402

try:
    import networkx
except ImportError:
    networkx = None

WITHOUT_NETWORKX = "NetworkX cannot be imported"
LABELS = [None, "ä", ("x", 1), frozenset({1, "y"}), 3.5, b"z", "two words\n", -7, "", (), "ß", ("x", (2, None)), 10**30, "v1"]


def program_of(folder, body, name="mcg6"):
    """A program that stands for mcg6 or mcg, written in sh."""
    path = os.path.join(folder, name)
    with open(path, "w") as file:
        file.write(f"#!/bin/sh\n{body}\n")
    os.chmod(path, os.stat(path).st_mode | stat.S_IXUSR)
    return mock.patch.dict(os.environ, {name.upper(): path})


def random_graph(draw, most=8, parallel=True):
    """A pair (vertices, edges) with odd labels; mostly with a Hamiltonian cycle, so that it is often matching covered."""
    order = draw.choice([2, 4, 4, 6, 6, 6, 8, 8, 8, draw.randrange(0, 9)])
    order = min(order, most)
    vertices = draw.sample(LABELS, order)
    pairs = []
    if order >= 2 and draw.randrange(8):
        pairs = [(vertices[k - 1], vertices[k]) for k in range(order)][: order if order > 2 else 1]
    is_bipartite = draw.randrange(3) == 0
    for _ in range(draw.randrange(0, order + 3) if order >= 2 else 0):
        i, j = draw.sample(range(order), 2)
        if not is_bipartite or (i - j) % 2:
            pairs.append((vertices[i], vertices[j]))
    draw.shuffle(pairs)
    draw.shuffle(vertices)
    if not parallel:
        pairs = list({frozenset(pair): pair for pair in pairs}.values())
        return vertices, pairs
    odd_keys = [*LABELS, *range(len(pairs))]
    return vertices, [(u, v, key) for (u, v), key in zip(pairs, draw.sample(odd_keys, len(pairs)))]


class Brute:
    """A graph of at most 8 vertices, with everything found by listing its matchings and vertex sets. Vertices are labels."""

    def __init__(self, vertices, pairs):
        self.vertices = list(vertices)
        self.near = {v: set() for v in self.vertices}
        for u, v in pairs:
            if u != v:
                self.near[u].add(v)
                self.near[v].add(u)
        self.edges = {frozenset((u, v)) for u in self.vertices for v in self.near[u]}
        place = {v: k for k, v in enumerate(self.vertices)}

        @lru_cache(None)
        def largest(left):
            """The size of a largest matching on some vertices."""
            if not left:
                return 0
            v = min(left, key=place.get)
            rest = left - {v}
            return max([largest(rest)] + [1 + largest(rest - {w}) for w in self.near[v] & rest])

        self.largest = largest
        self.whole = frozenset(self.vertices)

    def is_matched(self, *gone):
        left = self.whole - set(gone)
        return 2 * self.largest(left) == len(left)

    def components(self, *gone):
        left, found = set(self.whole) - set(gone), []
        while left:
            part, waiting = set(), [next(iter(left))]
            while waiting:
                v = waiting.pop()
                if v not in part:
                    part.add(v)
                    waiting += self.near[v] - set(gone)
            found.append(part)
            left -= part
        return found

    def missed(self):
        return {v for v in self.vertices if self.largest(self.whole - {v}) == self.largest(self.whole)}

    def is_allowed(self, u, v):
        return v in self.near[u] and self.is_matched() and self.is_matched(u, v)

    def is_covered(self):
        is_one = len(self.vertices) >= 2 and len(self.components()) == 1
        return is_one and all(self.is_allowed(*edge) for edge in self.edges)

    def is_bipartite(self):
        return any(
            all(len(edge & side) == 1 for edge in self.edges)
            for size in range(len(self.vertices) + 1)
            for side in map(frozenset, combinations(self.vertices, size))
        )

    def perfect_matchings(self):
        def go(left):
            if not left:
                yield []
                return
            v = next(it for it in self.vertices if it in left)
            for w in self.near[v] & left:
                for more in go(left - {v, w}):
                    yield [frozenset((v, w))] + more

        return list(go(self.whole))

    def is_tight(self, shore):
        """Whether the cut of an odd shore with three vertices or more on both sides is tight."""
        is_nontrivial = len(shore) % 2 and len(shore) >= 3 and len(self.whole) - len(shore) >= 3
        return bool(is_nontrivial) and all(sum(len(edge & shore) == 1 for edge in it) == 1 for it in self.perfect_matchings())

    def tight_shore(self):
        last = self.vertices[-1:]
        for size in range(3, len(self.vertices) - 2, 2):
            for shore in map(frozenset, combinations([v for v in self.vertices if [v] != last], size)):
                if self.is_tight(shore):
                    return shore
        return None

    def contracted(self, shore):
        """The graph with the shore as one vertex."""
        new = ("one", frozenset(shore))
        image = {v: new if v in shore else v for v in self.vertices}
        return Brute([v for v in self.vertices if v not in shore] + [new], [[image[v] for v in edge] for edge in map(tuple, self.edges)])

    def kinds(self):
        """The kinds of the leaves of a tight cut decomposition, sorted."""
        shore = self.tight_shore()
        if shore is None:
            return ["brace" if self.is_bipartite() else "brick"]
        return sorted(self.contracted(self.whole - shore).kinds() + self.contracted(shore).kinds())

    def reason(self):
        if len(self.vertices) < 2:
            return "order"
        if len(self.components()) > 1:
            return "parts"
        return "edge" if self.is_matched() else "berge"


def brute_of(graph):
    return Brute(graph[0], [edge[:2] for edge in graph[1]])


def drawn(seed, count, **how):
    """That many random graphs, as pairs (vertices, edges)."""
    draw = random.Random(seed)
    return [random_graph(draw, **how) for _ in range(count)]


def covered(seed, count, **how):
    """That many random graphs that are matching covered."""
    draw, found = random.Random(seed), []
    while len(found) < count:
        graph = random_graph(draw, **how)
        if brute_of(graph).is_covered():
            found.append(graph)
    return found


def cycle(count):
    return [(k, (k + 1) % count) for k in range(count)]


__all__ = ["Brute", "ROOT", "WITHOUT_NETWORKX", "brute_of", "covered", "cycle", "drawn", "mcg", "networkx", "program_of", "random_graph"]
