"""All small graphs up to isomorphism, and what the tests do with graphs by number: isomorphism and retracts by brute force."""
from itertools import combinations, permutations

from support import Brute


def all_graphs(order):
    """One graph from each isomorphism class on the vertices 0, 1, .. as a pair (vertices, edges): the one whose edges give the least number."""
    pairs = list(combinations(range(order), 2))
    place = {frozenset(pair): k for k, pair in enumerate(pairs)}
    moved = [[place[frozenset((p[a], p[b]))] for a, b in pairs] for p in permutations(range(order))]
    seen = bytearray(1 << len(pairs))
    for bits in range(1 << len(pairs)):
        if not seen[bits]:
            on = [k for k in range(len(pairs)) if bits >> k & 1]
            for images in moved:
                seen[sum(1 << images[k] for k in on)] = 1
            yield list(range(order)), [pairs[k] for k in on]


def covered_graphs(order):
    """Those of them that are matching covered."""
    return (graph for graph in all_graphs(order) if Brute(*graph).is_covered())


def table(order, ends):
    """How many edges join two vertices, which are numbered from 1."""
    rows = [[0] * (order + 1) for _ in range(order + 1)]
    for a, b in ends:
        rows[a][b] += 1
        rows[b][a] += 1
    return rows


def is_isomorphic(order, ends, other_order, other_ends):
    """Whether two multigraphs on 1, 2, .. are isomorphic, multiplicities included, by trying all maps vertex by vertex."""
    if (order, len(ends)) != (other_order, len(other_ends)):
        return False
    one, other = table(order, ends), table(order, other_ends)

    def go(images):
        k = len(images) + 1
        if k > order:
            return True
        return any(
            all(one[k][j] == other[v][w] for j, w in enumerate(images, 1)) and go([*images, v])
            for v in range(1, order + 1)
            if v not in images and sorted(one[k]) == sorted(other[v])
        )

    return go([])


def retracted(vertices, pairs, draw=None):
    """The retract as a number of vertices and the ends of the edges from 1; with `draw`, the vertices are taken in random order."""
    near = [[a, b] for a, b in pairs]
    vertices = list(vertices)
    while True:
        if draw:
            draw.shuffle(vertices)
        for v in vertices:
            ends = [a if b == v else b for a, b in near if v in (a, b)]
            if len(ends) == 2 and ends[0] != ends[1]:
                break
        else:
            number = {v: k for k, v in enumerate(vertices, 1)}
            return len(vertices), [(number[a], number[b]) for a, b in near]
        near = [[v if it in ends else it for it in pair] for pair in near]
        near = [pair for pair in near if pair[0] != pair[1]]
        vertices = [it for it in vertices if it not in ends]
