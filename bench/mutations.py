"""Graphs made from others by small steps, each drawn by a number: for bench/families.py and bench/slow_calls --climb.

A step keeps the limits: one that would pass them, or has no place in the graph, leaves the graph as it is.
"""
import random

MOST_VERTICES, MOST_EDGES = 128, 2048
COMPLETE_4 = (4, [(0, 1), (0, 2), (0, 3), (1, 2), (1, 3), (2, 3)])
HALVES_3 = (6, [(a, b) for a in (0, 1, 2) for b in (3, 4, 5)])
PRISM = (6, [(0, 1), (1, 2), (0, 2), (3, 4), (4, 5), (3, 5), (0, 3), (1, 4), (2, 5)])
PETERSEN = (10, [(k, (k + 1) % 5) for k in range(5)] + [(k, k + 5) for k in range(5)] + [(5 + k, 5 + (k + 2) % 5) for k in range(5)])
PIECES = (COMPLETE_4, HALVES_3, PRISM, PETERSEN)  # bricks and a brace, all cubic


def split(draw, n, edges):
    """Splits a vertex: it shares its edges with a new one, and another new vertex is adjacent to both."""
    vertex = draw.randrange(n)
    at = [k for k, pair in enumerate(edges) if vertex in pair]
    if len(at) < 2:
        return n, edges
    edges = list(edges)
    for k in draw.sample(at, draw.randrange(1, len(at))):
        edges[k] = tuple(n if v == vertex else v for v in edges[k])
    return n + 2, edges + [(vertex, n + 1), (n, n + 1)]


def splice(draw, n, edges):
    """Replaces a vertex by a cubic piece without one of its vertices: each edge at it goes to one of the three neighbours there."""
    vertex, (order, inner) = draw.randrange(n), draw.choice(PIECES)
    if sum(vertex in pair for pair in edges) < 3:
        return n, edges
    place = {0: vertex} | {v: n + v - 1 for v in range(1, order - 1)}
    outer = [place[a] for a, b in inner if b == order - 1]
    ends = iter(outer + draw.choices(outer, k=len(edges)))
    moved = [tuple(next(ends) if v == vertex else v for v in pair) if vertex in pair else pair for pair in edges]
    return n + order - 2, moved + [(place[a], place[b]) for a, b in inner if b != order - 1]


def subdivide(draw, n, edges):
    """Replaces an edge by a path of three."""
    (a, b), rest = edges[k := draw.randrange(len(edges))], list(edges)
    del rest[k]
    return n + 2, rest + [(a, n), (n, n + 1), (n + 1, b)]


def thicken(draw, n, edges):
    """Repeats an edge, up to as often as there are edges."""
    return n, list(edges) + [draw.choice(edges)] * draw.randrange(1, 2 ** draw.randrange(1, 9))


def glue(draw, n, edges):
    """Glues a piece on at two adjacent vertices."""
    (a, b), (order, inner) = draw.choice(edges), draw.choice(PIECES)
    place = {inner[0][0]: a, inner[0][1]: b}
    for v in range(order):
        place.setdefault(v, n + len(place) - 2)
    return n + order - 2, list(edges) + [(place[x], place[y]) for x, y in inner[1:]]


def move(draw, n, edges):
    """Moves an end of an edge to another vertex."""
    edges, k, to = list(edges), draw.randrange(len(edges)), draw.randrange(n)
    edges[k] = draw.choice(((edges[k][0], to), (to, edges[k][1])))
    return n, edges


STEPS = (split, split, splice, subdivide, thicken, glue, move)


def mutated(n, edges, number):
    """The graph after the step with that number."""
    draw = random.Random(number)
    order, found = draw.choice(STEPS)(draw, n, edges)
    if order > MOST_VERTICES or len(found) > MOST_EDGES or any(a == b for a, b in found):
        return n, edges
    return order, sorted(tuple(sorted(pair)) for pair in found)


def repeated(edges, m, seed):
    """The edges, and random ones of them again until there are m."""
    draw = random.Random(seed)
    return sorted(list(edges) + [draw.choice(edges) for _ in range(m - len(edges))])


def split_until(n, start, edges, seed):
    """The graph, where a random vertex is split again and again until there are n."""
    draw = random.Random(seed)
    order = 1 + max(max(pair) for pair in edges)
    while order < n:
        order, edges = split(draw, order, edges)
    return sorted(tuple(sorted(pair)) for pair in edges)
