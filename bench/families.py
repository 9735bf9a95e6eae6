"""The graphs of bench/scale and bench/slow_calls, each made by its name: graph_of("cubic-128-1") is a random cubic graph.

A name is a family and its numbers, the last of a random family being the seed. Each family below says what its numbers are. Then may
come steps, as in petersen-5-2+17+203: each number draws a step of bench/mutations.py, which changes the graph. All graphs are simple
but those of the families whose names begin with `thick`, and those with steps. Vertices are numbered from 0. Nothing is needed but Python and bench/composite.
"""
import os
import random
import subprocess

from mutations import MOST_EDGES, MOST_VERTICES, PETERSEN, mutated, repeated, split_until

HERE = os.path.dirname(os.path.abspath(__file__))


def cubic(n, seed):
    """A random cubic graph with n vertices and a Hamiltonian cycle."""
    draw = random.Random(seed)
    while True:
        rest = list(range(n))
        draw.shuffle(rest)
        chords = {tuple(sorted(pair)) for pair in zip(rest[::2], rest[1::2])}
        cycle_of = {tuple(sorted((k, (k + 1) % n))) for k in range(n)}
        if not chords & cycle_of:
            return sorted(chords | cycle_of)


def regular(n, degree, seed):
    """A random regular graph with n vertices: a random pairing, loops and parallel edges taken out by random exchanges."""
    draw = random.Random(seed)
    ends = [v for v in range(n) for _ in range(degree)]
    draw.shuffle(ends)
    pairs = [tuple(sorted(pair)) for pair in zip(ends[::2], ends[1::2])]
    while True:
        seen, poor = set(), []
        for k, (a, b) in enumerate(pairs):
            if a == b or (a, b) in seen:
                poor.append(k)
            seen.add((a, b))
        if not poor:
            return sorted(pairs)
        for k in poor:
            other = draw.randrange(len(pairs))
            (a, b), (c, d) = pairs[k], pairs[other]
            pairs[k], pairs[other] = tuple(sorted((a, d))), tuple(sorted((c, b)))


def sparse(n, m, seed):
    """A random graph with n vertices and m edges."""
    pairs = [(a, b) for b in range(n) for a in range(b)]
    return sorted(random.Random(seed).sample(pairs, min(m, len(pairs))))


def dense(n, seed):
    """A random graph with n vertices and n²/8 edges."""
    return sparse(n, n * n // 8, seed)


def complete(n):
    """The complete graph with n vertices."""
    return [(a, b) for b in range(n) for a in range(b)]


def bipartite(n, m, seed):
    """A bipartite graph with n vertices and m edges: a Hamiltonian cycle and random edges."""
    draw, half = random.Random(seed), n // 2
    edges = {(k, half + k) for k in range(half)} | {(k, half + (k + 1) % half) for k in range(half)}
    while len(edges) < m:
        edges.add((draw.randrange(half), half + draw.randrange(half)))
    return sorted(edges)


def halves(a, b):
    """The complete bipartite graph with classes of a and b vertices."""
    return [(u, a + v) for u in range(a) for v in range(b)]


def band(n, degree):
    """Two classes of n vertices; vertex k of the one is adjacent to the vertices k, .., k + degree - 1 modulo n of the other."""
    return sorted((k, n + (k + j) % n) for k in range(n) for j in range(degree))


def halfgraph(n, width):
    """Two classes of n vertices; vertex k of the one is adjacent to the vertices k, .., k + width - 1 of the other, as far as they
    go, and the last vertex to the first: so the graph has a Hamiltonian cycle."""
    return sorted({(k, n + j) for k in range(n) for j in range(k, min(k + width, n))} | {(n - 1, n)})


def composed(*words):
    """What bench/composite prints."""
    ran = subprocess.run([os.path.join(HERE, "composite"), *map(str, words)], capture_output=True, text=True, check=True)
    rows = [line.split() for line in ran.stdout.splitlines() if line.startswith("e ")]
    names = sorted({word for _, a, b in rows for word in (a, b)}, key=lambda word: int(word.lstrip("v")))
    place = {word: k for k, word in enumerate(names)}
    return [(place[a], place[b]) for _, a, b in rows]


def barrier(vertices, size, density, seed):
    """A barrier with as many parts of that size: see bench/composite."""
    return composed("barrier", vertices, size, density, seed)


def separation(parts, size, density, seed):
    """A pair of vertices with that many parts: see bench/composite."""
    return composed("separation", parts, size, density, seed)


def composite(n, seed):
    """A barrier of n/8 vertices with as many parts of seven."""
    return barrier(n // 8, 7, 60, seed)


def flower(k):
    """The flower snark J_k, for odd k: 4k vertices. Star j has the centre 4j and the leaves 4j + 1 to 4j + 3."""
    edges = [(4 * j, 4 * j + leaf) for j in range(k) for leaf in (1, 2, 3)]
    edges += [(4 * j + 1, 4 * ((j + 1) % k) + 1) for j in range(k)]
    ring = [4 * j + 2 for j in range(k)] + [4 * j + 3 for j in range(k)]
    return sorted(tuple(sorted(pair)) for pair in edges + list(zip(ring, ring[1:] + ring[:1])))


def petersen(k, step):
    """The generalized Petersen graph GP(k, step), with 2k vertices."""
    pairs = [(j, (j + 1) % k) for j in range(k)] + [(j, k + j) for j in range(k)] + [(k + j, k + (j + step) % k) for j in range(k)]
    return sorted({tuple(sorted(pair)) for pair in pairs})


def prism(k):
    """Two cycles of k vertices, joined by k rungs: a brace if k is even, and a brick otherwise."""
    return petersen(k, 1)


def moebius(n):
    """The Möbius ladder with n vertices: a cycle with the n/2 longest chords."""
    return sorted({tuple(sorted(pair)) for k in range(n) for pair in ((k, (k + 1) % n), (k, (k + n // 2) % n))})


def cycle(n):
    """The cycle with n vertices: its trees have n/2 - 1 leaves."""
    return sorted(tuple(sorted((k, (k + 1) % n))) for k in range(n))


def wheel(n):
    """A cycle with n - 1 vertices and a hub."""
    return sorted(cycle(n - 1) + [(k, n - 1) for k in range(n - 1)])


def biwheel(n):
    """An even cycle with n - 2 vertices and two hubs, which are adjacent to the vertices by turns: a brace."""
    return sorted(cycle(n - 2) + [(k, n - 2 + k % 2) for k in range(n - 2)])


def staircase(n):
    """A ladder with n/2 - 1 rungs, and two adjacent vertices: one beyond each end, each adjacent to the ends of the last rung."""
    rungs = n // 2 - 1
    sides = [(2 * k + side, 2 * k + 2 + side) for k in range(rungs - 1) for side in (0, 1)]
    ends = [(n - 2, 0), (n - 2, 1), (n - 1, 2 * rungs - 2), (n - 1, 2 * rungs - 1), (n - 2, n - 1)]
    return sorted(tuple(sorted(pair)) for pair in sides + [(2 * k, 2 * k + 1) for k in range(rungs)] + ends)


def book(leaves):
    """So many complete graphs with four vertices on one edge."""
    return [(0, 1)] + [pair for k in range(2, 2 * leaves + 2, 2) for pair in ((0, k), (0, k + 1), (1, k), (1, k + 1), (k, k + 1))]


def chain(leaves):
    """So many complete graphs with four vertices in a row; two neighbours share an edge."""
    return sorted({pair for k in range(leaves) for pair in complete_on(range(2 * k, 2 * k + 4))})


def complete_on(vertices):
    return [(a, b) for b in vertices for a in vertices if a < b]


def glued(leaves, seed):
    """So many complete graphs with four vertices; each but the first shares a random edge with those before it."""
    draw, edges = random.Random(seed), complete_on(range(4))
    for n in range(4, 2 * leaves + 2, 2):
        a, b = draw.choice(edges)
        edges += [(a, n), (a, n + 1), (b, n), (b, n + 1), (n, n + 1)]
    return sorted(edges)


def splits(start, n, seed):
    """The complete graph with `start` vertices, where a random vertex is split until there are n: two vertices share its edges, and a
    third is adjacent to both. So one leaf of its trees is that complete graph, and the others are cycles with four vertices."""
    draw, edges = random.Random(seed), complete(start)
    for new in range(start, n, 2):
        vertex = draw.randrange(new)
        at = [k for k, pair in enumerate(edges) if vertex in pair]
        for k in draw.sample(at, draw.randrange(1, len(at))):
            edges[k] = tuple(new if v == vertex else v for v in edges[k])
        edges += [(vertex, new + 1), (new, new + 1)]
    return sorted(tuple(sorted(pair)) for pair in edges)


def replaced(edges, vertex, others):
    """The edges with the three at a vertex moved apart: the first stays, and the two others go to the vertices given."""
    ends = iter((vertex, *others))
    return [tuple(next(ends) if v == vertex else v for v in pair) for pair in edges]


def triangles(n, seed):
    """A cubic graph with n vertices: K4, where a random vertex is replaced by a triangle again and again. It is a brick."""
    draw, edges = random.Random(seed), complete_on(range(4))
    for new in range(4, n, 2):
        vertex = draw.randrange(new)
        edges = replaced(edges, vertex, (new, new + 1)) + [(vertex, new), (vertex, new + 1), (new, new + 1)]
    return sorted(tuple(sorted(pair)) for pair in edges)


def braces(leaves, seed):
    """A bipartite cubic graph spliced from so many copies of K3,3: a random vertex is replaced by K3,3 without a vertex."""
    draw, edges = random.Random(seed), [(a, b) for a in (0, 1, 2) for b in (3, 4, 5)]
    for n in range(6, 4 * leaves + 2, 4):
        vertex = draw.randrange(n)
        edges = replaced(edges, vertex, (n, n + 1))
        edges += [(inner, outer) for inner in (n + 2, n + 3) for outer in (vertex, n, n + 1)]
    return sorted(tuple(sorted(pair)) for pair in edges)


def thick(n, m, seed):
    """A random cubic graph with n vertices whose edges are repeated in turn until there are m."""
    edges = cubic(n, seed)
    return sorted(edges[k % len(edges)] for k in range(m))


def thicksplits(start, n, m, seed):
    """`splits` with n vertices, whose edges are repeated at random until there are m."""
    return repeated(splits(start, n, seed), m, seed)


def splitpetersen(n, seed):
    """The Petersen graph, where a random vertex is split until there are n."""
    return split_until(n, *PETERSEN, seed)


def splithalves(half, n, seed):
    """The complete bipartite graph with classes of that size, where a random vertex is split until there are n."""
    return split_until(n, 2 * half, halves(half, half), seed)


def thickpetersen(n, m, seed):
    """`splitpetersen` with n vertices, whose edges are repeated at random until there are m."""
    return repeated(splitpetersen(n, seed), m, seed)


def barrierpairs(vertices, size, parts, seed):
    """A barrier with as many parts of that size, and a separation of so many parts of six vertices, glued on at two adjacent vertices."""
    edges = barrier(vertices, size, 60, seed)
    order = 1 + max(max(pair) for pair in edges)
    (a, b), others = edges[0], separation(parts, 6, 60, seed)
    place = {0: a, 1: b}
    for v in range(2, 1 + max(max(pair) for pair in others)):
        place[v] = order + v - 2
    return sorted({tuple(sorted(pair)) for pair in edges} | {tuple(sorted((place[x], place[y]))) for x, y in others})


FAMILIES = {it.__name__: it for it in (
    cubic, regular, sparse, dense, complete, bipartite, halves, band, halfgraph, barrier, separation, composite, flower, petersen, prism,
    moebius, cycle, wheel, biwheel, staircase, book, chain, glued, splits, triangles, braces, thick, thicksplits, splitpetersen, splithalves,
    thickpetersen, barrierpairs)}


def graph_of(name):
    """How many vertices the graph with that name has, and its edges; a ValueError if there is none."""
    name, *steps = name.split("+")
    family, *numbers = name.split("-")
    if family not in FAMILIES or not all(it.isdigit() for it in numbers + steps):
        raise ValueError(f"no graph has the name {name}")
    try:
        edges = FAMILIES[family](*map(int, numbers))
    except TypeError:
        raise ValueError(f"{name}: other numbers are expected: {FAMILIES[family].__doc__}") from None
    order = int(numbers[0]) if family in ("sparse", "dense") else 1 + max(max(pair) for pair in edges)
    for step in steps:
        order, edges = mutated(order, edges, int(step))
    return order, edges


def graph_text(n, edges):
    """The graph in the graph format of mcg, version 2."""
    rows = [f"p mcg2 {n} {len(edges)}"] + [f"v v{k}" for k in range(n)] + [f"e v{a} v{b}" for a, b in edges]
    return "\n".join(rows) + "\n"


def graph6_text(n, edges):
    """The simple graph in graph6."""
    adjacent = {tuple(sorted(pair)) for pair in edges}
    row = [(a, b) in adjacent for b in range(n) for a in range(b)]
    row += [False] * (-len(row) % 6)
    data = [63 + sum(bit << (5 - k) for k, bit in enumerate(row[at : at + 6])) for at in range(0, len(row), 6)]
    size = [63 + n] if n <= 62 else [126, 63 + (n >> 12), 63 + (n >> 6 & 63), 63 + (n & 63)]
    return bytes(size + data).decode() + "\n"
