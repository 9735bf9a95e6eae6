"""What the tests of pictures share: graphs, and the faults of a drawing as it is on the paper."""
import importlib.util
import os
import random
import unittest

from support import ROOT, mcg

HAS_LAYOUT = all(importlib.util.find_spec(name) for name in ("numpy", "networkx"))
HAS_AXES = HAS_LAYOUT and bool(importlib.util.find_spec("matplotlib"))
needs_layout = unittest.skipUnless(HAS_LAYOUT, "NumPy or NetworkX cannot be imported")
needs_axes = unittest.skipUnless(HAS_AXES, "Matplotlib, NumPy or NetworkX cannot be imported")

SVG = "{http://www.w3.org/2000/svg}"


def example(name):
    """A graph of the folder of examples."""
    with open(f"{ROOT}/examples/{name}.mcg") as file:
        return mcg.Graph.from_text(file.read())


def numbered(edges):
    """A graph with vertices 1, 2, .. in order."""
    edges = list(edges)
    order = max(max(edge) for edge in edges)
    return mcg.Graph((range(1, order + 1), edges))


def cycles_with_spokes(n, step=1):
    """The prism over a cycle, or a generalised Petersen graph."""
    outer = [(k + 1, (k + 1) % n + 1) for k in range(n)]
    inner = [(n + k + 1, n + (k + step) % n + 1) for k in range(n)]
    return outer + inner + [(k + 1, n + k + 1) for k in range(n)]


def petersen(*chords):
    return numbered(cycles_with_spokes(5, 2) + list(chords))


def cube(dimension):
    """The cube of that dimension."""
    pairs = [(v, v ^ (1 << k)) for v in range(2**dimension) for k in range(dimension)]
    return numbered((a + 1, b + 1) for a, b in pairs if a < b)


def complete(order):
    return numbered((a, b) for b in range(2, order + 1) for a in range(1, b))


def grown(seed, pieces):
    """A composite graph, as `mcg grow` makes it."""
    import subprocess

    words = [os.environ["MCG"], "grow", str(seed), str(pieces)]
    made = subprocess.run(words, capture_output=True, text=True, check=True)
    return mcg.Graph.from_text(made.stdout)


def fullerene():
    """The football: the fullerene with 60 vertices without neighbouring pentagons, as the truncated
    icosahedron."""
    import networkx

    ball = networkx.icosahedral_graph()
    _, plane = networkx.check_planarity(ball)
    place = {(a, b): k for k, (a, b) in enumerate(sorted((a, b) for a in ball for b in ball[a]), 1)}
    edges = [(place[a, b], place[b, a]) for a, b in ball.edges]
    for v in ball:
        around = list(plane.neighbors_cw_order(v))
        edges += [(place[v, a], place[v, b]) for a, b in zip(around, around[1:] + around[:1])]
    return numbered(edges)


def named_graphs():
    """Graphs that everyone knows, by name."""
    import networkx

    found = {name: example(name) for name in ("k4", "prism", "cube", "two_k4", "hexagon", "chain", "k33_triangle", "path4")}
    found.update({"petersen": petersen(), "petersen with chords": petersen((1, 3), (6, 7), (4, 10))})
    found.update({"K5": complete(5), "K6": complete(6), "K8": complete(8), "Q4": cube(4), "Q5": cube(5), "fullerene": fullerene()})
    found["Möbius-Kantor"] = numbered(cycles_with_spokes(8, 3))
    for name, graph in (("icosahedron", networkx.icosahedral_graph()), ("Heawood", networkx.heawood_graph()), ("grid", networkx.grid_2d_graph(4, 5)), ("tree", networkx.balanced_tree(2, 3)), ("Pappus", networkx.pappus_graph())):
        found[name] = mcg.Graph(graph)
    return found


def random_graphs(count, seed=1):
    """Planar, cubic, sparse, dense and composite graphs with parallel edges among them."""
    import networkx

    draw = random.Random(seed)
    for k in range(count):
        order = draw.choice([6, 8, 10, 12, 16, 20, 30])
        kind = k % 4
        if kind == 0:
            graph = networkx.random_regular_graph(3, order, seed=draw.randrange(10**6))
        elif kind == 1:
            graph = networkx.gnm_random_graph(order, int(1.2 * order), seed=draw.randrange(10**6))
        elif kind == 2:
            graph = networkx.gnm_random_graph(min(order, 16), 3 * min(order, 16), seed=draw.randrange(10**6))
        else:
            graph = planar_graph(order, draw)
        edges = [(a, b, 0) for a, b in graph.edges]
        edges += [(a, b, key) for a, b in list(graph.edges)[:3] for key in range(1, draw.choice([1, 2, 4, 7]))]
        yield f"random {k}", mcg.Graph((list(graph), edges))


def planar_graph(order, draw):
    """A connected planar graph: random points, joined by the shortest lines that cross no other, and
    then without some of them."""
    import networkx

    from mcg.draw import geometry

    points = [(draw.random(), draw.random()) for _ in range(order)]
    graph, lines = networkx.empty_graph(order), []
    pairs = [(a, b) for b in range(order) for a in range(b)]
    for a, b in sorted(pairs, key=lambda it: (points[it[0]][0] - points[it[1]][0]) ** 2 + (points[it[0]][1] - points[it[1]][1]) ** 2):
        line = (*points[a], *points[b])
        if not geometry.meetings([line], [it for ends, it in lines if not {a, b} & ends]):
            graph.add_edge(a, b)
            lines.append(({a, b}, line))
    for edge in list(graph.edges):
        if draw.random() < 0.35:
            graph.remove_edge(*edge)
            if not networkx.is_connected(graph):
                graph.add_edge(*edge)
    return graph


def is_planar(graph):
    import networkx

    return networkx.check_planarity(networkx.Graph(graph.pairs))[0]


def faults(frame, planar):
    """What is wrong with a drawing: the discs, the paths and the names, as they are on the paper."""
    import math

    from mcg.draw import geometry

    found, points, graph = [], frame.points, frame.graph
    near = min((math.dist(p, q) for k, p in enumerate(points) for q in points[:k]), default=math.inf)
    if near < 2 * frame.radius + 3:
        found.append("two vertices too near")
    lines = frame.lines()
    for k, line in lines.items():
        others = [p for v, p in enumerate(points) if v not in graph.edges[k]]
        if geometry.room(others, line) < frame.radius + 1.5:
            found.append(f"a vertex on the edge {k}")
    pieces = {k: geometry.segments(line) for k, line in lines.items()}
    for k in pieces if planar else ():
        for m in pieces:
            if k < m and not set(graph.edges[k]) & set(graph.edges[m]) and geometry.meetings(pieces[k], pieces[m]):
                found.append(f"the edges {k} and {m} of a planar graph cross")
    boxes = list(frame.boxes.values())
    for k, box in enumerate(boxes):
        if any(geometry.touches(box, it) for line in pieces.values() for it in line):
            found.append("a name on an edge")
        if any(geometry.box_distance(box, p) < frame.radius for p in points):
            found.append("a name on a vertex")
        if any(geometry.overlap(box, other) for other in boxes[:k]):
            found.append("a name on a name")
    return found


def met(one, other):
    """How often two lines of points cross."""
    import numpy

    def turn(o, p, q):
        return (p[..., 0] - o[..., 0]) * (q[..., 1] - o[..., 1]) - (p[..., 1] - o[..., 1]) * (q[..., 0] - o[..., 0])

    f, g = numpy.array(one), numpy.array(other)
    a, b, c, d = f[:-1, None], f[1:, None], g[None, :-1], g[None, 1:]
    return int(((turn(a, b, c) * turn(a, b, d) < -1e-9) & (turn(c, d, a) * turn(c, d, b) < -1e-9)).sum())


def curve_faults(frame, shore):
    """What is wrong with the curve of a shore: it holds just the shore or just the rest, keeps off
    the vertices, and in a plane drawing meets each edge of the cut once and no other edge."""
    import numpy

    from mcg.draw.contours import within
    from mcg.draw.curves import around, segment_distance

    loops, is_round_the_rest = around(frame, shore)
    closed = [numpy.vstack([loop, loop[:1]]) for loop in loops]
    lines, edges = frame.lines(), frame.graph.edges
    is_plane = not any(met(lines[k], lines[m]) for k in lines for m in lines if k < m and not set(edges[k]) & set(edges[m]))
    found = []
    for k, line in lines.items():
        want = len(set(edges[k]) & set(shore)) == 1
        count = sum(met(line, loop) for loop in closed)
        if count % 2 != want or (is_plane and count != want):
            found.append(f"the curve meets the edge {k} {count} times")
    for v, point in enumerate(frame.points):
        is_inside = sum(within(point, loop) for loop in loops) % 2 == 1
        if is_inside != ((v in shore) != is_round_the_rest):
            found.append(f"the vertex {v} is on the wrong side")
    near = min(segment_distance(numpy.array(frame.points), loop[:-1], loop[1:]).min() for loop in closed)
    if near < frame.radius + 0.8:
        found.append("the curve is on a vertex")
    return found
