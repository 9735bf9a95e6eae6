"""Removable, b-invariant and thin edges, tight cuts, contractions, retracts, bisubdivisions and splices, against brute force."""
import doctest
import importlib
import itertools
import json
import pickle
import random
import unittest
from collections import Counter
from fractions import Fraction

from small_graphs import all_graphs, covered_graphs, is_isomorphic, retracted
from support import Brute, brute_of, covered, cycle, drawn, mcg

PETERSEN = "IheA@GUAo"
K4 = list(itertools.combinations(range(4), 2))
# All matching covered graphs with at most six vertices up to isomorphism, and random ones with parallel edges and odd labels.
SMALL = [graph for order in (2, 4, 6) for graph in covered_graphs(order)]
RANDOM = covered(51, 60)


def without(graph, *gone):
    """The graph without some edges, by brute force."""
    vertices, edges = graph
    return Brute(vertices, [edge[:2] for edge in edges if edge not in gone])


def bricks_of(brute):
    """The number of bricks of a matching covered graph, and None for another graph."""
    return brute.kinds().count("brick") if brute.is_covered() else None


class Small(unittest.TestCase):
    def test_the_small_graphs(self):
        """As many as are known (A000088 of the On-Line Encyclopedia of Integer Sequences), and no two of them are isomorphic."""
        self.assertEqual([len(list(all_graphs(order))) for order in range(7)], [1, 1, 2, 4, 11, 34, 156])
        numbered = [(len(vertices), [(a + 1, b + 1) for a, b in edges]) for vertices, edges in SMALL]
        self.assertFalse(any(is_isomorphic(*one, *other) for one, other in itertools.combinations(numbered, 2)))
        self.assertEqual([sum(len(graph[0]) == order for graph in SMALL) for order in (2, 4, 6)], [1, 2, 24])


class Edges(unittest.TestCase):
    def test_removable_and_b_invariant_edges(self):
        found = 0
        for graph in SMALL + RANDOM:
            with self.subTest(graph=graph):
                bricks = {edge: bricks_of(without(graph, edge)) for edge in graph[1]}
                whole = bricks_of(without(graph))
                self.assertEqual(mcg.removable(graph), [edge for edge in graph[1] if bricks[edge] is not None])
                self.assertEqual(mcg.b_invariant(graph), [edge for edge in graph[1] if bricks[edge] == whole])
                found += len(mcg.b_invariant(graph))
        self.assertGreater(found, 300)

    def test_edges_that_are_removable_and_not_b_invariant(self):
        self.assertEqual((len(mcg.removable(PETERSEN)), mcg.b_invariant(PETERSEN), mcg.thin(PETERSEN)), (15, [], []))

    def test_removable_doubletons(self):
        found = 0
        for graph in SMALL + RANDOM:
            with self.subTest(graph=graph):
                fixed = [edge for edge in graph[1] if not without(graph, edge).is_covered()]
                pairs = [pair for pair in itertools.combinations(fixed, 2) if without(graph, *pair).is_covered()]
                self.assertEqual(mcg.removable_doubletons(graph), pairs)
                found += len(pairs)
        self.assertGreater(found, 30)

    def test_thin_edges(self):
        found, refused = 0, set()
        for graph in SMALL + RANDOM:
            kinds = brute_of(graph).kinds()
            with self.subTest(graph=graph):
                if kinds != ["brick"]:
                    with self.assertRaises(ValueError) as raised:
                        mcg.thin(graph)
                    name = "composite" if len(kinds) > 1 else "brace"
                    self.assertIn(name, str(raised.exception))
                    refused.add(name)
                    continue
                thin = [edge for edge in graph[1] if bricks_of(without(graph, edge)) == 1 and self.is_thin(graph, edge)]
                self.assertEqual(mcg.thin(graph), thin)
                found += len(thin)
        self.assertEqual(refused, {"composite", "brace"})
        self.assertGreater(found, 100)

    def is_thin(self, graph, edge):
        order, ends = retracted(graph[0], [it[:2] for it in graph[1] if it != edge])
        return Brute(range(1, order + 1), ends).kinds() == ["brick"]

    def test_another_graph(self):
        asked = mcg.removable, mcg.b_invariant, mcg.removable_doubletons, mcg.thin, mcg.retract
        for ask in asked:
            with self.subTest(ask=ask.__name__):
                with self.assertRaises(mcg.NotCovered) as raised:
                    ask([("a", "b"), ("b", "c"), ("c", "d")])
                self.assertEqual((raised.exception.reason, raised.exception.witness), ("edge", ("b", "c")))
                self.assertRaises(mcg.TooLarge, ask, cycle(130))
                self.assertRaises(mcg.BadGraph, ask, [(1, 1)])

    def test_two_vertices(self):
        double = [("a", "b", 1), ("b", "a", 2)]
        self.assertEqual((mcg.removable([("a", "b")]), mcg.removable(double)), ([], double))
        self.assertEqual((mcg.b_invariant(double), mcg.removable_doubletons(double)), (double, []))


class Retracts(unittest.TestCase):
    def test_retracts(self):
        draw, smaller = random.Random(52), 0
        for graph in SMALL + RANDOM:
            with self.subTest(graph=graph):
                made = mcg.retract(graph)
                self.is_contraction(graph, made)
                degrees = {v: [edge for edge in made.graph.edges if v in edge[:2]] for v in made.graph.vertices}
                for edges in degrees.values():
                    self.assertFalse(len(edges) == 2 and len({end for edge in edges for end in edge[:2]}) == 3)
                order, ends = retracted(graph[0], [edge[:2] for edge in graph[1]], draw)
                self.assertTrue(is_isomorphic(made.graph.order, made.graph.ends, order, ends))
                smaller += order < len(graph[0])
        self.assertGreater(smaller, 20)

    def is_contraction(self, graph, made):
        """The parts of the image are disjoint sets, and each edge between two of them stands for itself."""
        vertices, edges = graph
        parts = {}
        for v in vertices:
            parts.setdefault(made.image[v], set()).add(v)
        self.assertEqual(set(parts), set(made.graph.vertices))
        for label, part in parts.items():
            self.assertEqual(label, frozenset(part) if len(part) > 1 else min(part, key=repr))
        wanted = {(made.image[e[0]], made.image[e[1]], e) for e in edges if made.image[e[0]] != made.image[e[1]]}
        self.assertEqual(set(made.graph.edges), wanted)
        self.assertEqual(list(made.graph.vertices), sorted(parts, key=lambda it: max(map(vertices.index, parts[it]))))

    def test_an_even_cycle(self):
        for order in (4, 6, 8, 128):
            made = mcg.retract(cycle(order))
            self.assertEqual((made.graph.order, made.graph.size), (2, 2))
            self.assertEqual(set(made.image), set(range(order)))


class Contractions(unittest.TestCase):
    def test_contractions(self):
        draw, count = random.Random(53), 0
        for graph in SMALL[:30] + drawn(53, 60):
            vertices, edges = graph
            shore = set(draw.sample(vertices, draw.randrange(0, len(vertices) + 1)))
            if not shore or len(shore) == len(vertices):
                self.assertRaises(ValueError, mcg.contract, graph, shore)
                continue
            for made, merged in zip(mcg.contract(graph, shore), (set(vertices) - shore, shore)):
                with self.subTest(graph=graph, shore=shore):
                    new = frozenset(merged)
                    image = {v: new if v in merged else v for v in vertices}
                    self.assertEqual(made.image, image)
                    wanted = [(image[e[0]], image[e[1]], e) for e in edges if not {e[0], e[1]} <= merged]
                    self.assertEqual(list(made.graph.edges), wanted)
                    self.assertEqual(set(made.graph.vertices), set(image.values()))
                    count += 1
        self.assertGreater(count, 100)

    def test_what_cannot_be_contracted(self):
        self.assertRaises(mcg.BadText, mcg.contract, K4, {0, 7})
        twin = frozenset({1, 2})
        self.assertRaises(mcg.BadGraph, mcg.contract, [(1, 2), (2, twin), (twin, 1)], {1, 2})

    def test_tight_cuts(self):
        """All shores of all small graphs, and of some random ones."""
        reasons = dict.fromkeys(["empty", "whole", "even", "trivial", "tight", "crossed"], 0)
        for graph in SMALL[::3] + RANDOM[:12]:
            brute = brute_of(graph)
            matchings = brute.perfect_matchings()
            for size in range(len(graph[0]) + 1):
                for shore in map(set, itertools.combinations(graph[0], size)):
                    with self.subTest(graph=graph, shore=shore):
                        found = mcg.is_tight(graph, shore)
                        crossed = [[len(edge & shore) == 1 for edge in it].count(True) for it in matchings]
                        self.assertEqual(bool(found), len(shore) % 2 == 1 and set(crossed) == {1})
                        self.assertEqual(found.reason, self.reason(graph, shore, found))
                        if found.matching is not None:
                            self.is_witness(graph, shore, found.matching)
                        reasons[found.reason] += 1
        self.assertTrue(all(count > 20 for count in reasons.values()), reasons)

    def reason(self, graph, shore, found):
        if len(shore) in (0, len(graph[0])):
            return "whole" if shore else "empty"
        if len(shore) % 2 == 0:
            return "even"
        if len(shore) in (1, len(graph[0]) - 1):
            return "trivial"
        return "tight" if found else "crossed"

    def is_witness(self, graph, shore, matching):
        self.assertLessEqual(set(matching), set(graph[1]))
        self.assertEqual(sorted(map(repr, (end for edge in matching for end in edge[:2]))), sorted(map(repr, graph[0])))
        self.assertGreater(sum(len(shore & set(edge[:2])) == 1 for edge in matching), 1)

    def test_a_cut_of_another_graph(self):
        for shore in ((), "a", "ab", "abcd"):
            with self.assertRaises(mcg.NotCovered) as raised:
                mcg.is_tight([("a", "b"), ("b", "c"), ("c", "d")], shore)
            self.assertEqual(raised.exception.reason, "edge")
        self.assertRaises(mcg.BadText, mcg.is_tight, K4, {0, 9})


class Larger(unittest.TestCase):
    def test_bisubdivisions(self):
        for graph in RANDOM:
            vertices, edges = graph
            edge = edges[len(edges) // 2]
            made = mcg.bisubdivide(graph, (edge[1], edge[0], *edge[2:]))
            with self.subTest(graph=graph):
                self.assertEqual(made.vertices, (*vertices, (edge, 0), (edge, 1)))
                path = [edge[0], (edge, 0), (edge, 1), edge[1]]
                new = {(frozenset(pair), *edge[2:]) for pair in zip(path, path[1:])}
                old = {(frozenset(it[:2]), *it[2:]) for it in edges if it != edge}
                self.assertEqual({(frozenset(it[:2]), *it[2:]) for it in made.edges}, old | new)
                self.assertEqual((made.size, next(mcg.kinds([made])).covered), (len(edges) + 2, len(edges) > 1))
        self.assertRaises(mcg.BadText, mcg.bisubdivide, K4, (0, 9))

    def test_splices(self):
        """The contractions at the cut of a splice are the given graphs, and a splice of matching covered graphs is one."""
        draw, count = random.Random(54), 0
        graphs = [it for it in SMALL + RANDOM if len(it[0]) >= 4]
        for graph, other in zip(graphs, draw.sample(graphs, len(graphs))):
            u = draw.choice(graph[0])
            at_u = [edge for edge in graph[1] if u in edge[:2]]
            found = [[it for it in other[1] if v in it[:2]] for v in other[0]]
            at_v, v = next(((it, v) for it, v in zip(found, other[0]) if len(it) == len(at_u)), (None, None))
            if at_v is None:
                continue
            with self.subTest(graph=graph, other=other):
                pairing = dict(zip(at_u, draw.sample(at_v, len(at_v))))
                made = mcg.splice(graph, u, other, v, pairing)
                self.is_splice(made, graph, u, other, v, pairing)
                self.assertTrue(brute_of((made.vertices, made.edges)).is_covered())
                count += 1
        self.assertGreater(count, 25)

    def is_splice(self, made, graph, u, other, v, pairing):
        left, right = [{(side, it) for it in vertices if it != gone} for side, vertices, gone in ((0, graph[0], u), (1, other[0], v))]
        self.assertEqual(set(made.vertices), left | right)
        kept, merged = mcg.contract(made, left)
        for contraction, side, edges, gone, new in ((kept, 0, graph[1], u, right), (merged, 1, other[1], v, left)):
            def name(it):
                return frozenset(new) if it == gone else (side, it)

            wanted = Counter(frozenset((name(a), name(b))) for a, b, *_ in edges)
            self.assertEqual(Counter(frozenset(edge[:2]) for edge in contraction.graph.edges), wanted)
        joined = {edge[2] for edge in made.edges if (edge[0] in left) != (edge[1] in left)}
        self.assertEqual(joined, set(pairing.items()))

    def test_what_cannot_be_spliced(self):
        good = {(0, 3): (0, 1), (1, 3): (0, 2), (2, 3): (0, 3)}
        for bad in ({}, {**good, (2, 3): (0, 2)}, {**good, (0, 1): (1, 2)}, {**good, (2, 3): (1, 2)}, {**good, (2, 3): "x"}):
            with self.subTest(pairing=bad), self.assertRaises(ValueError):
                mcg.splice(K4, 3, K4, 0, bad)
        self.assertRaises(mcg.BadText, mcg.splice, K4, 7, K4, 0, good)


class Petersen(unittest.TestCase):
    def test_the_petersen_graph(self):
        draw, edges = random.Random(55), list(mcg.Graph(PETERSEN).edges)
        for _ in range(20):
            names = dict(zip(range(10), draw.sample(range(100), 10)))
            self.assertTrue(mcg.is_petersen([(names[a], names[b], k) for k, (a, b) in enumerate([*edges, *edges[:3]])]))

    def test_other_cubic_graphs(self):
        """Graphs made from it by exchanging the ends of two edges stay cubic; the search for an isomorphism says which are Petersen graphs."""
        edges, seen = list(mcg.Graph(PETERSEN).edges), {True: 0, False: 0}
        for (a, b), (c, d) in itertools.combinations(edges, 2):
            if len({a, b, c, d}) == 4:
                changed = [it for it in edges if it not in ((a, b), (c, d))] + [(a, c), (b, d)]
                if len({frozenset(it) for it in changed}) == 15:
                    wanted = is_isomorphic(10, [(x + 1, y + 1) for x, y in changed], 10, [(x + 1, y + 1) for x, y in edges])
                    self.assertEqual(mcg.is_petersen((range(10), changed)), wanted)
                    seen[wanted] += 1
        self.assertGreater(seen[False], 30)


class Numbers(unittest.TestCase):
    def test_the_dimension(self):
        """m - n + 2 - b is the rank of the perfect matchings, as vectors over the edges; parallel edges are exchanged one by one."""
        seen = set()
        for graph in SMALL + RANDOM:
            with self.subTest(graph=graph):
                found = mcg.decompose(graph)
                parallel = {}
                for k, edge in enumerate(graph[1]):
                    parallel.setdefault(frozenset(edge[:2]), []).append(k)
                choices = (itertools.product(*(parallel[pair] for pair in it)) for it in brute_of(graph).perfect_matchings())
                vectors = [sum(1 << k for k in chosen) for listed in choices for chosen in listed]
                self.assertEqual(found.dimension, rank(vectors, len(graph[1])))
                self.assertEqual((found.bricks, found.petersen_bricks, found.b_plus_p), (bricks_of(brute_of(graph)), 0, found.bricks))
                seen.add(found.bricks)
        self.assertEqual(seen, {0, 1, 2})

    def test_petersen_bricks(self):
        """The Petersen graph, with each of some vertices replaced by K3,3 without a vertex; the Petersen graph twice; with a parallel edge."""
        edges = list(mcg.Graph(PETERSEN).edges)
        k33 = [(a, b) for a in range(3) for b in range(3, 6)]
        single = mcg.decompose([*((a, b, 0) for a, b in edges), (*edges[0], 1)])
        self.assertEqual((single.bricks, single.petersen_bricks, single.b_plus_p, single.dimension), (1, 1, 2, 16 - 10 + 2 - 1))
        at_last = [edge for edge in edges if 9 in edge]
        one = mcg.splice(PETERSEN, 9, k33, 0, dict(zip(at_last, k33)))
        at_v = [edge for edge in one.edges if (1, 1) in edge[:2]]
        two = mcg.splice(one, (1, 1), PETERSEN, 9, dict(zip(at_v, at_last)))
        for graph, count in ((one, 1), (two, 2)):
            for order in ("first", "last", "balanced"):
                found = mcg.decompose(graph, order)
                self.assertEqual((found.bricks, found.braces, found.petersen_bricks, found.b_plus_p), (count, 1, count, 2 * count))

    def test_unknown_kinds(self):
        tree = mcg.Decomposition(PETERSEN, mcg.Leaf())
        for name in ("petersen_bricks", "b_plus_p", "dimension"):
            self.assertRaises(ValueError, getattr, tree, name)


def rank(vectors, size):
    """The rank over the rational numbers of vectors of zeros and ones, given as sums of powers of two."""
    rows, found = [[Fraction(it >> k & 1) for k in range(size)] for it in vectors], 0
    for column in range(size):
        pivot = next((row for row in rows if row[column]), None)
        if pivot is not None:
            found += 1
            rows = [[a - row[column] / pivot[column] * b for a, b in zip(row, pivot)] for row in rows if row is not pivot]
    return found


class Answers(unittest.TestCase):
    def test_dicts_and_pickles(self):
        """There and back, through JSON where the labels allow it; a changed dict is refused."""
        for graph in SMALL[::4] + RANDOM[:8]:
            shore = set(graph[0][: (len(graph[0]) + 1) // 2])
            made = [mcg.retract(graph), *mcg.contract(graph, shore), mcg.is_tight(graph, shore)]
            for it in made:
                with self.subTest(graph=graph, it=it):
                    told = it.to_dict()
                    self.assertEqual(type(it).from_dict(told, graph), it)
                    self.assertEqual(pickle.loads(pickle.dumps(it)), it)
                    self.assertEqual(hash(type(it).from_dict(told, graph)), hash(it))
                    json.dumps({**told, "vertices": list(map(repr, told["vertices"]))})
                    for name in set(told) - {"vertices"}:
                        with self.assertRaises(mcg.BadText):
                            type(it).from_dict({**told, name: "x"}, graph)


class Documents(unittest.TestCase):
    def test_the_examples(self):
        for name in ("bricks", "contractions", "splices", "tightness", "petersen"):
            failed, tried = doctest.testmod(importlib.import_module(f"mcg.{name}"), verbose=False)
            self.assertEqual((failed, tried > 1), (0, True), name)
