"""What the answers show of themselves: repr, text, length, equality and hash, dicts, and pickles."""
import copy
import json
import os
import pickle
import random
import subprocess
import sys
import unittest

from support import ROOT, covered, cycle, drawn, mcg

# The edges of a graph of two copies of K4 that share the edge uv.
PAIRS = [("u", "v"), ("u", "a"), ("u", "b"), ("v", "a"), ("v", "b"), ("a", "b"), ("u", "x"), ("u", "y"), ("v", "x"), ("v", "y"), ("x", "y")]
BARE = mcg.Leaf()


def wrong_ears(graph, draw):
    """Lists of ears, most of them wrong."""
    numbered = mcg.Graph(graph)
    good = mcg.ears(numbered)
    yield good
    yield mcg.Ears(good.start, good.steps[:-1])
    for _ in range(6):
        steps = [list(step) for step in good.steps]
        if not steps:
            return
        k = draw.randrange(len(steps))
        ear = draw.choice(steps[k])
        edges = list(ear.edges)
        edges[draw.randrange(len(edges))] = draw.choice(numbered.edges)
        if draw.randrange(2):
            edges = edges[: draw.randrange(1, len(edges) + 1)]
        steps[k][steps[k].index(ear)] = mcg.Ear(draw.choice([ear.vertex, draw.choice(numbered.vertices)]), tuple(edges))
        if draw.randrange(3) == 0 and k + 1 < len(steps) and len(steps[k]) == len(steps[k + 1]) == 1:
            steps[k : k + 2] = [steps[k] + steps[k + 1]]
        yield mcg.Ears(draw.choice([good.start, draw.choice(numbered.edges)]), [tuple(step) for step in steps])


def answers(graph, draw):
    """Answers of all kinds on a graph that is matching covered."""
    first, second = (mcg.decompose(graph, [draw.randrange(6) for _ in range(4)]) for _ in range(2))
    yield from (mcg.analyse(graph), first, mcg.check(graph, first), mcg.check(graph, BARE))
    yield from (mcg.ears(graph), mcg.compare(graph, first, second), mcg.script(graph, first, second))
    yield from (mcg.check_ears(graph, it) for it in wrong_ears(graph, draw))
    vertices = mcg.Graph(graph).vertices
    shore = frozenset(draw.sample(vertices, draw.randrange(1, len(vertices))))
    yield mcg.check(graph, mcg.Cut(shore, BARE, BARE))
    moves = mcg.script(graph, first, second)
    yield from (mcg.replay(graph, first, moves), mcg.replay(graph, BARE, moves), mcg.replay(graph, first, [mcg.Rotate("k")]))
    if isinstance(first.tree, mcg.Cut):
        other = frozenset(vertices) - first.tree.shore
        switch = mcg.Switch("", frozenset([min(first.tree.shore, key=repr)]), frozenset([min(other, key=repr)]))
        yield mcg.replay(graph, first, [switch])


class Dicts(unittest.TestCase):
    def through_json(self, made, graph):
        """What the dict of an answer is once it was written and read as JSON, its labels as texts."""
        text = json.dumps({**made, "vertices": list(map(repr, made["vertices"]))})
        return json.loads(text)

    def test_there_and_back(self):
        """Each answer is equal to what `from_dict` makes of its dict, of its JSON, and of its pickle."""
        draw, seen = random.Random(41), {}
        for graph in covered(41, 30):
            for it in answers(graph, draw):
                with self.subTest(graph=graph, answer=it):
                    made = it.to_dict()
                    self.assertEqual(made["vertices"], list(mcg.Graph(graph).vertices))
                    for given in (made, self.through_json(made, graph)):
                        found = type(it).from_dict(given, graph)
                        self.assertEqual(found, it)
                        self.assertEqual(found.to_dict(), made)
                    for found in (pickle.loads(pickle.dumps(it)), copy.deepcopy(it)):
                        self.assertEqual((found, repr(found), str(found)), (it, repr(it), str(it)))
                        self.assertEqual(found.to_dict(), made)
                    seen[type(it).__name__] = seen.get(type(it).__name__, 0) + 1
        wanted = {"Analysis", "Decomposition", "TreeCheck", "Ears", "EarsCheck", "Comparison", "Moves", "Replay"}
        self.assertEqual(set(seen), wanted)
        self.assertGreaterEqual(min(seen.values()), 30)

    def test_uncovered_graphs(self):
        reasons = set()
        for graph in drawn(42, 150):
            found = mcg.analyse(graph)
            if not found.covered:
                reasons.add(found.reason)
                for it in (found, mcg.check(graph, BARE), mcg.replay(graph, BARE, [])):
                    self.assertEqual(type(it).from_dict(self.through_json(it.to_dict(), graph), graph), it)
        self.assertEqual(reasons, {"order", "parts", "berge", "edge"})

    def test_labels_come_from_the_graph(self):
        """The dict of a graph with other labels, and what is refused: another graph, or a dict that was changed."""
        found = mcg.decompose(cycle(6))
        other = [(a + 10, b + 10) for a, b in cycle(6)]
        self.assertEqual(mcg.Decomposition.from_dict(found.to_dict(), other).leaves[0].blocks[0], frozenset([11]))
        for graph in (cycle(8), cycle(6)[::-1]):
            with self.assertRaises(mcg.BadText):
                mcg.Decomposition.from_dict(found.to_dict(), graph)
        for name, value in (("tree", {"leaf": 1}), ("leaves", []), ("edges", 7), ("tree", None), ("new", 1)):
            with self.subTest(name=name, value=value), self.assertRaises(mcg.BadText):
                mcg.Decomposition.from_dict({**found.to_dict(), name: value}, cycle(6))
        with self.assertRaises(mcg.BadText):
            mcg.Analysis.from_dict({}, cycle(6))
        with self.assertRaises(ValueError):
            mcg.Moves([mcg.Rotate("k")]).to_dict()
        self.assertEqual(mcg.Moves([mcg.Rotate("k")]).to_dict(cycle(6))["moves"], [{"move": "rotate", "path": "k"}])


class Shown(unittest.TestCase):
    """repr is one short line, the text is in the caller's labels, and both are the same in every run."""

    def test_repr(self):
        found = mcg.decompose(PAIRS)
        cases = {
            found: "<Decomposition of 6 vertices: 2 bricks, 0 braces>",
            mcg.Decomposition(PAIRS, BARE): "<Decomposition of 6 vertices: 1 leaf>",
            found.leaves[0]: "<brick on 4 blocks, 6 pairs, 8 edges>",
            BARE: "Leaf()",
            found.tree: "<cut with the shore {'u', 'a', 'b'} above 2 leaves>",
            found.graph: "<Graph of 6 vertices, 11 edges>",
            mcg.analyse(PAIRS): "<Analysis of 6 vertices, 11 edges: composite>",
            mcg.check(PAIRS, found): "<TreeCheck: accepted, 2 leaves, 2 bricks, 0 braces>",
            mcg.check(PAIRS, BARE): "<TreeCheck: refused at node 1, it is a leaf with a nontrivial tight cut>",
            mcg.check(cycle(3), BARE): "<TreeCheck: not matching covered (berge)>",
            mcg.compare(PAIRS, found, found): "<Comparison of 2 leaves: 0 moves>",
            mcg.replay(PAIRS, found, []): "<Replay: all moves were made, 2 leaves>",
            mcg.replay(PAIRS, found, [mcg.Rotate("k")]): "<Replay: move 1 has no result>",
        }
        for it, wanted in cases.items():
            self.assertEqual(repr(it), wanted)

    def test_short_lines(self):
        draw = random.Random(43)
        for graph in covered(43, 20):
            for it in answers(graph, draw):
                self.assertNotIn("\n", repr(it))
                self.assertLessEqual(len(repr(it)), 120)

    def test_a_tree_as_text(self):
        wanted = """<Decomposition of 6 vertices: 2 bricks, 0 braces>
cut, shore {'u', 'a', 'b'}
  kept: brick on 4 blocks: 'u', 'a', 'b', {'v', 'x', 'y'}
  merged: brick on 4 blocks: 'v', {'u', 'a', 'b'}, 'x', 'y'"""
        self.assertEqual(str(mcg.decompose(PAIRS)), wanted)

    def test_the_same_in_every_run(self):
        """What is printed does not depend on the seed of the hashes of texts."""
        program = (
            "import mcg; G = [('u', 'v'), ('u', 'a'), ('a', 'v'), ('u', 'b'), ('v', 'b'), ('a', 'b'), ('u', 'x'), ('u', 'y'),"
            "('v', 'x'), ('v', 'y'), ('x', 'y')]; d, e = mcg.decompose(G), mcg.decompose(G, 'last');"
            "print(d, d.leaves[0].blocks, list(d.leaves[0].edges), d.tree.shore, mcg.analyse(G).classes, list(mcg.analyse(G).C));"
            "print(mcg.compare(G, d, e), mcg.script(G, d, e), mcg.ears(G), mcg.check(G, mcg.Leaf()))"
        )
        seen = set()
        for seed in ("0", "1", "2", "3"):
            environment = {**os.environ, "PYTHONHASHSEED": seed, "PYTHONPATH": f"{ROOT}/python"}
            seen.add(subprocess.run([sys.executable, "-c", program], env=environment, capture_output=True, check=True).stdout)
        self.assertEqual(len(seen), 1)

    def test_sets_keep_an_order(self):
        found = mcg.Graph(PAIRS).labels([4, 2, 3])
        self.assertEqual((list(found), repr(found)), (["v", "a", "b"], "{'v', 'a', 'b'}"))
        self.assertEqual((found, hash(found)), (frozenset("abv"), hash(frozenset("abv"))))
        self.assertEqual(pickle.loads(pickle.dumps(found)), found)
        self.assertEqual(found | {"z"}, frozenset("abvz"))


class Equal(unittest.TestCase):
    def test_vertices_in_another_order(self):
        """Trees over the same graph with vertices, edges and ends in another order are equal, and have the same hash."""
        draw, compared = random.Random(44), 0
        for vertices, edges in covered(44, 40):
            first, second = (mcg.decompose((vertices, edges), [draw.randrange(6) for _ in range(4)]) for _ in range(2))
            turned = [(v, u, *key) for u, v, *key in edges]
            other = (draw.sample(vertices, len(vertices)), draw.sample(turned, len(turned)))
            again = mcg.Decomposition(other, first.tree)
            self.assertEqual((again, hash(again), again.graph), (first, hash(first), first.graph))
            self.assertEqual(len({again, first}), 1)
            self.assertEqual(again == second, first == second)
            bare = mcg.Decomposition.from_text(first.to_text().split("\nc ")[0], (vertices, edges))
            self.assertEqual((bare, [it.kind for it in bare]), (first, [None] * len(first)))
            compared += first != second
        self.assertGreater(compared, 0)

    def test_length_and_iteration(self):
        found = mcg.decompose(PAIRS)
        self.assertEqual((len(found), list(found)), (2, found.leaves))
        listed = mcg.ears(PAIRS)
        self.assertEqual((len(listed), list(listed)), (len(listed.steps), listed.steps))
        compared = mcg.compare(PAIRS, found, found)
        self.assertEqual((len(compared), list(compared)), (2, compared.pairs))
        self.assertTrue(mcg.ears([("a", "b")]))

    def test_hashes(self):
        draw = random.Random(45)
        for graph in covered(45, 10):
            for it in answers(graph, draw):
                if not isinstance(it, mcg.Moves):
                    self.assertEqual(hash(it), hash(copy.deepcopy(it)))
