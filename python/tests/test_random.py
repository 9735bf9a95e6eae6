"""Each function on random multigraphs with odd labels, compared with a brute force to 8 vertices."""
import random
import unittest

from support import Brute, brute_of, covered, drawn, mcg


class Analyse(unittest.TestCase):
    def test_random_multigraphs(self):
        for graph in drawn(1, 250):
            with self.subTest(graph=graph):
                self.compare(graph, brute_of(graph), mcg.analyse(graph))

    def compare(self, graph, brute, found):
        vertices, edges = graph
        size = brute.largest(brute.whole)
        missed = brute.missed()
        near = {w for v in missed for w in brute.near[v]} - missed
        self.assertEqual((found.order, found.size), (len(vertices), len(edges)))
        self.assertEqual(found.components, len(brute.components()))
        self.assertEqual(found.bipartite, brute.is_bipartite())
        self.assertEqual((found.matching_number, found.deficiency), (size, len(vertices) - 2 * size))
        self.assertEqual((found.D, found.A, found.C), (missed, near, brute.whole - missed - near))
        self.assertEqual(found.allowed, [edge for edge in edges if brute.is_allowed(*edge[:2])])
        self.assertEqual(found.covered, brute.is_covered())
        if found.covered:
            self.compare_covered(vertices, brute, found)
        else:
            self.compare_uncovered(vertices, edges, brute, found)

    def compare_covered(self, vertices, brute, found):
        pairs = [(u, v) for k, u in enumerate(vertices) for v in vertices[k + 1 :]]
        unmatched = [pair for pair in pairs if not brute.is_matched(*pair)]
        cuts = [pair for pair in pairs if len(brute.components(*pair)) > 1]
        classes = {frozenset([v]) | {w for w in vertices if w != v and not brute.is_matched(v, w)} for v in vertices}
        self.assertEqual(len(found.classes), len(classes))
        self.assertEqual(set(found.classes), classes)
        self.assertEqual((found.reason, found.witness), (None, None))
        self.assertEqual(found.bicritical, not unmatched)
        self.assertEqual(found.equivalent_pair, unmatched[0] if unmatched else None)
        self.assertEqual(found.cut_pair, cuts[0] if cuts else None)
        shore = brute.tight_shore()
        if shore is None:
            self.assertEqual((found.kind, found.shore), ("brace" if brute.is_bipartite() else "brick", None))
        else:
            self.assertEqual(found.kind, "composite")
            self.assertTrue(brute.is_tight(found.shore))

    def compare_uncovered(self, vertices, edges, brute, found):
        self.assertEqual(found.reason, brute.reason())
        structure = [found.classes, found.bicritical, found.equivalent_pair, found.cut_pair, found.kind, found.shore]
        self.assertEqual(structure, [None] * 6)
        if found.reason == "order":
            self.assertIsNone(found.witness)
        elif found.reason == "parts":
            part = next(part for part in brute.components() if vertices[0] in part)
            self.assertEqual(found.witness, (vertices[0], next(v for v in vertices if v not in part)))
        elif found.reason == "berge":
            odd = sum(len(part) % 2 for part in brute.components(*found.witness))
            self.assertEqual(odd - len(found.witness), found.deficiency)
        else:
            self.assertEqual(found.witness, next(edge for edge in edges if not brute.is_allowed(*edge[:2])))


class Decompose(unittest.TestCase):
    def leaves_of(self, brute, tree, blocks):
        """The leaves of a tree by the brute force, each cut being tight; blocks by the vertices of the contraction."""
        if isinstance(tree, mcg.Leaf):
            self.assertIsNone(brute.tight_shore())
            return [(brute, blocks)]
        shore = frozenset(v for v in brute.vertices if blocks[v] <= tree.shore)
        self.assertEqual(frozenset().union(*(blocks[v] for v in shore)), tree.shore)
        self.assertTrue(brute.is_tight(shore))
        found = []
        for part, below in ((brute.whole - shore, tree.kept), (shore, tree.merged)):
            contracted = brute.contracted(part)
            new = {v: blocks[v] for v in contracted.vertices if v in blocks}
            new[contracted.vertices[-1]] = frozenset().union(*(blocks[v] for v in part))
            found += self.leaves_of(contracted, below, new)
        return found

    def compare(self, graph, found):
        brute = brute_of(graph)
        leaves = self.leaves_of(brute, found.tree, {v: frozenset([v]) for v in graph[0]})
        self.assertEqual(len(leaves), len(found.leaves))
        for (place, blocks), leaf in zip(leaves, found.leaves):
            self.assertEqual(leaf.kind, "brace" if place.is_bipartite() else "brick")
            self.assertEqual(set(leaf.blocks), set(blocks.values()))
            where = {v: block for block in leaf.blocks for v in block}
            between = {}
            for edge in graph[1]:
                pair = frozenset((where[edge[0]], where[edge[1]]))
                if len(pair) == 2:
                    between.setdefault(pair, []).append(edge)
            self.assertEqual(leaf.edges, between)
            self.assertEqual(next(mcg.kinds([leaf.graph6()])).kind, leaf.kind)
        kinds = sorted(leaf.kind for leaf in found.leaves)
        self.assertEqual(kinds, brute.kinds())
        self.assertEqual((found.bricks, found.braces), (kinds.count("brick"), kinds.count("brace")))

    def test_random_multigraphs(self):
        draw = random.Random(2)
        for graph in covered(2, 40):
            for order in ("first", "last", "balanced", [draw.randrange(5) for _ in range(3)]):
                with self.subTest(graph=graph, order=order):
                    self.compare(graph, mcg.decompose(graph, order))

    def test_uncovered(self):
        for graph in drawn(3, 60):
            if not brute_of(graph).is_covered():
                analysis = mcg.analyse(graph)
                for asked in (mcg.decompose, mcg.ears):
                    with self.assertRaises(mcg.NotCovered) as raised:
                        asked(graph)
                    self.assertEqual(raised.exception.reason, analysis.reason)
                    if analysis.reason != "berge":
                        self.assertEqual(raised.exception.witness, analysis.witness)

    def test_order_that_is_none(self):
        with self.assertRaises(ValueError):
            mcg.decompose("C~", "frist")


class Check(unittest.TestCase):
    def test_trees_of_decompose(self):
        for graph in covered(4, 40):
            found = mcg.decompose(graph, "last")
            for tree in (found, found.tree, bare(found.tree), turned(graph, found.tree)):
                verdict = mcg.check(graph, tree)
                self.assertTrue(verdict)
                counts = verdict.leaves, verdict.bricks, verdict.braces
                self.assertEqual(counts, (len(found.leaves), found.bricks, found.braces))

    def test_a_leaf_that_is_cut(self):
        """The tree of one leaf is refused with a nontrivial tight cut, if the graph is composite."""
        for graph in covered(5, 40):
            verdict, brute = mcg.check(graph, mcg.Leaf()), brute_of(graph)
            self.assertEqual(verdict.accepted, brute.tight_shore() is None)
            if not verdict:
                self.assertEqual((verdict.refusal.node, verdict.refusal.why), (1, 5))
                self.assertTrue(brute.is_tight(verdict.refusal.cut))
                self.assertIn("is nontrivial and tight there (cut further", str(verdict.refusal))

    def test_one_cut(self):
        """A tree of one cut with a random shore, whose first node is refused for the right reason."""
        draw, seen = random.Random(6), set()
        for graph in covered(6, 120):
            vertices, brute = graph[0], brute_of(graph)
            shore = frozenset(draw.sample(vertices, draw.randrange(1, len(vertices))))
            verdict = mcg.check(graph, mcg.Cut(shore, mcg.Leaf(), mcg.Leaf()))
            shore = shore if vertices[-1] not in shore else brute.whole - shore
            if brute.is_tight(shore):
                continue
            why = 2 if len(shore) % 2 == 0 else 3 if min(len(shore), len(vertices) - len(shore)) < 3 else 4
            self.assertEqual((verdict.refusal.node, verdict.refusal.why), (1, why))
            seen.add(why)
            if why == 4:
                matching = verdict.refusal.matching
                self.assertEqual(sorted(map(str, (v for edge in matching for v in edge[:2]))), sorted(map(str, vertices)))
                self.assertGreaterEqual(sum((edge[0] in shore) != (edge[1] in shore) for edge in matching), 2)
        self.assertEqual(seen, {2, 3, 4})

    def test_an_uncovered_graph(self):
        verdict = mcg.check([(1, 2), (2, 3)], mcg.Leaf())
        self.assertEqual((verdict.accepted, verdict.reason, verdict.refusal), (False, "berge", None))

    def test_what_is_no_tree_of_the_graph(self):
        for shore in ({"z"}, set()):
            with self.assertRaises(mcg.BadText):
                mcg.check("C~", mcg.Cut(frozenset(shore), mcg.Leaf(), mcg.Leaf()))


def bare(tree):
    """The tree with leaves that were made by hand."""
    return mcg.Leaf() if isinstance(tree, mcg.Leaf) else mcg.Cut(tree.shore, bare(tree.kept), bare(tree.merged))


def turned(graph, tree):
    """The tree with the other shore at each cut."""
    if isinstance(tree, mcg.Leaf):
        return tree
    other = frozenset(graph[0]) - tree.shore
    return mcg.Cut(other, turned(graph, tree.merged), turned(graph, tree.kept))


class Ears(unittest.TestCase):
    def stages_are_covered(self, graph, found):
        stage = [found.start]
        for step in found.steps:
            for ear in step:
                inner = ear.path[1:-1]
                self.assertEqual(len(ear.edges) % 2, 1)
                self.assertEqual(len(set(inner)), len(inner))
                met = {v for edge in stage for v in edge[:2]}
                self.assertTrue({ear.path[0], ear.path[-1]} <= met or len(step) == 2)
                self.assertFalse(set(inner) & met)
            stage += [edge for ear in step for edge in ear.edges]
            self.assertTrue(Brute({v for edge in stage for v in edge[:2]}, [edge[:2] for edge in stage]).is_covered())
        self.assertEqual(sorted(map(repr, stage)), sorted(map(repr, graph[1])))

    def test_random_multigraphs(self):
        double = 0
        for graph in covered(7, 60):
            with self.subTest(graph=graph):
                found = mcg.ears(graph)
                self.stages_are_covered(graph, found)
                verdict = mcg.check_ears(graph, found)
                self.assertEqual((verdict.accepted, verdict.steps), (True, len(found.steps)))
                self.assertEqual((verdict.single, verdict.double), (found.single, found.double))
                double += found.double
        self.assertGreater(double, 0)

    def test_refusals(self):
        edges = [("a", "b"), ("b", "c"), ("c", "d"), ("d", "a"), ("a", "c"), ("b", "d")]
        start, whole = edges[0], mcg.Ear("b", tuple(edges[1:4]))
        cases = [
            ([], 0, 7, edges[1]),
            ([(whole,)], 1, 7, edges[4]),
            ([(mcg.Ear("c", tuple(edges[1:4])),)], 1, 1, None),
            ([(mcg.Ear("b", tuple(edges[1:3])),)], 1, 2, None),
            ([(mcg.Ear("c", (edges[2],)),)], 1, 3, None),
            ([(whole,), (mcg.Ear("a", (edges[4],)),)], 2, 6, edges[4]),
            ([(whole,), (whole,)], 2, 4, None),
        ]
        for steps, step, why, edge in cases:
            verdict = mcg.check_ears(edges, mcg.Ears(start, steps))
            self.assertEqual((verdict.accepted, verdict.step, verdict.why, verdict.edge), (False, step, why, edge))
        both = (mcg.Ear("a", (edges[4],)), mcg.Ear("b", (edges[5],)))
        self.assertTrue(mcg.check_ears(edges, mcg.Ears(start, [(whole,), both])))
        self.assertEqual(mcg.check_ears([(1, 2), (2, 3)], mcg.Ears((1, 2), [])).reason, "berge")
        with self.assertRaises(mcg.BadText):
            mcg.check_ears(edges, mcg.Ears(("a", "z"), []))


class Compare(unittest.TestCase):
    def pairs_are_right(self, found):
        self.assertEqual([pair[0] for pair in found.pairs], list(range(len(found.first.leaves))))
        self.assertEqual(sorted(pair[1] for pair in found.pairs), list(range(len(found.second.leaves))))
        for leaf, partner, images in found.pairs:
            first, second = found.first.leaves[leaf], found.second.leaves[partner]
            self.assertEqual(set(images), set(first.blocks))
            self.assertEqual(set(images.values()), set(second.blocks))
            mapped = {frozenset(images[block] for block in pair) for pair in first.edges}
            self.assertEqual(mapped, set(second.edges))

    def test_random_multigraphs(self):
        draw, moves = random.Random(8), 0
        for graph in covered(8, 80):
            with self.subTest(graph=graph):
                first = mcg.decompose(graph, [draw.randrange(6) for _ in range(4)])
                second = mcg.decompose(graph, [draw.randrange(6) for _ in range(4)])
                found = mcg.compare(graph, first, second.tree)
                self.pairs_are_right(found)
                script = mcg.script(graph, first, second)
                self.assertEqual(script, found.moves)
                replayed = mcg.replay(graph, first, script)
                self.assertTrue(replayed)
                self.assertEqual(replayed.result, second)
                moves += len(script)
        self.assertGreater(moves, 0)

    def test_refusals(self):
        graph = [(k, (k + 1) % 6) for k in range(6)]
        good = mcg.decompose(graph)
        for first, second, place in ((mcg.Leaf(), good, 1), (good, mcg.Leaf(), 2)):
            for asked in (mcg.compare, mcg.script):
                with self.assertRaises(mcg.NotADerivation) as raised:
                    asked(graph, first, second)
                self.assertEqual((raised.exception.place, raised.exception.refusal.why), (place, 5))
        stuck = mcg.replay(graph, good, [mcg.Rotate("k")])
        self.assertEqual((bool(stuck), stuck.move, stuck.refusal), (False, 1, None))
        shore = sorted(good.tree.shore)
        bad = mcg.Switch("", frozenset(shore[1:2]), frozenset([(shore[1] + 3) % 6]))
        self.assertFalse(mcg.replay(graph, good, [bad]))
        self.assertEqual(mcg.replay(graph, mcg.Leaf(), []).move, 0)
        self.assertEqual(mcg.replay([(1, 2), (2, 3)], mcg.Leaf(), []).reason, "berge")
        with self.assertRaises(mcg.NotCovered):
            mcg.compare([(1, 2), (2, 3)], mcg.Leaf(), mcg.Leaf())
