"""Lists: kinds, leaves, elementary and select, streamed through one process."""
import itertools
import json
import os
import random
import resource
import sys
import tempfile
import threading
import unittest
from unittest import mock

from support import Brute, brute_of, cycle, drawn, mcg, networkx
from test_sage import SageGraph


class Kinds(unittest.TestCase):
    def test_random_graphs(self):
        graphs = drawn(11, 300)
        for graph, found in itertools.zip_longest(graphs, mcg.kinds(graphs)):
            with self.subTest(graph=graph):
                brute = brute_of(graph)
                kinds = brute.kinds() if brute.is_covered() else None
                self.assertEqual((found.order, found.size), (len(graph[0]), len(brute.edges)))
                self.assertEqual(found.graph6, mcg.Graph(graph).graph6())
                self.assertEqual(found.covered, brute.is_covered())
                self.assertEqual(found.deficiency, found.order - 2 * brute.largest(brute.whole))
                if kinds is None:
                    self.assertEqual(found.reason, brute.reason())
                    self.assertEqual({found.kind, found.bricks, found.braces, found.bicritical}, {None})
                    continue
                self.assertIsNone(found.reason)
                self.assertEqual(found.kind, kinds[0] if len(kinds) == 1 else "composite")
                self.assertEqual((found.bricks, found.braces), (kinds.count("brick"), kinds.count("brace")))
                pairs = itertools.combinations(graph[0], 2)
                self.assertEqual(found.bicritical, all(brute.is_matched(*pair) for pair in pairs))

    def test_the_graphs_that_were_given(self):
        """Each result has the place of its graph and the graph itself, also where bad ones are left out."""
        draw, bad = random.Random(16), []
        graphs = [it for pair in zip(drawn(16, 80), ["x!", "C~", [(1, 1)], "E~rG", ""] * 16) for it in pair]
        draw.shuffle(graphs)
        found = list(mcg.kinds(graphs, skipped=bad))
        for it in found:
            self.assertIs(it.given, graphs[it.index])
            self.assertEqual(it.graph6, mcg.Graph(it.given).graph6())
        self.assertEqual(sorted([it.index for it in found] + [fault.line - 1 for fault in bad]), list(range(len(graphs))))
        self.assertEqual(len(bad), 48)
        plain = [it.to_dict() for it in found]
        self.assertEqual([mcg.Kind.from_dict(json.loads(json.dumps(it))) for it in plain], found)
        self.assertEqual({type(value) for it in plain for value in it.values()}, {int, str, bool, type(None)})

    def test_a_single_graph(self):
        """One graph where a list is wanted is a TypeError, or a graph that is bad with a hint."""
        ones = ["C~", b"C~", mcg.Graph("C~"), SageGraph("ab", [("a", "b", None)])]
        for one in ones + ([] if networkx is None else [networkx.complete_graph(4)]):
            for asked in (mcg.kinds, mcg.leaves, mcg.elementary, lambda it: mcg.select(it, "brick")):
                with self.assertRaises(TypeError) as raised:
                    asked(one)
                self.assertIn("put it in a list", str(raised.exception))
        for edges in ([(1, 2), (2, 3)], [("a", "b"), ("b", "c")]):
            with self.assertRaises(mcg.BadGraph) as raised:
                list(mcg.kinds(edges))
            self.assertIn("put it in a list: [edges]", str(raised.exception))
        with self.assertRaises(TypeError):
            mcg.kinds(["C~"], skipped=True)

    def test_all_forms_of_a_graph(self):
        forms = ["C~", b"C~\n", ">>graph6<<C~\r\n", list(itertools.combinations("abcd", 2)), mcg.Graph("C~")]
        self.assertEqual([it.kind for it in mcg.kinds(forms)], ["brick"] * 5)
        self.assertEqual([it.kind for it in mcg.kinds(iter([">>graph6<<\n", "C~\n"]))], ["brick"])
        self.assertEqual(list(mcg.kinds([])), [])
        with self.assertRaises(TypeError):
            next(mcg.kinds("C~"))

    def test_results_come_before_the_list_ends(self):
        """An iterable without an end; its results come while it is read, and closing ends the process."""
        found = mcg.kinds(itertools.repeat("C~"))
        self.assertEqual([next(found).kind for _ in range(1000)], ["brick"] * 1000)
        found.close()

    @mock.patch("mcg.streams.KEPT", 20_000)
    def test_a_long_stream_in_constant_memory(self):
        """100,000 graphs, a quarter of them labelled. Fewer than 40,000 are taken ahead of the results: what the pipes hold. Over the
        last 90,000 the number of objects hardly grows, and the memory by less than 20 MB."""
        texts = ["C~", "Bw", "Ch", "IheA@GUAo", cycle(6), "E~rG", cycle(10), "A_"]
        wanted = ["brick", None, None, "brick", "composite", "composite", "composite", "brace"]
        sent, seen = 0, {}

        def graphs():
            nonlocal sent
            for k in range(100_000):
                sent += 1
                yield texts[k % 8]

        for k, found in enumerate(mcg.kinds(graphs())):
            self.assertEqual(found.kind, wanted[k % 8])
            self.assertLess(sent - k, 40_000)
            if k in (10_000, 99_999):
                seen[k] = sys.getallocatedblocks(), resource.getrusage(resource.RUSAGE_SELF).ru_maxrss
        self.assertEqual(k, 99_999)
        objects, memory = (after - before for before, after in zip(seen[10_000], seen[k]))
        self.assertLess(objects, 10_000)
        self.assertLess(memory, 20_000)

    def test_two_threads(self):
        results = {}

        def ask(name, text, count):
            results[name] = [it.kind for it in mcg.kinds([text] * count)]

        threads = [threading.Thread(target=ask, args=it) for it in ((1, "C~", 3000), (2, "A_", 2000), (3, "E~rG", 1000))]
        for thread in threads:
            thread.start()
        for thread in threads:
            thread.join()
        self.assertEqual(results, {1: ["brick"] * 3000, 2: ["brace"] * 2000, 3: ["composite"] * 1000})

    def test_two_lists_at_once(self):
        pairs = zip(mcg.kinds(["C~"] * 500), mcg.kinds(["A_"] * 500))
        self.assertEqual({(a.kind, b.kind) for a, b in pairs}, {("brick", "brace")})


class Leaves(unittest.TestCase):
    def test_random_graphs(self):
        graphs = drawn(12, 200)
        for order in ("first", "last", "balanced"):
            found = {}
            for leaf in mcg.leaves(graphs, order):
                found.setdefault(leaf.index, []).append(leaf.kind)
                self.assertEqual(leaf.graph, mcg.Graph(graphs[leaf.index]).graph6())
                edges = mcg.Graph(leaf.graph6)
                brute = Brute(edges.vertices, edges.edges)
                self.assertTrue(brute.is_covered() and brute.tight_shore() is None)
            brutes = {k: brute_of(graph) for k, graph in enumerate(graphs)}
            self.assertEqual({k: sorted(it) for k, it in found.items()}, {k: it.kinds() for k, it in brutes.items() if it.is_covered()})

    def test_a_bad_line(self):
        found = []
        with self.assertRaises(mcg.BadGraph) as raised:
            for leaf in mcg.leaves(["E~rG", "Bw", "x!"]):
                found.append(leaf.index)
        self.assertEqual((found, raised.exception.line), ([0, 0], 3))


class Elementary(unittest.TestCase):
    def test_random_graphs(self):
        graphs = drawn(15, 300)
        found = {}
        for it in mcg.elementary(graphs):
            found.setdefault(it.index, []).append(it)
        for index, given in enumerate(graphs):
            with self.subTest(graph=given):
                brute, labels = brute_of(given), mcg.Graph(given).vertices
                allowed = [edge for edge in brute.edges if brute.is_allowed(*edge)]
                parts = Brute(labels, allowed).components() if brute.is_matched() else []
                here = found.get(index, [])
                places = [[labels.index(v) for v in it.vertices] for it in here]
                self.assertEqual(places, sorted(map(sorted, places)))
                named = {frozenset(it.vertices): it for it in here}
                self.assertEqual(set(named), set(map(frozenset, parts)))
                for part, it in named.items():
                    edges = {frozenset(it.vertices[k] for k in edge) for edge in mcg.Graph(it.graph6).edges}
                    self.assertEqual(edges, {edge for edge in allowed if edge <= part})

    def test_no_perfect_matching_and_a_bad_line(self):
        found = []
        with self.assertRaises(mcg.BadGraph) as raised:
            for it in mcg.elementary(["Bw", "Ch", "x!"]):
                found.append((it.index, it.graph6, it.vertices))
        self.assertEqual((found, raised.exception.line), ([(1, "A_", (0, 1)), (1, "A_", (2, 3))], 3))

    def test_labels(self):
        """A labelled graph has its labels, and a text the numbers from 0 that `Graph` has for it."""
        path = [("ä", None), (None, ("x", 1)), (("x", 1), "v")]
        found = [it.vertices for it in mcg.elementary([path, "Ch", mcg.Graph(path), b">>graph6<<Ch\n"])]
        labelled, numbered = [("ä", None), (("x", 1), "v")], [(0, 1), (2, 3)]
        self.assertEqual(found, [*labelled, *numbered, *labelled, *numbered])


class Select(unittest.TestCase):
    def test_random_graphs(self):
        graphs = drawn(13, 300)
        kinds = [brute_of(it).kinds() if brute_of(it).is_covered() else None for it in graphs]
        bicritical = [all(brute_of(it).is_matched(*pair) for pair in itertools.combinations(it[0], 2)) for it in graphs]
        wanted = {
            "covered": [it is not None for it in kinds],
            "uncovered": [it is None for it in kinds],
            "perfect": [brute_of(it).is_matched() for it in graphs],
            "brick": [it == ["brick"] for it in kinds],
            "brace": [it == ["brace"] for it in kinds],
            "composite": [it is not None and len(it) > 1 for it in kinds],
            "bicritical": [it is not None and is_so for it, is_so in zip(kinds, bicritical)],
            "bricks=1": [it is not None and it.count("brick") == 1 for it in kinds],
            "braces=2": [it is not None and it.count("brace") == 2 for it in kinds],
        }
        for what, has in wanted.items():
            self.assertEqual(set(has), {True, False})
            found = list(mcg.select(graphs, what))
            self.assertEqual([id(it) for it in found], [id(it) for it, is_so in zip(graphs, has) if is_so])

    def test_the_graphs_themselves_come_back(self):
        given = [cycle(4), "C~", ">>graph6<<C~\n", cycle(3), "C~"]
        self.assertEqual(list(mcg.select(given, "brick")), ["C~", ">>graph6<<C~\n", "C~"])
        self.assertIs(next(mcg.select(given, "brace")), given[0])

    def test_more_graphs_than_one_process_takes(self):
        draw = random.Random(14)
        given = [draw.choice(["C~", "Bw", "A_", "Ch"]) for _ in range(20_000)]
        self.assertEqual(list(mcg.select(given, "brick")), [it for it in given if it == "C~"])
        self.assertEqual(list(mcg.select(["Bw"] * 16_384, "brick")), [])

    def test_a_bad_line_far_on(self):
        with self.assertRaises(mcg.BadGraph) as raised:
            list(mcg.select(["Bw"] * 10_000 + ["x!"], "brick"))
        self.assertEqual(raised.exception.line, 10_001)
        self.assertIn("graph 10001 of the list", str(raised.exception))

    def test_words_that_are_none(self):
        """Words that mcg6 takes for something else are refused before a program is started, also where a file has that name."""
        with mock.patch.dict("os.environ", {"MCG6": "/nowhere/mcg6", "MCG": "/nowhere/mcg"}):
            for order in ("frist", "skip", "", None, ["first"], b"first"):
                with self.subTest(order=order), self.assertRaises(ValueError):
                    mcg.leaves(["C~"], order)
            for what in ("brik", "skip", "bricks", "bricks=", "bricks=-1", "bricks=1 ", "bricks=1\n", ("bricks",), ("brick", 1), None, 3):
                with self.subTest(what=what), self.assertRaises(ValueError):
                    mcg.select(["C~"], what)
            for order in ("frist", "skip", b"first"):
                with self.subTest(order=order), self.assertRaises(ValueError):
                    mcg.decompose("C~", order)
            for picks in ([-1], ["1\npick 2"], [True], [1.0], [10**9], [0] * 128):
                with self.subTest(picks=picks), self.assertRaises(mcg.BadText):
                    mcg.decompose("C~", picks)

    def test_an_order_that_is_a_file(self):
        with tempfile.TemporaryDirectory() as folder:
            with open(f"{folder}/frist", "w") as file:
                file.write("A_\n")
            before = os.getcwd()
            os.chdir(folder)
            try:
                with self.assertRaises(ValueError) as raised:
                    list(mcg.leaves(["C~"], "frist"))
            finally:
                os.chdir(before)
        self.assertIn("first or last or balanced", str(raised.exception))

    def test_pairs(self):
        self.assertEqual(list(mcg.select(["C~", "E~rG"], ("bricks", 2))), ["E~rG"])
