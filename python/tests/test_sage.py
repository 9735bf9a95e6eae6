"""Graphs of Sage, by a stand-in and by Sage itself: what is read of them, and what the programs say of them."""
import shutil
import subprocess
import unittest

from support import ROOT, brute_of, covered, drawn, mcg


class SageGraph:
    """A stand-in with the methods of Sage's graphs that the package calls, with their default arguments."""

    def __init__(self, vertices, edges, multiple=False, directed=False):
        self._vertices, self._edges, self._multiple, self._directed = vertices, edges, multiple, directed

    def is_directed(self):
        return self._directed

    def allows_multiple_edges(self):
        return self._multiple

    def vertex_iterator(self, vertices=None, degree=None, vertex_property=None):
        return iter(self._vertices)

    def edge_iterator(self, vertices=None, labels=True, ignore_direction=False, sort_vertices=True):
        return iter(self._edges if labels else [it[:2] for it in self._edges])

    def vertices(self, sort=True):
        return sorted(self._vertices) if sort else list(self._vertices)


class Sage(unittest.TestCase):
    def test_vertices_and_edges(self):
        simple = mcg.Graph(SageGraph(["a", 2, (3,)], [("a", 2, None), (2, (3,), "label")]))
        self.assertEqual((simple.vertices, simple.edges), (("a", 2, (3,)), (("a", 2), (2, (3,)))))
        told = mcg.Graph(SageGraph("ab", [("a", "b", "x"), ("a", "b", "y")], multiple=True))
        self.assertEqual(told.edges, (("a", "b", "x"), ("a", "b", "y")))
        alike = mcg.Graph(SageGraph("abc", [("a", "b", None), ("a", "b", None), ("b", "c", None)], multiple=True))
        self.assertEqual(alike.edges, (("a", "b", 0), ("a", "b", 1), ("b", "c", 0)))
        with self.assertRaises(mcg.BadGraph):
            mcg.Graph(SageGraph("ab", [("a", "b", None)], directed=True))

    def test_analyse_and_kinds(self):
        graphs = drawn(31, 40)
        sage = [SageGraph(*graph, multiple=True) for graph in graphs]
        for (vertices, edges), made, kind in zip(graphs, sage, mcg.kinds(sage)):
            with self.subTest(graph=edges):
                brute, found = brute_of((vertices, edges)), mcg.analyse(made)
                self.assertEqual((found.order, found.size), (len(vertices), len(edges)))
                self.assertEqual(found.allowed, [edge for edge in edges if brute.is_allowed(*edge[:2])])
                self.assertEqual((found.D, found.covered), (brute.missed(), brute.is_covered()))
                self.assertEqual((kind.order, kind.size, kind.covered), (len(vertices), len(brute.edges), found.covered))
                self.assertEqual((kind.reason, kind.kind), (found.reason, found.kind))

    def test_decompose(self):
        for vertices, edges in covered(32, 15):
            with self.subTest(graph=edges):
                found = mcg.decompose(SageGraph(vertices, edges, multiple=True))
                self.assertEqual(sorted(leaf.kind for leaf in found.leaves), brute_of((vertices, edges)).kinds())
                self.assertEqual(found, mcg.decompose((vertices, edges)))
                for leaf in found.leaves:
                    self.assertEqual(frozenset().union(*leaf.blocks), frozenset(vertices))
                    self.assertLessEqual({edge for listed in leaf.edges.values() for edge in listed}, set(edges))

    def test_a_simple_graph(self):
        """Its edges have labels, which are not keys."""
        for vertices, edges in covered(33, 15, parallel=False):
            sage = SageGraph(vertices, [(u, v, "label") for u, v in edges])
            self.assertEqual(mcg.analyse(sage).allowed, edges)
            found = mcg.decompose(sage)
            self.assertEqual(sorted(leaf.kind for leaf in found.leaves), brute_of((vertices, edges)).kinds())
            self.assertLessEqual({edge for leaf in found.leaves for listed in leaf.edges.values() for edge in listed}, set(edges))

    def test_parallel_edges_without_labels(self):
        edges = [("a", "b", None), ("b", "c", None), ("c", "d", None), ("d", "a", None), ("b", "a", None)]
        found = mcg.decompose(SageGraph("abcd", edges, multiple=True))
        self.assertEqual([leaf.kind for leaf in found.leaves], ["brace"])
        self.assertEqual(found.leaves[0].edges[frozenset([frozenset("a"), frozenset("b")])], [("a", "b", 0), ("b", "a", 1)])


def python_with_sage():
    """How Python is called so that it can import Sage: `sage -python`, or Debian's Python. None if there is neither."""
    words = [["sage", "-python"]] if shutil.which("sage") else []
    for asked in [*words, ["/usr/bin/python3"]]:
        if shutil.which(asked[0]) and not subprocess.run([*asked, "-c", "import sage.all"], capture_output=True).returncode:
            return asked
    return None


class RealSage(unittest.TestCase):
    def test_with_sage(self):
        python = python_with_sage()
        if python is None:
            self.skipTest("Sage is not there")
        ran = subprocess.run([*python, f"{ROOT}/python/tests/with_sage.py"], capture_output=True, text=True, timeout=900)
        self.assertEqual(ran.returncode, 0, ran.stderr)
        self.assertRegex(ran.stdout.splitlines()[-1], "^sage: [0-9]+ graphs there and back, [0-9]+ structures, [0-9]+ decompositions, [0-9]+ more$")
