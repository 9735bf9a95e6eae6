"""Matchings, tight cuts and ears of lists: in labels, streamed, with bad graphs left out.

They are tried with a stand-in for mcg6, which answers the three words by brute force, and with the program itself where it has the words.
"""
import json
import os
import pickle
import random
import sys
import tempfile
import unittest
from dataclasses import replace
from unittest import mock

import brute_lists
from support import HERE, brute_of, covered, cycle, drawn, mcg, program_of
from test_verify_lists import NEW, knows

import mcg.verify


def stand_in(folder):
    """A stand-in for mcg6, which hands all other words on."""
    real = mock.patch.dict(os.environ, {"REAL_MCG6": os.path.abspath(os.environ["MCG6"])})
    return real, program_of(folder, f'exec "{sys.executable}" "{HERE}/brute_lists.py" "$@"')


class Structures:
    """The tests, with either program."""

    def test_matchings(self):
        graphs = drawn(81, 60)
        found = list(mcg.matchings(graphs))
        self.assertEqual([it.index for it in found], list(range(len(graphs))))
        for graph, it in zip(graphs, found):
            with self.subTest(graph=graph):
                brute, edges = brute_of(graph), mcg.Graph(graph).edges
                self.assertEqual(len(it), brute.largest(brute.whole))
                self.assertEqual(it.deficiency, len(brute.vertices) - 2 * len(it))
                ends = [v for edge in it for v in edge[:2]]
                self.assertEqual(len(set(ends)), len(ends))
                for edge in it:  # (of parallel edges the first)
                    self.assertEqual(edge, next(other for other in edges if set(other[:2]) == set(edge[:2])))
                missed = brute.missed()
                near = {w for v in missed for w in brute.near[v]} - missed
                self.assertEqual((it.D, it.A, it.C), (missed, near, brute.whole - missed - near))
                self.assertIs(it.given, graph)
                self.assertEqual(it.graph, mcg.Graph(graph))

    def test_cuts(self):
        graphs = drawn(82, 40) + covered(83, 15)
        found = {}
        for it in mcg.cuts(graphs):
            found.setdefault(it.index, []).append(it)
        count = 0
        for k, graph in enumerate(graphs):
            numbered = mcg.Graph(graph)
            due = [row.split(" ")[2:] for row in brute_lists.cut_lines(1, numbered.graph6())]
            wanted = [(origin, {numbered.label(int(it)) for it in numbers}) for origin, *numbers in due]
            with self.subTest(graph=graph):
                self.assertEqual([(it.origin, it.shore) for it in found.get(k, [])], wanted)
            count += len(wanted)
        self.assertGreater(count, 20)

    def test_ears(self):
        graphs = drawn(84, 40)
        found = {it.index: it for it in mcg.ears_of(graphs)}
        self.assertEqual(set(found), {k for k, graph in enumerate(graphs) if brute_of(graph).is_covered()})
        for k, it in found.items():
            with self.subTest(graph=graphs[k]):
                simple = it.ears.graph
                self.assertEqual(simple.graph6(), it.graph6)
                self.assertLessEqual(set(simple.edges), set(mcg.Graph(graphs[k]).edges))
                self.assertTrue(mcg.check_ears(simple, it.ears))

    def test_one_graph(self):
        hexagon = [(a, b) for a, b in zip("abcdef", "bcdefa")]
        self.assertEqual(len(mcg.matching(hexagon)), 3)
        self.assertEqual([(it.origin, set(it.shore)) for it in mcg.tight_cuts(hexagon)], [("flow", set(it)) for it in ("bcd", "cde", "abc")])
        self.assertEqual(mcg.tight_cuts("C~"), [])
        with self.assertRaises(mcg.NotCovered):
            mcg.tight_cuts([("a", "b"), ("b", "c")])
        with self.assertRaises(mcg.BadGraph):
            mcg.matching([("a", "a")])
        self.assertEqual(len(mcg.matching([("a", "b", 1), ("b", "a", 2)])), 1)
        self.assertEqual(mcg.matching(iter([("a", "b")])).edges, [("a", "b")])

    def test_bad_graphs(self):
        graphs = ["C~", "x!", [(1, 1)], "EhEG", ""]
        for asked, wanted in ((mcg.matchings, [0, 3]), (mcg.cuts, [3, 3, 3]), (mcg.ears_of, [0, 3])):
            with self.subTest(asked=asked.__name__):
                bad, found = [], []
                self.assertEqual([it.index for it in asked(graphs, skipped=bad)], wanted)
                self.assertEqual([(it.line, it.kind) for it in bad], [(2, 4), (3, 5), (5, 7)])
                with self.assertRaises(mcg.BadGraph) as raised:
                    for it in asked(graphs):
                        found.append(it.index)
                self.assertEqual((raised.exception.line, found), (2, [0] if 0 in wanted else []))
                with self.assertRaises(TypeError):
                    asked("C~")
                self.assertEqual([it.index for it in asked(["C~", "EhEG"] * 20, processes=2)], [it.index for it in asked(["C~", "EhEG"] * 20)])

    def test_dicts_and_pickles(self):
        for graph in covered(85, 10):
            numbered = mcg.Graph(graph)
            for it in [mcg.matching(graph), *mcg.tight_cuts(graph), *mcg.ears_of([graph])]:
                made = it.to_dict()
                plain = json.loads(json.dumps({**made, "vertices": list(map(repr, made["vertices"]))}))
                for given in (made, plain):
                    self.assertEqual(type(it).from_dict(given, numbered), it)
                again = pickle.loads(pickle.dumps(it))
                self.assertEqual((again, repr(again), str(again), hash(again)), (it, repr(it), str(it), hash(it)))
                with self.assertRaises(mcg.BadText):
                    type(it).from_dict({"index": 0}, graph)
                with self.assertRaises(mcg.BadText):
                    type(it).from_dict(made, cycle(9))

    def test_lines_that_are_none(self):
        """A program that writes something else: ProgramFailed."""
        lines = {
            mcg.matchings: ["", "C~", "C~ 2 1-2 3-4", "C~ 1 1-5 D A C", "C~ 2 1-2 3-4 D A C 5", "C^ 0 D A C", "C~ 0 D C A", "C~ x D A C"],
            mcg.cuts: ["", "1 C~", "2 C~ flow 1 2 3", "1 C~ flow", "1 C~ other 1 2 3", "1 C^ flow 1 2 3", "1 C~ flow 9"],
            mcg.ears_of: ["", "1 C~", "1 C~ 0 0", "2 C~ 0 0 1-2", "1 C~ 0 1 1-2", "1 C~ 1 0 1-2 1-9", "1 C^ 0 0 1-2", "1 C~ 0 0 1-5"],
        }
        for asked, rows in lines.items():
            for row in rows:
                with self.subTest(row=row), tempfile.TemporaryDirectory() as folder, program_of(folder, f"cat >/dev/null; echo '{row}'"):
                    with self.assertRaises(mcg.ProgramFailed):
                        list(asked(["C~"]))


    def test_the_second_opinion(self):
        """It agrees with the answers, and contradicts each that was changed."""
        graphs = [*drawn(87, 12), "C~", "EhEG", "Cs"]
        matchings, cuts, ears = list(mcg.matchings(graphs)), list(mcg.cuts(graphs)), list(mcg.ears_of(graphs))
        mcg.verify.matchings(graphs, matchings)
        mcg.verify.cuts(graphs, cuts)
        mcg.verify.ears_of(graphs, ears)
        for judge, answers in ((mcg.verify.matchings, matchings), (mcg.verify.cuts, cuts), (mcg.verify.ears_of, ears)):
            for wrong in (answers[1:], answers[:-1], [*answers, answers[-1]], [replace(answers[0], index=answers[0].index + 1), *answers[1:]]):
                with self.subTest(judge=judge.__name__), self.assertRaises(mcg.verify.Wrong):
                    judge(graphs, wrong)
        star, hexagon, cube = matchings[-1], cuts[-1], ears[-1]
        for judge, answers, wrong in (
            (mcg.verify.matchings, matchings, replace(star, A=star.D)), (mcg.verify.matchings, matchings, replace(star, edges=[])),
            (mcg.verify.cuts, cuts, replace(hexagon, origin="barrier")), (mcg.verify.cuts, cuts, replace(hexagon, shore=frozenset([0, 1, 5]))),
            (mcg.verify.ears_of, ears, replace(cube, ears=mcg.Ears(cube.ears.start, cube.ears.steps[1:], cube.ears.graph))),
        ):
            with self.assertRaises(mcg.verify.Wrong):
                judge(graphs, [*answers[:-1], wrong])


class WithStandIn(Structures, unittest.TestCase):
    def setUp(self):
        room = tempfile.TemporaryDirectory()
        self.addCleanup(room.cleanup)
        for it in stand_in(room.name):
            it.start()
            self.addCleanup(it.stop)


class WithProgram(Structures, unittest.TestCase):
    def setUp(self):
        lost = [word for word in NEW if not knows(word)]
        if lost:
            self.skipTest(f"mcg6 does not know {', '.join(lost)}")


class Streams(unittest.TestCase):
    def test_more_graphs_than_one_process_takes(self):
        """Each graph keeps its place where a new process begins."""
        draw = random.Random(86)
        given = [draw.choice(["C~", "Bw", "EhEG"]) for _ in range(60)]
        with tempfile.TemporaryDirectory() as folder, mock.patch("mcg.list_cuts.SESSION", 16):
            with stand_in(folder)[0], stand_in(folder)[1]:
                found = [it.index for it in mcg.cuts(given)]
        self.assertEqual(found, [k for k, text in enumerate(given) if text == "EhEG" for _ in range(3)])
