"""Lists with bad graphs: they are skipped and collected, or end the list with an exception."""
import itertools
import tempfile
import unittest
from unittest import mock

from support import cycle, mcg


class SkippedLines(unittest.TestCase):
    """Bad graphs are left out and collected, whether mcg6 finds the error or the package does."""

    GRAPHS = ["x!", "C~", [(1, 1)], "", "A_", "\ufeffC~", "?" * 70_000, "Ch", cycle(130), "bad"]
    BAD = [1, 3, 4, 6, 7, 9, 10]

    def test_kinds(self):
        skipped = []
        found = [it.kind for it in mcg.kinds(self.GRAPHS, skipped)]
        self.assertEqual(found, ["brick", "brace", None])
        self.assertEqual([it.line for it in skipped], self.BAD)
        self.assertIsInstance(skipped[4], mcg.TooLarge)
        for fault in skipped:
            self.assertIsInstance(fault, mcg.BadGraph)
            self.assertIn(f"graph {fault.line} of the list", str(fault))

    def test_leaves_keep_their_numbers(self):
        skipped = []
        found = [(it.index, it.kind) for it in mcg.leaves(self.GRAPHS, "last", skipped)]
        self.assertEqual(found, [(1, "brick"), (4, "brace")])
        self.assertEqual([it.line for it in skipped], self.BAD)

    def test_select_over_several_processes(self):
        skipped = []
        with mock.patch("mcg.lists.SESSION", 3):
            found = list(mcg.select(self.GRAPHS, "covered", skipped))
        self.assertEqual(found, ["C~", "A_"])
        self.assertEqual([it.line for it in skipped], self.BAD)

    def test_no_bad_graph(self):
        skipped = []
        self.assertEqual([it.kind for it in mcg.kinds(["C~", "A_"], skipped)], ["brick", "brace"])
        self.assertEqual(skipped, [])

    def test_an_iterable_that_fails(self):
        def graphs():
            yield from ["C~", "x!"]
            raise KeyError("mine")

        with self.assertRaises(KeyError):
            list(mcg.kinds(graphs(), []))


class BadLines(unittest.TestCase):
    def asked(self, graphs):
        """The results before the exception, and the exception."""
        found = []
        with self.assertRaises(mcg.BadGraph) as raised:
            for it in mcg.kinds(graphs):
                found.append(it)
        return found, raised.exception

    def test_a_bad_line_in_the_middle(self):
        found, fault = self.asked(["C~", "A_", "x!", "C~"])
        self.assertEqual([it.kind for it in found], ["brick", "brace"])
        self.assertEqual((fault.line, fault.kind), (3, 4))
        self.assertIn("graph 3 of the list", str(fault))

    def test_the_kinds_of_bad_lines(self):
        """Of each bad text the kind is the one that `mcg analyse6` has, by which FORMATS counts."""
        texts = ["", "x!", ":An", "\ufeffC~", "~??", "~~????", "~??C" + "?" * 9, "~?A_", "C", "C~~", "CF~", "B~", "~?C@" + "~" * 3000, "é"]
        with tempfile.TemporaryDirectory() as folder:
            for text in texts:
                with self.subTest(text=text[:20]):
                    with open(f"{folder}/text", "w", encoding="utf-8") as file:
                        file.write(text)
                    status, report = self.analyse6(f"{folder}/text")
                    self.assertEqual(status, 4)
                    found, fault = self.asked(["C~", text, "C~"])
                    self.assertEqual((len(found), fault.line), (1, 2))
                    self.assertEqual(report.split()[-1], str(fault.kind))
                    self.assertEqual(isinstance(fault, mcg.TooLarge), fault.kind == 6)

    def analyse6(self, path):
        from mcg import programs

        ran = programs.subprocess.run([programs.program("mcg"), "analyse6", path], capture_output=True)
        return ran.returncode, ran.stdout.decode().strip()

    def test_a_graph_that_is_too_large(self):
        found, fault = self.asked(["C~", cycle(130), "C~"])
        self.assertEqual((len(found), fault.line, type(fault)), (1, 2, mcg.TooLarge))
        self.assertEqual(self.asked(["C~", (range(300_000), [])])[1].kind, 6)
        dense = list(itertools.combinations(range(128), 2))
        self.assertEqual(self.asked([dense])[1].kind, 6)

    def test_what_is_no_graph(self):
        for bad in ([(1, 1)], 7, "C~\nC~", [(1, 2, 3, 4)]):
            found, fault = self.asked(["C~", "A_", bad, "C~"])
            self.assertEqual((len(found), fault.line), (2, 3))

    def test_an_iterable_that_fails(self):
        def graphs():
            yield "C~"
            yield "A_"
            raise KeyError("here")

        found = []
        with self.assertRaises(KeyError):
            for it in mcg.kinds(graphs()):
                found.append(it.kind)
        self.assertEqual(found, ["brick", "brace"])
