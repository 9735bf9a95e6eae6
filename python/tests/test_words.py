"""What str() says of refusals and exceptions is what the command line says, in the caller's labels."""
import os
import random
import re
import subprocess
import tempfile
import unittest
from itertools import combinations

from support import covered, cycle, drawn, mcg

from mcg.labels import shown
from test_answers import wrong_ears


def said(command, files):
    """What the program writes to standard error of these files, without its name."""
    with tempfile.TemporaryDirectory() as folder:
        for name, text in files.items():
            with open(f"{folder}/{name}", "w") as file:
                file.write(text)
        ran = subprocess.run([os.path.abspath(os.environ["MCG"]), command, *files], cwd=folder, capture_output=True, text=True)
    return ran.stdout, re.sub("^mcg: ", "", ran.stderr.strip())


def in_labels(report, words, graph):
    """The words with labels for the numbers, and with what the report shows."""

    def vertices(text):
        return shown(graph.labels(map(int, text.split())))

    numbers = report.split("\n")[0].split(" ")
    if "matching" in numbers:
        edges = ", ".join(shown(graph.edge(int(k))) for k in numbers[numbers.index("matching") + 1 :])
        words = words.replace("the perfect matching shown", f"the perfect matching {edges}")
    if "cut" in numbers:
        words = words.replace("the shore shown", f"the shore {vertices(' '.join(numbers[numbers.index('cut') + 1 :]))}")
    if "berge" in numbers:
        words = words.replace("the vertices shown", f"the vertices {vertices(' '.join(numbers[3:]))}")
        words = re.sub("matching: deleting the vertices {} .*", "matching, as the number of its vertices is odd", words)
    words = re.sub(", shore((?: [0-9]+)+)", lambda it: f", shore {vertices(it[1])}", words)
    words = re.sub(r"\bedge ([0-9]+)", lambda it: f"edge {shown(graph.edge(int(it[1])))}", words)
    return re.sub("vertex ([0-9]+)", lambda it: f"vertex {shown(graph.label(int(it[1])))}", words)


def each_ear_fault(labels):
    """K4 on four labels, with lists of ears that are refused, so that each of the seven reasons comes."""
    a, b, c, d = labels
    graph = (list(labels), list(combinations(labels, 2)))
    round_a_b = (mcg.Ear(a, ((a, d), (c, d), (b, c))),)
    refused = [
        [mcg.Ear(a, ((b, c),))],  # no path from a
        [mcg.Ear(a, ((a, c), (c, d)))],  # an even number of edges
        [mcg.Ear(a, ((a, c), (b, c), (a, b)))],  # the ends are the same
        [mcg.Ear(a, ((a, c), (c, d), (b, d)))],  # c and d are on the cycle
        [mcg.Ear(a, ((a, b),))],  # an edge of the cycle
        [mcg.Ear(a, ((a, c),))],  # in no perfect matching of what is there
    ]
    yield from ((graph, mcg.Ears((a, b), [round_a_b, tuple(step)])) for step in refused)
    yield graph, mcg.Ears((a, b), [round_a_b])  # two edges are left
    outside = mcg.Ear(a, ((a, c),))
    yield graph, mcg.Ears((a, b), [(outside,)])  # an end that is not there


class Words(unittest.TestCase):
    def compare(self, command, graph, found, **files):
        numbered = mcg.Graph(graph)
        report, words = said(command, {"graph": numbered.to_text(), **files})
        wanted = in_labels(report, words, numbered)
        if command == "check":
            wanted = re.sub("^tree 1 is", "the tree is", wanted)
        elif command == "replay":
            wanted = re.sub("^tree 1 is", "the tree is", wanted)
        self.assertEqual(str(found), wanted)
        return re.sub("[0-9]+.*", "", report.split("\n")[0]) + (re.findall("why [0-9]", report) or [""])[0]

    def test_trees(self):
        draw, seen = random.Random(51), {}
        for graph in covered(51, 30):
            vertices, numbered = graph[0], mcg.Graph(graph)
            tree = mcg.decompose(graph, "last").tree
            trees = [mcg.Leaf()]
            for _ in range(3):
                shore = frozenset(draw.sample(vertices, draw.randrange(1, len(vertices))))
                trees += [mcg.Cut(shore, mcg.Leaf(), mcg.Leaf())]
                if isinstance(tree, mcg.Cut):
                    below = mcg.Cut(shore, mcg.Leaf(), mcg.Leaf())
                    trees += [mcg.Cut(tree.shore, below, tree.merged), mcg.Cut(tree.shore, tree.kept, below)]
            for it in trees:
                found = mcg.check(graph, it)
                if not found:
                    text = mcg.Decomposition(numbered, it).to_text()
                    with self.subTest(graph=graph, text=text):
                        key = self.compare("check", graph, found, tree=text)
                        seen[key] = seen.get(key, 0) + 1
        self.assertEqual({key[-1] for key in seen}, set("12345"))
        print(f"words of trees compared: {sum(seen.values())}")

    def test_ears(self):
        draw, seen = random.Random(52), {}
        lists = [(graph, listed) for graph in covered(52, 30) for listed in wrong_ears(graph, draw)]
        for graph, listed in [*lists, *each_ear_fault("abcd"), *each_ear_fault([None, "", ("x", 1), -7])]:
            found = mcg.check_ears(graph, listed)
            if not found:
                with self.subTest(graph=graph, text=listed.to_text(graph)):
                    key = self.compare("checkears", graph, found, ears=listed.to_text(graph))
                    seen[key] = seen.get(key, 0) + 1
        self.assertEqual({key[-1] for key in seen}, set("1234567"), seen)
        print(f"words of ears compared: {sum(seen.values())}")

    def test_moves(self):
        draw, seen, stuck = random.Random(53), {}, set()
        for graph in covered(53, 40):
            vertices, tree = graph[0], mcg.decompose(graph, "last")
            for _ in range(5):
                path = "".join(draw.choice("km") for _ in range(draw.randrange(3)))
                sets = [frozenset(draw.sample(vertices, draw.choice([1, 1, 1, 2]))) for _ in range(2)]
                moves = mcg.Moves([draw.choice([mcg.Rotate(path), mcg.Switch(path, *sets), mcg.Switch("", *sets)])])
                found = mcg.replay(graph, tree, moves)
                if not found:
                    stuck.add(found.stuck)
                    with self.subTest(graph=graph, moves=moves):
                        key = self.compare("replay", graph, found, tree=tree.to_text(), moves=moves.to_text(graph))
                        seen[key] = seen.get(key, 0) + 1
        self.assertGreaterEqual(len(seen), 3)
        self.assertEqual(stuck, {None, "no cut", "not parts"})  # (no shores of a decomposition cross)
        print(f"words of moves compared: {sum(seen.values())}")

    def test_graphs_that_are_not_covered(self):
        reasons = set()
        for graph in drawn(54, 80):
            try:
                mcg.decompose(graph)
            except mcg.NotCovered as why:
                reasons.add(why.reason)
                leaf = f"t mcg {mcg.Graph(graph).order}\nleaf\n"
                for it in (why, mcg.check(graph, mcg.Leaf()), mcg.replay(graph, mcg.Leaf(), [])):
                    self.compare("check", graph, it, tree=leaf)
        self.assertEqual(reasons, {"order", "parts", "berge", "edge"})

    def test_a_tree_of_compare(self):
        with self.assertRaises(mcg.NotADerivation) as raised:
            mcg.compare(cycle(6), mcg.decompose(cycle(6)), mcg.Leaf())
        wanted = "tree 2 is not a tight cut decomposition; at node 1 (in preorder; path .): it is a leaf, but the cut of the shore {1, 2, 3}"
        self.assertEqual(str(raised.exception)[: len(wanted)], wanted)

    def test_no_lines_of_files(self):
        """No message speaks of a line of a file that the caller never wrote, and none has the name of one."""
        path = ["a", "b", "c", "d"]
        graph, deep = list(zip(path, path[1:])), mcg.Leaf()
        for _ in range(64):
            deep = mcg.Cut(frozenset("a"), deep, mcg.Leaf())
        whole = mcg.Ear("a", ())
        cases = [
            (mcg.TooLarge, lambda: mcg.analyse(cycle(129))),
            (mcg.TooLarge, lambda: mcg.analyse([(0, 1, k) for k in range(2049)])),
            (mcg.BadText, lambda: mcg.check(graph, deep)),
            (mcg.BadText, lambda: mcg.check(graph, mcg.Cut(frozenset(), mcg.Leaf(), mcg.Leaf()))),
            (mcg.BadText, lambda: mcg.check(graph, mcg.Cut(frozenset("abcd"), mcg.Leaf(), mcg.Leaf()))),
            (mcg.BadText, lambda: mcg.check_ears(graph, mcg.Ears(graph[0], [(whole,)]))),
            (mcg.BadText, lambda: mcg.check_ears(graph, mcg.Ears(graph[0], [()]))),
            (mcg.BadText, lambda: mcg.check_ears(graph, mcg.Ears(graph[0], [(mcg.Ear("a", tuple(graph) * 180_000),)]))),
            (mcg.BadText, lambda: mcg.replay(graph, mcg.Leaf(), [mcg.Rotate("k")] * 20_001)),
            (mcg.BadText, lambda: mcg.replay(graph, mcg.Leaf(), [mcg.Rotate("k\nrotate m")])),
            (mcg.BadText, lambda: mcg.replay(graph, mcg.Leaf(), [mcg.Rotate("k" * 128)])),
            (mcg.BadText, lambda: mcg.replay(graph, mcg.Leaf(), [mcg.Switch("", frozenset(), frozenset("a"))])),
            (mcg.BadText, lambda: mcg.replay(graph, mcg.Leaf(), ["rotate k"])),
            (mcg.BadText, lambda: mcg.decompose(graph, [0] * 128)),
            (TypeError, lambda: mcg.check(graph, "t mcg 4\nleaf\n")),
            (TypeError, lambda: mcg.check(graph, None)),
            (TypeError, lambda: mcg.Decomposition(graph, "t mcg 4\nleaf\n")),
            (TypeError, lambda: mcg.compare(graph, "t mcg 4\nleaf\n", mcg.Leaf())),
            (TypeError, lambda: mcg.check_ears(graph, "r mcg 4 3\nstart 1\n")),
            (TypeError, lambda: mcg.replay(graph, mcg.Leaf(), "m mcg 4\n")),
            (mcg.BadGraph, lambda: mcg.analyse([("a", "b", {"weight": 1})])),
            (mcg.BadGraph, lambda: mcg.analyse([("a", "b", "key", {"weight": 1})])),
            (mcg.BadGraph, lambda: mcg.analyse("p mcg 2 1\ne 1 2\n")),
        ]
        for kind, call in cases:
            with self.subTest(kind=kind), self.assertRaises(kind) as raised:
                call()
            self.assertNotRegex(str(raised.exception), r"line [0-9]|file [0-9]|/")
            self.assertGreater(len(str(raised.exception)), 20)
