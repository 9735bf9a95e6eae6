"""The second opinion: it agrees with every report, and contradicts reports that were changed."""
import io
import os
import random
import re
import subprocess
import tempfile
import time
import unittest
from contextlib import redirect_stderr, redirect_stdout
from dataclasses import replace
from itertools import product

from support import ROOT, covered, cycle, drawn, mcg

import mcg.verify
import mcg.verify.__main__ as program
from mcg import report_texts
from mcg.programs import run
from mcg.verify import Wrong

EXAMPLES = f"{ROOT}/examples"
# The commands, the files after the graph, and their words.
COMMANDS = {
    "analyse": ([], []),
    "decompose": ([], ["last"]),
    "check": (["tree"], []),
    "ears": ([], []),
    "checkears": (["ears"], []),
    "compare": (["tree", "other"], []),
    "script": (["tree", "other"], []),
    "replay": (["tree", "moves"], []),
}


def text(command, names, words, files):
    """The report of a command."""
    return "\n".join(run(command, ["graph", *names, *words], files)[1]) + "\n"


def files_of(graph, draw):
    """The files for all commands on a graph that is matching covered."""
    numbered = mcg.Graph(graph)
    first = mcg.decompose(numbered, [draw.randrange(5) for _ in range(4)])
    second = mcg.decompose(numbered, [draw.randrange(5) for _ in range(4)])
    return {
        "graph": numbered.to_text(),
        "tree": first.to_text(),
        "other": second.to_text(),
        "ears": mcg.ears(numbered).to_text(numbered),
        "moves": mcg.script(numbered, first, second).to_text(numbered),
    }


def spoiled(draw, report):
    """The report with one number changed, one line dropped or exchanged, or one word changed."""
    lines = report.splitlines()
    k = draw.randrange(len(lines))
    words = re.split("([ ,])", lines[k])
    spots = [i for i, word in enumerate(words) if word.isdigit()]
    if spots and draw.randrange(4):
        i = draw.choice(spots)
        words[i] = str(max(0, int(words[i]) + draw.choice([-2, -1, 1, 2])))
        lines[k] = "".join(words)
    elif draw.randrange(2):
        other = draw.choice(["yes", "no", "brick", "brace", "none", "leaf"])
        lines[k] = " ".join([*lines[k].split()[:-1], other])
    else:
        del lines[k]
    return "\n".join(lines) + "\n"


def text_of(decomposition):
    """The report of `decompose` with a tree."""
    return "\n".join(report_texts.decompose_lines(decomposition)) + "\n"


def trees_of_a_cycle(around, graph):
    """All tight cut decompositions of a cycle, given by its blocks in their order. Each cut parts two paths of odd length."""
    blocks = [frozenset([it]) if isinstance(it, int) else it for it in around]
    count, found = len(blocks), False
    for size in range(3, count - 2, 2):
        for start in range(count):
            path = [(start + k) % count for k in range(size)]
            if count - 1 in path:  # this block has the last vertex
                continue
            shore, other = (frozenset().union(*(blocks[k] for k in part)) for part in (path, [k for k in range(count) if k not in path]))
            kept = [blocks[k] for k in path] + [other]
            after = [(start + size + k) % count for k in range(count - size)]
            merged = [blocks[k] for k in after] + [shore]
            for one, two in product(trees_of_a_cycle(turned(kept), graph), trees_of_a_cycle(turned(merged), graph)):
                found = True
                yield mcg.Cut(shore, one, two)
    if not found:
        yield mcg.Leaf()


def turned(blocks):
    """The blocks of a cycle with that of the last vertex at the end."""
    at = max(range(len(blocks)), key=lambda k: max(blocks[k]))
    return blocks[at + 1 :] + blocks[: at + 1]


class Agrees(unittest.TestCase):
    def test_reports_on_random_graphs(self):
        draw = random.Random(31)
        for graph in covered(31, 60):
            files = files_of(graph, draw)
            for command, (names, words) in COMMANDS.items():
                with self.subTest(graph=graph, command=command):
                    report = text(command, names, words, files)
                    asked = mcg.verify.report(files["graph"], report, *(files[it] for it in names))
                    self.assertEqual(asked, command)

    def test_results_in_labels(self):
        draw = random.Random(32)
        for graph in drawn(32, 120):
            analysis = mcg.analyse(graph)
            mcg.verify.analyse(graph, analysis)
            if not analysis.covered:
                mcg.verify.check(graph, mcg.Leaf(), mcg.check(graph, mcg.Leaf()))
                continue
            trees = [mcg.decompose(graph, [draw.randrange(5) for _ in range(4)]) for _ in range(2)]
            mcg.verify.decompose(graph, trees[0])
            mcg.verify.check(graph, trees[0].tree, mcg.check(graph, trees[0].tree))
            mcg.verify.check(graph, mcg.Leaf(), mcg.check(graph, mcg.Leaf()))
            listed = mcg.ears(graph)
            mcg.verify.ears(graph, listed)
            mcg.verify.check_ears(graph, listed, mcg.check_ears(graph, listed))
            mcg.verify.compare(graph, mcg.compare(graph, *trees))
            moves = mcg.script(graph, *trees)
            mcg.verify.replay(graph, trees[0], moves, mcg.replay(graph, trees[0], moves))

    def test_refusals(self):
        """Files that were changed: what is said of them is what the definitions say."""
        draw, seen = random.Random(33), set()
        for graph in covered(33, 150):
            files = files_of(graph, draw)
            for command, name in (("check", "tree"), ("checkears", "ears"), ("replay", "moves")):
                changed = {**files, name: spoiled(draw, files[name])}
                names = COMMANDS[command][0]
                try:
                    report = text(command, names, [], changed)
                except mcg.BadInput:
                    continue
                with self.subTest(graph=graph, command=command, changed=changed[name]):
                    mcg.verify.report(files["graph"], report, *(changed[it] for it in names))
                seen.add(re.sub("[0-9]+", "#", report.split("\n")[0])[:16])
        self.assertGreaterEqual(len(seen), 5)

    def test_uncovered_graphs(self):
        for graph in drawn(34, 60):
            if not mcg.analyse(graph).covered:
                numbered = mcg.Graph(graph)
                status, report = run("decompose", ["graph", "first"], {"graph": numbered.to_text()})
                self.assertEqual(status, 1)
                self.assertEqual(mcg.verify.report(numbered.to_text(), report[0] + "\n"), "verdict")


class Orders(unittest.TestCase):
    """Which candidate each cut is."""

    def test_each_order(self):
        """Each tree passes with its own order, and with another only if that gives the same one."""
        draw, passed, refused = random.Random(36), 0, 0
        for graph in covered(36, 60):
            orders = ["first", "last", "balanced", *([draw.randrange(7) for _ in range(draw.randrange(1, 4))] for _ in range(3))]
            trees = [mcg.decompose(graph, order) for order in orders]
            for k, order in enumerate(orders):
                for tree in trees:
                    if tree == trees[k]:
                        mcg.verify.decompose(graph, tree, order)
                        passed += 1
                    else:
                        self.assertRaises(Wrong, mcg.verify.decompose, graph, tree, order)
                        mcg.verify.decompose(graph, tree)
                        refused += 1
        self.assertGreater(min(passed, refused), 100)
        self.assertRaises(ValueError, mcg.verify.decompose, graph, trees[0], "frist")

    def test_larger_graphs(self):
        count = 0
        for seed, pieces in ((1, 8), (2, 12), (3, 16)):
            text = subprocess.run([os.environ["MCG"], "grow", str(seed), str(pieces)], capture_output=True, text=True, check=True).stdout
            graph = mcg.Graph.from_text(text)
            for order in ("first", "last", "balanced", [5, 0, 7, 1, 2]):
                mcg.verify.decompose(graph, mcg.decompose(graph, order), order)
                count += 1
        self.assertEqual(count, 12)

    def test_trees_that_no_picks_give(self):
        """Of the 24 decompositions of a cycle of length 8, picks reach 15, as FORMATS says: the others are tight cut
        decompositions, and no reports of `decompose`."""
        numbered, reached, others = mcg.Graph(cycle(8)), set(), set()
        for picks in product(range(8), range(4), range(4)):
            reached.add(mcg.decompose(numbered, picks))
        for tree in trees_of_a_cycle(range(8), numbered):
            found = mcg.Decomposition(numbered, tree, ["brace"] * 3)
            mcg.verify.decompose(numbered, found)
            report = text_of(found)
            if found in reached:
                mcg.verify.report(numbered.to_text(), report)
            else:
                self.assertRaisesRegex(Wrong, "none of the [0-9]+ candidates", mcg.verify.report, numbered.to_text(), report)
                others.add(found)
        self.assertEqual((len(reached), len(others)), (15, 9))

    def test_a_report_and_its_order(self):
        """The report of one order is not one of another, unless they are the same; picks count up to the last cut."""
        draw, refused = random.Random(37), 0
        for graph in covered(37, 30):
            files = {"graph": mcg.Graph(graph).to_text(), "picks": mcg.Picks([draw.randrange(9) for _ in range(3)]).to_text()}
            said = {it: text("decompose", [], [it], files) for it in ("first", "last", "balanced")}
            said["picks"] = text("decompose", [], ["script", "picks"], files)
            for order, name in product(("first", "last", "balanced", "picks"), said):
                how = {"order": order} if order != "picks" else {}
                more = [files["picks"]] if order == "picks" else []
                if said[name] == said[order]:
                    self.assertEqual(mcg.verify.report(files["graph"], said[name], *more, **how), "decompose")
                else:
                    self.assertRaises(Wrong, mcg.verify.report, files["graph"], said[name], *more, **how)
                    refused += 1
        self.assertGreater(refused, 30)
        for how in ({"order": "frist"}, {"order": "first", "more": [files["picks"]]}):
            self.assertRaises(ValueError, mcg.verify.report, files["graph"], said["first"], *how.pop("more", []), **how)
        self.assertRaises(ValueError, mcg.verify.report, files["graph"], text("analyse", [], [], files), order="first")


class Contradicts(unittest.TestCase):
    def test_changed_reports(self):
        """Of the reports that were changed, those that still say something pass only if they are as before."""
        draw, counts = random.Random(35), {}
        for graph in covered(35, 60):
            files = files_of(graph, draw)
            for command, (names, words) in COMMANDS.items():
                report = text(command, names, words, files)
                changed = spoiled(draw, report)
                if changed == report:
                    continue
                try:
                    mcg.verify.report(files["graph"], changed, *(files[it] for it in names))
                except (Wrong, mcg.BadInput):
                    counts[command] = counts.get(command, 0) + 1
                    continue
                with self.subTest(graph=graph, changed=changed, report=report):
                    self.assertTrue(self.is_free(command, changed, report, files, names))
        self.assertEqual(set(counts), set(COMMANDS))

    def is_free(self, command, changed, report, files, names):
        """Whether the change is one that a program may make: another valid ear list, script, or witness."""
        if command == "ears":
            listed = mcg.Ears.from_text(changed, mcg.Graph.from_text(files["graph"]))
            return bool(mcg.check_ears(mcg.Graph.from_text(files["graph"]), listed))
        graph = mcg.Graph.from_text(files["graph"])
        if command == "script":
            first = mcg.Decomposition.from_text(files["tree"], graph)
            return mcg.replay(graph, first, mcg.Moves.from_text(changed, graph)).result is not None
        if command == "analyse":
            return mcg.Analysis.from_text(changed, graph).kind == mcg.Analysis.from_text(report, graph).kind
        return False

    def test_each_field_of_an_analysis(self):
        graph = [(a, b) for a in range(3) for b in range(3, 6)]
        good = mcg.analyse(graph)
        other = {
            "order": 7, "size": 6, "components": 2, "bipartite": False, "matching_number": 2, "deficiency": 2,
            "D": frozenset([1]), "A": frozenset([1]), "C": frozenset([1]), "allowed": good.allowed[1:], "covered": False,
            "reason": "edge", "witness": graph[0], "classes": good.classes[:1], "bicritical": True, "equivalent_pair": (1, 2),
            "cut_pair": (1, 2), "kind": "composite", "shore": frozenset([0, 1, 2]), "graph": mcg.Graph(graph[1:]),
        }
        self.assertEqual(set(other), set(good.__dataclass_fields__))
        for name, value in other.items():
            with self.subTest(name=name), self.assertRaises(Wrong):
                mcg.verify.analyse(graph, replace(good, **{name: value}))

    def test_a_decomposition_with_a_wrong_leaf(self):
        graph = cycle(8)
        good = mcg.decompose(graph)
        mcg.verify.decompose(graph, good)
        self.assertRaises(Wrong, mcg.verify.decompose, graph, mcg.Decomposition(graph, mcg.Leaf("brace")))
        for change in ({"kind": "brick"}, {"blocks": good.leaves[0].blocks[1:]}, {"edges": {}}):
            wrong = mcg.decompose(graph)
            wrong.leaves[0] = replace(wrong.leaves[0], **change)
            self.assertRaises(Wrong, mcg.verify.decompose, graph, wrong)

    def test_a_comparison_with_a_wrong_map(self):
        graph = cycle(8)
        good = mcg.compare(graph, mcg.decompose(graph), mcg.decompose(graph, "last"))
        mcg.verify.compare(graph, good)
        leaf, partner, images = good.pairs[0]
        blocks = list(images)
        turned = {**images, blocks[0]: images[blocks[1]], blocks[1]: images[blocks[0]]}
        for pairs in ([(leaf, partner, turned), *good.pairs[1:]], good.pairs[1:], [good.pairs[0]] * len(good.pairs)):
            self.assertRaises(Wrong, mcg.verify.compare, graph, replace(good, pairs=pairs))
        self.assertRaises(Wrong, mcg.verify.compare, graph, replace(good, moves=mcg.Moves(good.moves[:-1])))


class Large(unittest.TestCase):
    """Graphs of 128 vertices, each report within a minute."""

    def verified(self, graph, bound=60):
        numbered = mcg.Graph(graph)
        trees = mcg.decompose(numbered), mcg.decompose(numbered, "last")
        listed = mcg.ears(numbered)
        moves = mcg.script(numbered, *trees)
        asked = {
            "analyse": (mcg.verify.analyse, mcg.analyse(numbered)),
            "decompose": (mcg.verify.decompose, trees[0]),
            "check": (mcg.verify.check, trees[1].tree, mcg.check(numbered, trees[1])),
            "ears": (mcg.verify.ears, listed),
            "checkears": (mcg.verify.check_ears, listed, mcg.check_ears(numbered, listed)),
            "compare": (mcg.verify.compare, mcg.compare(numbered, *trees)),
            "replay": (mcg.verify.replay, trees[0], moves, mcg.replay(numbered, trees[0], moves)),
        }
        for name, (verified, *values) in asked.items():
            start = time.process_time()
            verified(numbered, *values)
            took = time.process_time() - start
            with self.subTest(name=name):
                self.assertLess(took, bound)
            if os.environ.get("MCG_TIMES"):
                print(f"{name} of {graph if isinstance(graph, str) else numbered} {took:.1f} s {len(moves)} moves", flush=True)

    def test_a_cubic_graph(self):
        with open(f"{ROOT}/bench/graphs/cubic_128.mcg") as file:
            self.verified(mcg.Graph.from_text(file.read()))

    def test_a_composite_graph(self):
        """Two cycles of 64 joined by some edges."""
        edges = cycle(64) + [(64 + a, 64 + b) for a, b in cycle(64)]
        self.verified(edges + [(k, 64 + k) for k in range(0, 64, 7)])


class Program(unittest.TestCase):
    def ran(self, *names):
        out, errors = io.StringIO(), io.StringIO()
        with redirect_stdout(out), redirect_stderr(errors):
            status = program.main(list(names))
        return status, out.getvalue(), errors.getvalue()

    def test_the_program(self):
        graph, tree = f"{EXAMPLES}/two_k4.mcg", f"{EXAMPLES}/two_k4_first.tree"
        self.assertEqual(self.ran(graph, tree), (0, f"{tree}: correct decompose report\n", ""))
        self.assertEqual(self.ran(graph, f"{EXAMPLES}/two_k4.moves", tree, f"{EXAMPLES}/two_k4_last.tree")[0], 0)
        with tempfile.TemporaryDirectory() as folder:
            with open(f"{folder}/report", "w") as file:
                file.write("accepted leaves 1 bricks 1 braces 0\n")
            status, out, errors = self.ran(graph, f"{folder}/report", tree)
            self.assertEqual((status, errors), (1, ""))
            self.assertIn("wrong: the count of the leaves", out)
            self.assertEqual(self.ran(graph, f"{folder}/report")[0], 2)
        self.assertEqual(self.ran("--order", "first", graph, tree), (0, f"{tree}: correct decompose report\n", ""))
        status, out, errors = self.ran("--order", "last", graph, tree)
        self.assertEqual((status, out, errors), (1, f"{tree}: wrong: cut 1 (in preorder) is not the one that the order last takes\n", ""))
        self.assertEqual(self.ran(graph, f"{EXAMPLES}/two_k4_last.tree", f"{EXAMPLES}/two_k4.picks")[0], 0)
        self.assertEqual(self.ran(graph, tree, f"{EXAMPLES}/two_k4.picks")[0], 1)
        for words in (("--order", "frist", graph, tree), ("--order", "first", tree), ("--order", "first", graph, tree, f"{EXAMPLES}/two_k4.picks")):
            self.assertEqual(self.ran(*words)[0], 2)
        self.assertEqual(self.ran(graph, graph)[0], 2)
        self.assertEqual(self.ran(graph, "/nowhere")[0], 2)
        self.assertEqual(self.ran(graph)[0], 2)
        self.assertEqual(self.ran("--help")[0], 0)
