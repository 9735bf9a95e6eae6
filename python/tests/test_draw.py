"""Pictures of graphs: what is on the paper, in each of the languages, and what is said when something is missing."""
import math
import os
import random
import re
import subprocess
import sys
import tempfile
import time
import unittest
from xml.etree import ElementTree

from draw_support import (
    HAS_LAYOUT,
    SVG,
    cube,
    example,
    faults,
    grown,
    is_planar,
    named_graphs,
    needs_axes,
    needs_layout,
    numbered,
    petersen,
    planar_graph,
    random_graphs,
)
from support import LABELS, ROOT, brute_of, drawn, mcg

SQUARE = {1: (0, 0), 2: (1, 0), 3: (1, 1), 4: (0, 1)}
CYCLE = [(1, 2), (2, 3), (3, 4), (4, 1)]
PYTHON = f"{ROOT}/python"


def texts(picture):
    """The lines of text of a picture."""
    root = ElementTree.fromstring(picture.to_svg())
    return ["".join(it.itertext()) for it in root.iter(f"{SVG}text")]


def ran(code, *without, seed="0"):
    """What Python prints for a program in which some packages cannot be imported."""
    block = f"import sys\nfor name in {without!r}: sys.modules[name] = None\nsys.path.insert(0, {PYTHON!r})\n"
    environment = {**os.environ, "PYTHONHASHSEED": seed}
    done = subprocess.run([sys.executable, "-c", block + code], capture_output=True, text=True, env=environment)
    return done.stdout if done.returncode == 0 else done.stderr


class TestPlaces(unittest.TestCase):
    """With places given, nothing else is needed."""

    def test_without_other_packages(self):
        code = f"""
import mcg
picture = mcg.draw.draw({CYCLE!r}, pos={SQUARE!r}, matching=[(1, 2)])
print(len(picture.to_svg()) > 500, len(picture.to_tikz()) > 200, len(picture.to_dot()) > 200)
print(len(mcg.ears({CYCLE!r}).draw(pos={SQUARE!r}).to_svg()) > 500)
print(len(mcg.decompose({CYCLE!r}).draw(graphs=False).to_tikz()) > 100)
print(mcg.decompose({CYCLE!r})._repr_svg_(), mcg.decompose({CYCLE!r}).to_dot().count("--"))
"""
        self.assertEqual(ran(code, "numpy", "networkx", "matplotlib"), "True True True\nTrue\nTrue\nNone 4\n")

    def test_tikz_without_other_packages(self):
        """Trees in outline, ears and graphs on a circle; the texts of vertices and sets are there. With the packages it is the same
        call that draws all graphs."""
        code = """
import mcg
G = [(1, 2), (2, 3), (3, 4), (4, 5), (5, 6), (6, 1)]
first, last = mcg.decompose(G), mcg.decompose(G, [1])
for text in (first.to_tikz(), mcg.compare(G, first, last).to_tikz(), mcg.ears(G).to_tikz(), mcg.draw.to_tikz(G), mcg.draw.to_tikz(G, True)):
    print(text.startswith("\\\\definecolor"), text.count("circle"), "= \\\\{2, 3, 4\\\\}" in text)
"""
        bare = ran(code, "numpy", "networkx", "matplotlib")
        self.assertEqual(bare.split(), "True 1 True True 4 True True 12 False True 6 False True 8 False".split())
        if HAS_LAYOUT:
            self.assertGreater(int(ran(code).split()[1]), 6)

    def test_what_is_missing_is_named(self):
        for call, without, words in (
            (f"mcg.draw.draw({CYCLE!r})", ["numpy"], "python3-numpy"),
            (f"mcg.draw.draw({CYCLE!r})", ["networkx"], "python3-networkx"),
            (f"mcg.decompose({CYCLE!r}).draw()", ["numpy"], "python3-numpy"),
            (f"mcg.draw.draw({CYCLE!r}, pos={SQUARE!r}, ax=1)", ["matplotlib"], "python3-matplotlib"),
            (f"mcg.draw.draw({CYCLE!r}, pos={SQUARE!r}).save('a.png')", ["matplotlib"], "python3-matplotlib"),
        ):
            said = ran(f"import mcg\ntry: {call}\nexcept ImportError as why: print(why)", *without)
            self.assertIn(words, said, call)

    def test_places_that_do_not_fit(self):
        with self.assertRaisesRegex(ValueError, "no place for 4"):
            mcg.draw.draw(CYCLE, pos={k: SQUARE[k] for k in (1, 2, 3)})
        with self.assertRaisesRegex(ValueError, "not finite"):
            mcg.draw.draw(CYCLE, pos={**SQUARE, 4: (math.nan, 0)})
        with self.assertRaisesRegex(ValueError, "layout is"):
            mcg.draw.draw(CYCLE, pos=SQUARE, layout="round")
        with self.assertRaisesRegex(ValueError, "share an end"):
            mcg.draw.draw(CYCLE, pos=SQUARE, matching=[(1, 2), (2, 3)])
        for same in ({v: (0, 0) for v in SQUARE}, {v: (10 * v, 0) for v in SQUARE}):
            ElementTree.fromstring(mcg.draw.draw(CYCLE, pos=same).to_svg())

    def test_places_are_kept(self):
        picture = mcg.draw.draw(CYCLE, pos=SQUARE)
        root = ElementTree.fromstring(picture.to_svg())
        found = [(float(it.get("cx")), float(it.get("cy"))) for it in root.iter(f"{SVG}circle")]
        (x, y), side = found[0], found[1][0] - found[0][0]
        wanted = [(x + side * a, y - side * b) for a, b in SQUARE.values()]
        self.assertTrue(side > 10 and all(math.dist(p, q) < 0.3 for p, q in zip(found, wanted)), found)


class TestText(unittest.TestCase):
    """Names stay names, in each language."""

    def test_odd_labels(self):
        labels = [*LABELS, "<b>", "a & b", '"', "\\", "$x_1$", "100%", "{", "Ünïcode ∂", "line\nbreak", "\x00\x07"]
        checked = 0
        for k in range(0, len(labels) - 3):
            four = labels[k : k + 4]
            graph = [(four[i - 1], four[i]) for i in range(4)]
            pos = {v: SQUARE[i + 1] for i, v in enumerate(four)}
            picture = mcg.draw.draw(graph, pos=pos, title="<&>")
            shown = " ".join(texts(picture))
            for label in four:
                if isinstance(label, str) and len(label) <= 3 and label.isprintable():
                    self.assertIn(label, shown)
                    checked += 1
            self.assertTrue(picture.to_tikz().endswith("\\end{tikzpicture}\n"))
            self.assertEqual(picture.to_dot().count(" -- "), 4)
        self.assertGreater(checked, 20)

    def test_tikz_escapes(self):
        graph = [("$a_1$", "50%"), ("50%", "b&c"), ("b&c", "#"), ("#", "$a_1$")]
        text = mcg.draw.draw(graph, pos=dict(zip(["$a_1$", "50%", "b&c", "#"], SQUARE.values()))).to_tikz()
        for wanted in (r"\$a\_1\$", r"50\%", r"b\&c", r"\#"):
            self.assertIn(wanted, text)
        self.assertNotRegex(text.replace(r"\%", ""), "%")

    def test_labels_and_none(self):
        picture = mcg.draw.draw(CYCLE, pos=SQUARE, labels={1: "one", 2: "two"})
        self.assertEqual(sorted(texts(picture)), ["one", "two"])
        self.assertEqual(texts(mcg.draw.draw(CYCLE, pos=SQUARE, with_labels=False)), [])

    def test_small_and_empty_graphs(self):
        for graph in (([], []), ([1], []), ([1, 2], [(1, 2)])):
            for pos in (None, {1: (0, 0), 2: (1, 0)}) if HAS_LAYOUT else ({1: (0, 0), 2: (1, 0)},):
                ElementTree.fromstring(mcg.draw.draw(graph, pos=pos).to_svg())

    def test_files(self):
        picture = mcg.draw.draw(CYCLE, pos=SQUARE)
        with tempfile.TemporaryDirectory() as folder:
            for ending, start in (("svg", "<svg"), ("tex", "\\definecolor"), ("dot", "graph {")):
                picture.save(f"{folder}/a.{ending}")
                with open(f"{folder}/a.{ending}") as file:
                    self.assertTrue(file.read().startswith(start))

    @needs_axes
    def test_axes(self):
        from matplotlib.figure import Figure

        axes = Figure().add_subplot()
        mcg.draw.draw(CYCLE, pos=SQUARE, labels={1: "$1", 2: "b", 3: "c", 4: "d"}, ax=axes)
        self.assertEqual(sorted(it.get_text() for it in axes.texts), [r"\$1", "b", "c", "d"])
        self.assertEqual(len(axes.patches), 8)
        with tempfile.TemporaryDirectory() as folder:
            mcg.draw.draw(CYCLE, pos=SQUARE).save(f"{folder}/a.png")
            with open(f"{folder}/a.png", "rb") as file:
                self.assertEqual(file.read(4), b"\x89PNG")


@needs_layout
class TestLayout(unittest.TestCase):
    """The layout, by what is on the paper."""

    def faultless(self, graphs, ways=("inside", "auto")):
        from mcg.draw.graph_scene import Look, draw_graph
        from mcg.draw.graphs import places_of
        from mcg.draw.plain import PlainGraph
        from mcg.draw.scene import Scene

        count = 0
        for name, graph in graphs:
            plain = PlainGraph.of(graph)
            places, planar = places_of(graph, plain), is_planar(plain)
            for names in ways:
                with self.subTest(graph=name, names=names):
                    frame = draw_graph(Scene(), plain, places, Look(names=names))
                    self.assertEqual(faults(frame, planar), [])
                    count += 1
        return count

    def test_known_graphs(self):
        graphs = {k: v for k, v in named_graphs().items() if k not in ("Q5", "fullerene")}
        self.assertGreater(self.faultless(graphs.items()), 35)

    def test_random_graphs(self):
        self.assertEqual(self.faultless(random_graphs(12), ("auto",)), 12)

    def test_large_graphs_in_time(self):
        graphs = {"cube": cube(5), "composite": grown(1, 16), "fullerene": named_graphs()["fullerene"], "planar": mcg.Graph(planar_graph(64, random.Random(2)))}
        graphs["Möbius ladder"] = numbered([(k + 1, (k + 1) % 64 + 1) for k in range(64)] + [(k + 1, k + 33) for k in range(32)])
        graphs["the cube whose drawings are tangles"] = cube(6)
        start = time.thread_time()
        self.assertEqual(self.faultless(graphs.items(), ("auto",)), 6)
        self.assertLess(time.thread_time() - start, 12)  # one second each on an idle machine; the threads of a matrix library wait busily

    def test_the_known_drawing_of_the_petersen_graph(self):
        import numpy

        from mcg.draw.layout import place
        from mcg.draw.layout.measures import crossings, symmetries
        from mcg.draw.plain import PlainGraph

        plain = PlainGraph.of(petersen())
        turns, mirrors = symmetries(place(plain), plain.pairs)
        self.assertEqual((turns, len(mirrors)), (5, 5))
        self.assertEqual(crossings(place(plain), plain.pairs), 5)
        chords = PlainGraph.of(petersen((1, 3), (6, 7), (4, 10)))
        self.assertTrue(numpy.allclose(place(chords), place(plain)), "with chords it looks the same")

    def test_the_same_bytes_in_each_run(self):
        code = """
import mcg, hashlib
graphs = ["IheA@GUAo", "Gs@ipo", [(a, b) for a in "abcd" for b in "wxyz"], [("<", frozenset({1, 2})), (frozenset({1, 2}), 3), (3, "<")]]
for graph in graphs:
    print(hashlib.sha256(mcg.draw.draw(graph, True).to_svg().encode()).hexdigest())
print(hashlib.sha256(mcg.decompose("EEj_").draw().to_svg().encode()).hexdigest())
"""
        one, other = ran(code, seed="1"), ran(code, seed="2")
        self.assertEqual(one, other)
        self.assertEqual(len(one.split()), 5, one)


class TestMeaning(unittest.TestCase):
    """Marks and lines say what the report says."""

    def marks(self, graph, analysis):
        from mcg.draw.analysed import look_of
        from mcg.draw.graph_scene import Look

        look = Look()
        key = look_of(mcg.Graph(graph), analysis, look)
        return look, key

    def test_marks_are_those_of_the_report(self):
        from mcg.draw import style

        kinds = set()
        for graph in drawn(5, 60):
            numbered = mcg.Graph(graph)
            report = mcg.analyse(graph)
            look, _key = self.marks(graph, report)
            of = {label: look.marks.get(k, style.PLAIN) for k, label in enumerate(numbered.vertices)}
            pale = {k for k, pen in look.pens.items() if pen.stroke == style.PALE}
            if report.covered and report.bipartite:
                self.assertTrue(all(of[u] != of[v] for u, v, *_ in numbered.edges))
                kinds.add("bipartite")
            elif report.covered:
                for each in report.classes:
                    self.assertEqual(len({of[v] for v in each}), 1)
                large = [next(iter(it)) for it in report.classes if len(it) > 1]
                self.assertEqual(len({of[v] for v in large}), len(large))
                kinds.add("classes")
            else:
                for name, part in zip("DAC", (report.D, report.A, report.C)):
                    if report.D:
                        self.assertTrue(all(of[v] == style.GALLAI[name] for v in part))
                allowed = {numbered.edge_number(edge) - 1 for edge in report.allowed}
                self.assertEqual(pale, set(range(numbered.size)) - allowed if allowed else set())
                kinds.add("uncovered" if report.D else "with a perfect matching")
        self.assertEqual(len(kinds), 4, kinds)

    def test_the_matching_is_perfect(self):
        from mcg.draw.analysed import perfect_matching

        count = 0
        for graph in drawn(8, 80):
            if not brute_of(graph).is_covered():
                continue
            found = perfect_matching(mcg.Graph(graph))
            self.assertEqual(sorted(map(repr, graph[0])), sorted(repr(v) for edge in found for v in edge[:2]))
            count += 1
        self.assertGreater(count, 15)

    @needs_layout
    def test_the_theorem_of_gallai_and_edmonds(self):
        from mcg.draw.gallai_edmonds import places
        from mcg.draw.plain import PlainGraph

        count = 0
        stars = [[(f"a{i}", f"d{j}") for i in range(k) for j in range(k + more)] for k in (1, 2, 3) for more in (1, 2, 3)]
        for graph in [*drawn(11, 20, parallel=False), *stars]:
            report, numbered = mcg.analyse(graph), mcg.Graph(graph)
            if not (report.D and report.A):
                continue
            D, A, C = ({v - 1 for v in numbered.numbers(part)} for part in (report.D, report.A, report.C))
            p, parts = places(PlainGraph.of(numbered), D, A, C)
            self.assertTrue(all(p[a][1] > p[d][1] for a in A for d in D), "A is above D")
            self.assertTrue(all(p[c][0] < p[d][0] for c in C for d in D), "C is left of D")
            self.assertEqual(sorted(v for part in parts for v in part), sorted(D))
            count += 1
        self.assertGreater(count, 8)
        with self.assertRaises(ValueError):
            mcg.draw.draw(example("k4"), layout="gallai-edmonds")

    def test_fills_differ_in_grey(self):
        from mcg.draw import style

        sets = [[style.class_mark(k).fill for k in range(5)] + [style.PAPER], [it.fill for it in style.GALLAI.values()]]
        for fills in sets:
            greys = sorted(map(style.grey, fills))
            self.assertGreater(min(b - a for a, b in zip(greys, greys[1:])), 11)
        self.assertEqual(len({style.class_mark(k) for k in range(25)}), 25)
        self.assertEqual([style.letter(k) for k in (0, 25, 26, 51, 52)], ["A", "Z", "AA", "AZ", "BA"])

    def test_parallel_edges(self):
        pos = {1: (0, 0), 2: (1, 0)}
        for count, paths in ((1, 1), (2, 2), (4, 4), (5, 1), (7, 1)):
            graph = [(1, 2, key) for key in range(count)]
            picture = mcg.draw.draw(graph, pos=pos)
            root = ElementTree.fromstring(picture.to_svg())
            self.assertEqual(sum(it.tag == f"{SVG}path" for it in root.iter()), paths)
            self.assertEqual(f"×{count}" in texts(picture), count > 4)

    def test_svg_has_no_reference(self):
        text = mcg.draw.draw(CYCLE, pos=SQUARE).to_svg()
        self.assertEqual(re.findall("(?:href|src|url)", text), [])


if __name__ == "__main__":
    unittest.main()
