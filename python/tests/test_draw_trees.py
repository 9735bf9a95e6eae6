"""Pictures of decompositions, ears and comparisons."""
import re
import subprocess
import unittest
from xml.etree import ElementTree

from draw_support import SVG, curve_faults, example, faults, grown, is_planar, needs_layout, petersen
from support import covered, mcg


def texts(picture):
    """The lines of text of a picture."""
    root = ElementTree.fromstring(picture.to_svg())
    return ["".join(it.itertext()) for it in root.iter(f"{SVG}text")]


def outlined(picture):
    """The boxes of the nodes of an outline, that of a leaf with its caption, and the lines between them."""
    boxes, lines = [], []
    for it in ElementTree.fromstring(picture.to_svg()):
        if it.tag == f"{SVG}circle":
            x, y = float(it.get("cx")), float(it.get("cy"))
            boxes.append((x - 11.5, y - 10, x + 11.5, y + 11.5))
        elif it.tag == f"{SVG}rect" and it.get("width") == "20":
            x, y = float(it.get("x")), float(it.get("y"))
            boxes.append((x - 3, y, x + 23, y + 34))  # a caption is at most 26 wide here
        elif it.tag == f"{SVG}path":
            found = re.fullmatch("M([-0-9.]+) ([-0-9.]+)L([-0-9.]+) ([-0-9.]+)", it.get("d"))
            if found:  # (the bar over the name of a set is no such line)
                x, y, *end = map(float, found.groups())
                lines.append(((x, y), tuple(end)))
    return boxes, lines


@needs_layout
class TestTrees(unittest.TestCase):
    def faultless(self, name, decomposition):
        """The number of nodes of a tree, all drawn without fault."""
        from mcg.draw.nodes import names_of, tree_of
        from mcg.draw.panels import TreeStyle, panel
        from mcg.draw.tree_places import arrange

        tree = tree_of(decomposition)
        arrange(tree)
        shared = TreeStyle(tree.whole, names_of(tree.shores(), tree.whole.order))
        count = 0
        for node in tree.root.walk():
            with self.subTest(graph=name, node=node.path):
                _, frame = panel(node, shared)
                found = faults(frame, is_planar(node.graph))
                if node.shore:
                    found += curve_faults(frame, node.inside(node.shore))
                self.assertEqual(found, [])
                count += 1
        return count

    def test_no_fault_at_any_node(self):
        count = 0
        for name in ("two_k4", "hexagon", "chain", "k33_triangle"):
            for order in ("first", "last"):
                count += self.faultless(name, mcg.decompose(example(name), order))
        for seed, pieces in ((1, 3), (2, 5), (3, 4)):
            count += self.faultless(f"grown {seed}", mcg.decompose(grown(seed, pieces), "balanced"))
        self.assertGreater(count, 45)

    def test_what_is_written(self):
        graph = example("chain")
        found = texts(mcg.decompose(graph).draw())
        for wanted in ("brick K4", "brick prism", "X1 = {1, 2, 3}", "G/X1"):
            self.assertIn(wanted, found)
        self.assertEqual(sum(it.startswith("brick ") for it in found), 4)
        brace = texts(mcg.decompose(example("hexagon")).draw())
        self.assertEqual(brace.count("brace C4"), 2)

    def test_a_large_tree_is_lettered(self):
        decomposition = mcg.decompose(grown(2, 9))
        picture = decomposition.draw()
        found = texts(picture)
        for letter in "ABCDEFGHI":
            self.assertIn(letter, found)
        self.assertNotEqual(picture.to_svg(), decomposition.draw(graphs=True).to_svg())
        single = [block for leaf in decomposition.leaves for block in leaf.blocks if len(block) == 1]
        self.assertEqual(len(single), decomposition.graph.order, "each vertex has one letter")

    def test_an_outline_has_room(self):
        """No node of an outline, with the caption below it, meets another node or a line to one."""
        from mcg.draw.geometry import touches

        count = 0
        for graph in [example("chain"), *(grown(seed, pieces) for seed, pieces in ((1, 16), (2, 12), (3, 9)))]:
            for order in ("first", "last"):
                boxes, lines = outlined(mcg.decompose(graph, order).draw(graphs=False))
                for k, box in enumerate(boxes):
                    for other in boxes[:k]:
                        is_apart = box[0] >= other[2] or other[0] >= box[2] or box[1] >= other[3] or other[1] >= box[3]
                        self.assertTrue(is_apart, (graph, order, box, other))
                    middle = (box[0] + box[2]) / 2, box[1] + 10
                    for line in lines:
                        is_foreign = all(abs(x - middle[0]) + abs(y - middle[1]) > 5 for x, y in line)
                        self.assertFalse(is_foreign and touches(box, (*line[0], *line[1])), (box, line))
                        count += is_foreign
        self.assertGreater(count, 3000)

    def test_long_names_get_a_key(self):
        names = ["Ada", "Grace", "Emmy", "Sofja", "Maryam", "Hypatia"]
        edges = [tuple(names[v - 1] for v in ends) for ends in example("two_k4").ends]
        found = texts(mcg.decompose(edges).draw())
        for name in names[1:]:
            self.assertIn(name, found)

    def test_languages_and_notebooks(self):
        decomposition = mcg.decompose(example("two_k4"))
        self.assertEqual(decomposition._repr_svg_(), decomposition.draw().to_svg())
        self.assertIn(r"$\overline{X}$", decomposition.to_tikz())
        self.assertEqual(decomposition.draw().to_dot().count("pos="), 6 + 4 + 4)


class TestDot(unittest.TestCase):
    def test_graphviz_reads_it(self):
        graph = example("two_k4")
        one, other = mcg.decompose(graph), mcg.decompose(graph, "last")
        listed = [one.to_dot(), mcg.ears(graph).to_dot(), mcg.compare(graph, one, other).to_dot(), mcg.draw.to_dot(graph)]
        self.assertEqual([text.count(" -- ") for text in listed], [11 + 8 + 8 + 2, 11, 2 + 2 + 2, 11])
        try:
            subprocess.run(["dot", "-V"], capture_output=True, check=True)
        except OSError:
            self.skipTest("Graphviz is not installed")
        for text in listed:
            done = subprocess.run(["dot", "-Tplain"], input=text, capture_output=True, text=True)
            self.assertEqual((done.returncode, done.stderr), (0, ""))


@needs_layout
class TestEars(unittest.TestCase):
    def test_each_step_is_told(self):
        graph = example("two_k4")
        ears = mcg.ears(graph)
        found = texts(ears.draw(graph))
        self.assertEqual([it for it in found if "ear" in it or it == "start"], ["start", *(f"{k}. {('single', 'double')[len(step) - 1]} ear" for k, step in enumerate(ears.steps, 1))])
        paths = [" ".join(map(str, ear.path)) for step in ears.steps for ear in step]
        for path in ["1 2", *paths]:
            self.assertIn(path, found)

    def test_all_edges_come_once(self):
        from mcg.draw import style
        from mcg.draw.ears import graph_of, step_look, steps_of
        from mcg.draw.plain import PlainGraph

        count = 0
        for graph in [petersen(), *map(mcg.Graph, covered(3, 15))]:
            ears = mcg.ears(graph)
            made = graph_of(ears)
            plain, steps = PlainGraph.of(made), steps_of(made, ears)
            self.assertEqual(sorted(made.edges, key=repr), sorted(graph.edges, key=repr))
            seen = []
            for at in range(len(steps)):
                look = step_look(plain, steps, at, plain.names)
                seen += [k for k, pen in look.pens.items() if pen.width == style.EDGE_NEW]
                pale = {k for k, pen in look.pens.items() if pen.stroke == style.GHOST}
                self.assertEqual(pale, set(range(made.size)) - set(seen))
                count += 1
            self.assertEqual(sorted(seen), list(range(made.size)))
        self.assertGreater(count, 35)


class TestComparisons(unittest.TestCase):
    def test_stages_are_what_replay_makes(self):
        from mcg.draw.nodes import shape_of
        from mcg.draw.stages import moved

        count = 0
        graphs = [example("chain"), grown(1, 6), grown(5, 7), *map(mcg.Graph, covered(7, 25))]
        for graph in graphs:
            first, second = mcg.decompose(graph), mcg.decompose(graph, "last")
            shape, tree = shape_of(first), first
            for move in mcg.compare(graph, first, second).moves:
                shape, tree = moved(shape, move, graph), mcg.replay(graph, tree, [move]).result
                self.assertEqual(without_leaves(shape), without_leaves(shape_of(tree)))
                count += 1
        self.assertGreater(count, 35)

    def test_moves_that_make_nothing(self):
        from mcg.draw.nodes import shape_of
        from mcg.draw.stages import moved

        shape = shape_of(mcg.decompose(example("two_k4")))
        for move in (mcg.Rotate("k"), mcg.Rotate("kk"), mcg.Switch("m", frozenset({1}), frozenset({2}))):
            with self.assertRaises(ValueError):
                moved(shape, move, example("two_k4"))

    @needs_layout
    def test_large_trees_are_lettered(self):
        """Each vertex has the letter of its leaf in both trees, and partners have the same letter in both."""
        graph = grown(2, 9)
        first, second = mcg.decompose(graph), mcg.decompose(graph, "last")
        found = mcg.compare(graph, first, second)
        picture = found.draw()
        written, moves = texts(picture), len(found.moves)
        for leaf, partner, _ in found.pairs:
            single = sum(len(block) == 1 for at in (first.leaves[leaf], second.leaves[partner]) for block in at.blocks)
            letter = "ABCDEFGHI"[leaf]
            self.assertEqual(written.count(letter), single + 2 + min(moves, 40) + 1, letter)
        self.assertGreater(len(found.draw(graphs=True).to_svg()), len(picture.to_svg()))

    @needs_layout
    def test_what_is_written(self):
        graph = example("chain")
        first = mcg.decompose(graph)
        made = mcg.replay(graph, first, mcg.Moves([mcg.Switch("", frozenset({3}), frozenset({4})), mcg.Rotate("mm")])).result
        found = texts(mcg.compare(graph, first, made).draw())
        for wanted in ("Switch", "X1: 3 leaves, 4 joins", "Rotate", "X3 goes above X2"):
            self.assertIn(wanted, found)
        for letter in "ABCD":
            self.assertEqual(sum(it.startswith(f"{letter}  brick") for it in found), 2)
            self.assertEqual(found.count(letter), 3)


def without_leaves(shape):
    """A shape with all its leaves alike."""
    if isinstance(shape, int):
        return None
    return (shape[0], without_leaves(shape[1]), without_leaves(shape[2]))


if __name__ == "__main__":
    unittest.main()
