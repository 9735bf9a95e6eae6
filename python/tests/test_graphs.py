"""What is taken as a graph, and the texts of the formats. Needs no program, but for the errors of bad texts."""
import pickle
import random
import unittest

from support import WITHOUT_NETWORKX, cycle, drawn, mcg, networkx


class Forms(unittest.TestCase):
    def test_a_pair_of_vertices_and_edges(self):
        graph = mcg.Graph((["z", None, "isolated"], [("z", None)]))
        self.assertEqual((graph.vertices, graph.edges, graph.ends), (("z", None, "isolated"), (("z", None),), ((1, 2),)))
        self.assertEqual(mcg.Graph((iter("ab"), iter([("b", "a")]))).ends, ((2, 1),))

    def test_an_iterable_of_edges(self):
        graph = mcg.Graph((edge for edge in [("c", "a"), ("a", "b", "key")]))
        self.assertEqual((graph.vertices, graph.edges), (("c", "a", "b"), (("c", "a"), ("a", "b", "key"))))
        self.assertEqual(mcg.Graph([[1, 2]]).edges, ((1, 2),))
        self.assertEqual(mcg.Graph([]).order, 0)

    def test_parallel_edges(self):
        graph = mcg.Graph([(1, 2, "a"), (2, 1, "b"), (1, 2)])
        self.assertEqual((graph.order, graph.size, graph.graph6()), (2, 3, "A_"))
        self.assertEqual([graph.edge_number(it) for it in ((2, 1, "a"), (1, 2, "b"), (2, 1))], [1, 2, 3])

    def test_graph6(self):
        graph = mcg.Graph("Ch")
        self.assertEqual((graph.vertices, graph.edges), ((0, 1, 2, 3), ((0, 1), (1, 2), (2, 3))))
        self.assertEqual(mcg.Graph(b">>graph6<<Ch\r\n"), graph)
        self.assertEqual(mcg.Graph("?").order, 0)
        for order in (1, 62, 63, 128):
            self.assertEqual(mcg.Graph(mcg.Graph((range(order), cycle(order) if order > 2 else [])).graph6()).order, order)

    def test_what_is_no_graph(self):
        cases = [
            7,
            [(1, 1)],
            [(1, 2), (2, 1)],
            [(1, 2, "k"), (2, 1, "k")],
            [(1,)],
            ["ab"],
            [(1, 2, 3, 4)],
            [({}, 2)],
            [(1, 2, [])],
            ([1, 2, 1], []),
            ([1, 2], [(1, 3)]),
            ((1, 2), (3, 4)),
            (3, []),
            "C",
            "C~\nC~",
        ]
        for case in cases:
            with self.subTest(case=case), self.assertRaises(mcg.BadGraph) as raised:
                mcg.Graph(case)
            self.assertTrue(str(raised.exception))

    def test_a_loop_by_its_kind(self):
        with self.assertRaises(mcg.BadGraph) as raised:
            mcg.analyse([("ä", "ä")])
        self.assertEqual(raised.exception.kind, 5)
        self.assertIn("ä", str(raised.exception))


@unittest.skipIf(networkx is None, WITHOUT_NETWORKX)
class NetworkX(unittest.TestCase):
    def test_a_simple_graph(self):
        graph = networkx.petersen_graph()
        found = mcg.Graph(graph)
        self.assertEqual((found.vertices, found.edges), (tuple(range(10)), tuple(graph.edges())))
        self.assertEqual(found.graph6(), networkx.to_graph6_bytes(graph, header=False).decode().strip())
        self.assertEqual(mcg.analyse(graph).kind, "brick")
        self.assertEqual(found.to_networkx().adj, graph.adj)

    def test_a_multigraph(self):
        graph = networkx.MultiGraph()
        graph.add_node("alone")
        graph.add_edges_from([("a", ("b", 1), "x"), ("a", ("b", 1), "y"), ("a", "ü", 0)])
        found = mcg.Graph(graph)
        self.assertEqual(set(found.edges), set(graph.edges(keys=True)))
        self.assertEqual(found.to_networkx().adj, graph.adj)
        self.assertEqual(mcg.analyse(graph).reason, "parts")

    def test_random_multigraphs(self):
        for vertices, edges in drawn(21, 100):
            if None not in vertices:
                graph = networkx.MultiGraph()
                graph.add_nodes_from(vertices)
                graph.add_edges_from(edges)
                analysis = mcg.analyse(graph)
                matching = networkx.max_weight_matching(networkx.Graph(graph), maxcardinality=True)
                self.assertEqual(analysis.matching_number, len(matching))

    def test_the_leaves_as_graphs(self):
        graph = networkx.MultiGraph([(0, 1), (1, 2), (2, 3), (3, 4), (4, 5), (5, 0), (0, 1), (0, 3)])
        decomposition = mcg.decompose(graph)
        for leaf in decomposition.leaves:
            simple, multiple = leaf.graph(), leaf.graph(multigraph=True)
            self.assertEqual(list(simple.nodes), leaf.blocks)
            self.assertEqual({frozenset(it) for it in simple.edges}, set(leaf.edges))
            for a, b, edges in simple.edges(data="edges"):
                self.assertEqual(set(multiple[a][b]), set(edges))
                self.assertTrue(all(graph.has_edge(*edge) for edge in edges))
            kind = "brace" if networkx.is_bipartite(simple) else "brick"
            self.assertEqual(leaf.kind, kind)

    def test_the_edges_of_leaves_keep_their_keys(self):
        for name in (str, lambda v: f"v{v}", lambda v: (v, 0)):
            pairs = [(0, 1), (1, 2), (2, 3), (3, 4), (4, 5), (5, 0), (0, 1), (0, 3)]
            graph = networkx.MultiGraph([(name(a), name(b)) for a, b in pairs])
            for leaf in mcg.decompose(graph).leaves:
                made = leaf.graph(multigraph=True)
                for pair, edges in leaf.edges.items():
                    self.assertEqual(set(made[tuple(pair)[0]][tuple(pair)[1]]), set(edges))
                self.assertEqual([data for _, _, data in made.edges(data=True) if data], [])

    def test_keys_that_look_like_attributes(self):
        graph = networkx.MultiGraph()
        graph.add_edge("u", "v", key=(("a", 1), ("b", 2)))
        graph.add_edge("u", "v", key="ab")
        made = mcg.Graph(graph).to_networkx()
        self.assertEqual(set(made["u"]["v"]), {(("a", 1), ("b", 2)), "ab"})
        self.assertEqual([data for _, _, data in made.edges(data=True) if data], [])

    def test_a_directed_graph(self):
        with self.assertRaises(mcg.BadGraph):
            mcg.Graph(networkx.DiGraph([(1, 2)]))


class Texts(unittest.TestCase):
    def test_graph_files(self):
        for graph in map(mcg.Graph, drawn(22, 50)):
            found = mcg.Graph.from_text(graph.to_text())
            self.assertEqual((found.order, found.ends), (graph.order, graph.ends))
        large = mcg.Graph(cycle(65))
        self.assertTrue(large.to_text().startswith("p mcg2 65 65\nv v1\n"))
        self.assertEqual(mcg.Graph.from_text(large.to_text()).vertices[64], "v65")
        self.assertTrue(mcg.Graph(cycle(64)).to_text().startswith("p mcg 64 64\ne 1 2\n"))
        named = mcg.Graph.from_text("c names\np mcg2 2 2\nv ab\nv c.d\n\te ab  c.d \r\n\ne c.d ab\n")
        self.assertEqual(named.edges, (("ab", "c.d", 1), ("c.d", "ab", 2)))
        self.assertEqual(mcg.Graph.from_text("C~\n").order, 4)

    def test_trees(self):
        tree = mcg.Cut(frozenset("abc"), mcg.Leaf(), mcg.Leaf())
        graph = [(a, b) for a, b in zip("abcdef", "bcdefa")]
        found = mcg.Decomposition(graph, tree)
        self.assertEqual(found.to_text(), "t mcg 6\ncut 1 2 3\nleaf\nleaf\n")
        self.assertEqual(mcg.Decomposition.from_text(found.to_text(), graph), found)
        self.assertEqual(found.leaves[0].blocks, [frozenset("a"), frozenset("b"), frozenset("c"), frozenset("def")])
        self.assertEqual(found.leaves[0].edges[frozenset([frozenset("a"), frozenset("def")])], [("f", "a")])
        other = mcg.Cut(frozenset("def"), mcg.Leaf(), mcg.Leaf())
        self.assertEqual(mcg.Decomposition(graph, other).to_text(), found.to_text())
        with self.assertRaises(ValueError):
            found.bricks

    def test_picks_ears_and_moves(self):
        picks = mcg.Picks([3, 0])
        self.assertEqual(picks.to_text(), "s mcg 2\npick 3\npick 0\n")
        self.assertEqual(mcg.Picks.from_text(picks.to_text()), picks)
        graph = [("ä", None, 1), (None, "ä", 2)]
        listed = mcg.Ears(graph[0], [(mcg.Ear(None, (graph[1],)),)])
        self.assertEqual(listed.to_text(graph), "r mcg 2 2\nstart 1\near 2 2\n")
        self.assertEqual(mcg.Ears.from_text(listed.to_text(graph), graph), listed)
        moves = mcg.Moves([mcg.Rotate("km"), mcg.Switch("", frozenset(["ä"]), frozenset([None]))])
        self.assertEqual(moves.to_text(graph), "m mcg 2\nrotate km\nswitch . 1 2\n")
        self.assertEqual(mcg.Moves.from_text(moves.to_text(graph), graph), moves)

    def test_exceptions_pass_between_processes(self):
        faults = [
            mcg.BadGraph("words", 3, 5),
            mcg.TooLarge("words"),
            mcg.NotCovered("edge", ("a", "b")),
            mcg.NotADerivation(2, mcg.Refusal(1, 5, None, frozenset("a"))),
            mcg.ProgramFailed("words", -9),
        ]
        for fault in faults:
            found = pickle.loads(pickle.dumps(fault))
            self.assertEqual((type(found), found.__dict__, str(found)), (type(fault), fault.__dict__, str(fault)))


class BadTexts(unittest.TestCase):
    """What `from_text` says of a text that is spoiled is what the program says: the line and the kind."""

    GRAPH = "c words\np mcg 6 7\ne 1 2\ne 2 3\ne 3 4\n\ne 4 5\ne 5 6\ne 6 1\ne 1 4\n"
    NAMED = "p mcg2 3 2\nv a\nv b\nv c-\ne a b\ne b c-\n"
    FILES = {
        "tree": "t mcg 6\ncut 1 2 3\nleaf\nleaf\n",
        "picks": "s mcg 2\npick 1\npick 0\n",
        "ears": "r mcg 6 7\nstart 1\near 2 2 3 4 5 6\near 1 7\n",
        "moves": "m mcg 6\nswitch . 1 4\nrotate k\nswitch km 1,2 4,5\n",
    }

    def spoiled(self, draw, text):
        lines = text.split("\n")
        for _ in range(draw.choice([1, 1, 2])):
            k = draw.randrange(len(lines))
            words = lines[k].split(" ")
            kind = draw.randrange(6)
            if kind == 0:
                del lines[k]
            elif kind == 1:
                lines.insert(k, draw.choice(lines))
            elif kind == 2:
                words[draw.randrange(len(words))] = draw.choice(["0", "9", "x", "7", "cut", "1" * 10, "é", "", "c", "1,2", ".", "mcg2"])
            elif kind == 3:
                words.append(draw.choice(["1", "leaf", "3"]))
            elif kind == 4:
                words = words[:-1]
            else:
                words = ["e", "2", "2"]
            if kind > 1:
                lines[k] = " ".join(words)
            lines = lines or [""]
        return "\n".join(lines)

    def compare(self, text, reader, files, words):
        """Runs the program on the files, of which the text is the last, and reads it; both say the same."""
        from mcg import programs

        try:
            programs.run(words[0], words[1:], files)
            asked = None
        except mcg.BadInput as fault:
            asked = fault.line, fault.kind
        try:
            reader(text)
            read = None
        except mcg.BadInput as fault:
            read = fault.line, fault.kind
        self.assertEqual(read, asked, text)
        return asked

    def test_graph_files(self):
        draw, seen = random.Random(23), set()
        for k in range(300):
            text = self.spoiled(draw, self.NAMED if k % 2 else self.GRAPH)
            if "é" in text:
                continue
            if text.split() and ("\n" in text.strip() or text.split()[0] == "p"):
                found = self.compare(text, mcg.Graph.from_text, {"graph": text}, ["convert", "graph"])
                seen.add(found and found[1])
        self.assertGreaterEqual(len(seen), 8)

    def test_other_files(self):
        draw, seen = random.Random(24), set()
        graph = mcg.Graph.from_text(self.GRAPH)
        readers = {
            "tree": (lambda text: mcg.Decomposition.from_text(text, graph), ["check", "graph", "tree"]),
            "picks": (mcg.Picks.from_text, ["decompose", "graph", "script", "picks"]),
            "ears": (lambda text: mcg.Ears.from_text(text, graph), ["checkears", "graph", "ears"]),
            "moves": (lambda text: mcg.Moves.from_text(text, graph), ["replay", "graph", "tree", "moves"]),
        }
        for k in range(400):
            name = list(readers)[k % 4]
            reader, words = readers[name]
            text = self.spoiled(draw, self.FILES[name])
            if "é" not in text:
                found = self.compare(text, reader, {"graph": self.GRAPH, **self.FILES, name: text}, words)
                seen.add((name, found and found[1]))
        self.assertGreaterEqual(len(seen), 20)

    def test_graph6(self):
        draw, seen = random.Random(25), set()
        for _ in range(300):
            text = list(draw.choice(["C~", "IheA@GUAo", "~?@?" + "?" * 330, ">>graph6<<Bw\n"]))
            for _ in range(draw.randrange(1, 3)):
                k = draw.randrange(len(text)) if text else 0
                text[k : k + draw.randrange(2)] = draw.choice([[], ["~"], ["?"], ["!"], ["\n"], ["D"]])
            text = "".join(text)
            found = self.compare(text, mcg.Graph, {"text": text}, ["analyse6", "text"])
            seen.add(found and found[1])
        self.assertGreaterEqual(len(seen), 5)
