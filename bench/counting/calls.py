"""The calls that bench/counts counts: every command on the graphs, and on trees, moves and ear lists that
are refused, cross one another, or share cuts."""
import os
import subprocess

TOP = os.path.dirname(os.path.dirname(os.path.dirname(os.path.abspath(__file__))))

# The commands of mcg, with words that stand for the files of a graph, and those of mcg6 for a list.
ASKED = """
    analyse G
    convert G
    decompose G first
    decompose G last
    decompose G balanced
    decompose G script PICKS
    check G FIRST
    check G LAST
    compare G FIRST LAST
    script G FIRST LAST
    replay G FIRST MOVES
    ears G
    checkears G EARS
"""
LISTS = """
    kinds
    kinds skip
    leaves first
    leaves last
    leaves balanced
    elementary
    matching
    cuts
    ears
    select covered
    select uncovered
    select perfect
    select brick
    select brace
    select bicritical
    select composite
    select bricks=2
    select braces=1
"""
# The files that the program makes of a graph, and what stands for them with path4, which is not
# matching covered.
MADE_FILES = {
    "FIRST": ("decompose G first", "t mcg 4\nleaf\n"),
    "LAST": ("decompose G last", "t mcg 4\nleaf\n"),
    "MOVES": ("script G FIRST LAST", "m mcg 4\n"),
    "EARS": ("ears G", "r mcg 4 3\nstart 1\n"),
}
EXAMPLES = ("two_k4", "k33_triangle", "cube", "petersen", "path4")
# Graphs for trees, moves and ear lists that are written by hand; a number is a cycle.
OTHERS = {"cycle8": 8, "cycle10": 10, "prism": "prism", "k4": "k4", "cube": "cube", "petersen": "petersen"}

# Trees that are refused: of each graph, the reason and the lines of the tree, with `/` between them. In those
# whose names end in `below`, the node is not the root.
REFUSED = {
    "cycle8": """
        splits-below: cut 1 2 3 4 5/cut 5 6 7/leaf/leaf/leaf
        even: cut 1 2 3 4/leaf/leaf
        even-below: cut 1 2 3 4 5/cut 1 2/leaf/leaf/leaf
        trivial: cut 1/leaf/leaf
        trivial-below: cut 1 2 3 4 5/cut 2/leaf/leaf/leaf
        loose: cut 1 3 5/leaf/leaf
        loose-below: cut 1 2 3 4 5/cut 1 3 5/leaf/leaf/leaf
        loose-merged: cut 1 2 3/leaf/cut 4 6 7/leaf/leaf
        uncut: leaf
        uncut-below: cut 1 2 3 4 5/leaf/leaf
        uncut-merged: cut 1 2 3/leaf/leaf
    """,
    "prism": """
        even: cut 1 2/leaf/leaf
        loose: cut 1 2 3/leaf/leaf
    """,
    "petersen": "loose: cut 1 2 3 4 5/leaf/leaf",
    "cube": "loose: cut 1 2 4/leaf/leaf",
}
# Derivations of each graph, and the pairs of them that are compared: with the same root cut, with roots that
# cross, and with the same cuts in another order.
TREES = {
    "cycle8": """
        A: cut 1 2 3 4 5/cut 1 2 3/leaf/leaf/leaf
        B: cut 1 2 3 4 5/cut 3 4 5/leaf/leaf/leaf
        C: cut 1 2 3 4 5/cut 2 3 4/leaf/leaf/leaf
        D: cut 3 4 5 6 7/cut 3 4 5/leaf/leaf/leaf
        E: cut 1 2 3/leaf/cut 1 2 3 4 5/leaf/leaf
        F: cut 1 2 3/leaf/cut 4 5 6/leaf/leaf
        G: cut 1 2 3/leaf/cut 5 6 7/leaf/leaf
    """,
    "cycle10": """
        P: cut 1 2 3 4 5 6 7/cut 1 2 3 4 5/cut 1 2 3/leaf/leaf/leaf/leaf
        Q: cut 1 2 3/leaf/cut 1 2 3 4 5/leaf/cut 1 2 3 4 5 6 7/leaf/leaf
        R: cut 1 2 3 4 5 6 7/cut 3 4 5 6 7/cut 4 5 6/leaf/leaf/leaf/leaf
    """,
}
PAIRS = {
    "cycle8": "AA AB BA AC CB AD DA AE EA AF EG GF",
    "cycle10": "PP PQ QP PR RQ",
}
# Moves on such trees, most of which `script` does not make: the tree, and the moves with `/` between them.
MOVES = {
    "cycle8": """
        A rotate k
        A switch . 5 6
        A switch . 8 1
        A switch . 1,2 6,7
        A switch k 1 4
        A switch k 3 6,7,8
        A switch k 2 5
        A switch k 1 4/rotate k
        A rotate .
        A rotate kk
        A rotate k/rotate m
        E rotate m
        E switch . 1 4
        E switch . 3 6
        E switch m 1,2,3 6
        E switch m 4 7
        F rotate m
    """,
    "cycle10": """
        P rotate kk
        P rotate kk/rotate k
        P switch kk 1 4
        P switch kk 2 5
        P switch k 1 6
        P switch k 1 4
        P switch k 1 6/switch kk 2 4
        Q rotate mm
        Q switch m 1,2,3 6
        Q switch mm 1,2,3,4,5 8
        Q switch mm 6 9
        Q rotate mm/switch m 6 8
    """,
}
# Ear lists that are refused: the reason, and what follows the start.
EARS = {
    "k4": """
        no-path: ear 2 4 3
        even: ear 2 4 2
        no-ends: ear 3 6
        closed: ear 2 4 2 1
        inside: ear 2 4 6 3/ear 1 2 4 5
        added: ear 2 4 6 3/ear 1 1
        added-with: ear 2 4 6 3/ear 1 2/with 1 2
        uncovered: ear 2 4 6 3/ear 1 2/ear 2 5
        early: ear 2 4 6 3
        none:
    """,
    "cube": """
        short: ear 2 2 3 4/ear 1 9 5 10/ear 3 11/ear 6 6/ear 5 8
        early: ear 2 2 3 4/ear 1 9 5 10/ear 3 11 7 12/ear 6 6
    """,
}


def rows(table):
    """The rows of a table, without blanks around them."""
    return [line.strip() for line in table.strip().splitlines() if line.strip()]


class Files:
    """The files of each graph, in a folder: the graph, and what the program makes of it."""

    def __init__(self, folder, mcg):
        self.folder, self.mcg, self.of = folder, mcg, {}
        for name in EXAMPLES:
            self.add(name, self.example(name))
        self.add("cycle8", self.cycle(8))
        grown = self.made("grow", "7", "5").decode().splitlines()
        self.add("grow75", self.graph([line for line in grown if line.startswith("e ")]))
        self.others = {name: self.put(f"other-{name}", self.example(what) if isinstance(what, str) else self.cycle(what))
                       for name, what in OTHERS.items()}

    def made(self, *words):
        made = subprocess.run([self.mcg, *words], stdin=subprocess.DEVNULL, stdout=subprocess.PIPE)
        return made.stdout

    def put(self, name, text):
        path = os.path.join(self.folder, name)
        with open(path, "wb") as file:
            file.write(text)
        return path

    def example(self, name):
        with open(os.path.join(TOP, "examples", name + ".mcg"), "rb") as file:
            return file.read()

    def graph(self, lines):
        order = max(int(word) for line in lines for word in line.split()[1:])
        return "".join(line + "\n" for line in [f"p mcg {order} {len(lines)}", *lines]).encode()

    def cycle(self, order):
        return self.graph([f"e {k} {k % order + 1}" for k in range(1, order + 1)])

    def add(self, name, text):
        own = self.of[name] = {"G": self.put(name, text)}
        own["PICKS"] = self.put(name + ".PICKS", b"s mcg 1\npick 1\n")
        for word, (asked, other) in MADE_FILES.items():
            made = other.encode() if name == "path4" else self.made(*self.words(name, asked))
            own[word] = self.put(f"{name}.{word}", made)

    def words(self, name, asked):
        return [self.of[name].get(word, word) for word in asked.split()]

    def numbers(self, name):
        """The numbers of the vertices and of the edges of one of the other graphs."""
        with open(self.others[name]) as file:
            return next(line.split()[2:] for line in file if line.startswith("p "))

    def tree(self, graph, name, lines):
        text = f"t mcg {self.numbers(graph)[0]}\n" + "".join(line + "\n" for line in lines.split("/"))
        return self.put(f"{graph}.{name}.tree", text.encode())

    def trees(self, graph, table):
        """The trees of a table, by their names."""
        named = [row.split(": ") for row in rows(table)]
        return {name: self.tree(graph, name, lines) for name, lines in named}

    def moves(self, graph, number, lines):
        text = f"m mcg {self.numbers(graph)[0]}\n" + "".join(line + "\n" for line in lines.split("/") if line)
        return self.put(f"{graph}.{number}.moves", text.encode())

    def ears(self, graph, name, lines):
        text = f"r mcg {' '.join(self.numbers(graph))}\nstart 1\n" + "".join(line + "\n" for line in lines.split("/") if line)
        return self.put(f"{graph}.{name}.ears", text.encode())


def calls_on_trees(files):
    """The calls on trees that are written by hand: what is asked, the graph, and the arguments."""
    for graph, table in REFUSED.items():
        file = files.others[graph]
        good = next(iter(files.trees(graph, TREES[graph]).values())) if graph in TREES else None
        for name, tree in files.trees(graph, table).items():
            yield f"check {name}", graph, ["check", file, tree]
            if good:
                yield f"compare {name} A", graph, ["compare", file, tree, good]
                yield f"compare A {name}", graph, ["compare", file, good, tree]
                yield f"script A {name}", graph, ["script", file, good, tree]
                yield f"replay {name}", graph, ["replay", file, tree, files.moves(graph, "none", "")]
    for graph, table in TREES.items():
        file, trees = files.others[graph], files.trees(graph, table)
        for name, tree in trees.items():
            yield f"check {name}", graph, ["check", file, tree]
        for one, other in PAIRS[graph].split():
            yield f"compare {one} {other}", graph, ["compare", file, trees[one], trees[other]]
            yield f"script {one} {other}", graph, ["script", file, trees[one], trees[other]]
            moves = files.put(f"{graph}.{one}{other}.moves", files.made("script", file, trees[one], trees[other]))
            yield f"replay {one} {other}", graph, ["replay", file, trees[one], moves]
        for number, row in enumerate(rows(MOVES[graph])):
            name, lines = row.split(" ", 1)
            yield f"replay {row}", graph, ["replay", file, trees[name], files.moves(graph, number, lines)]


def calls_on_ears(files):
    """The calls on ear lists that are written by hand."""
    for graph, table in EARS.items():
        for row in rows(table):
            name, _, lines = row.partition(":")
            yield f"checkears {name}", graph, ["checkears", files.others[graph], files.ears(graph, name, lines.strip())]


def calls(mcg, mcg6, folder):
    """All calls: the program, the call in words, the graph, the arguments and the input."""
    files = Files(folder, mcg.path)
    for name in files.of:
        for asked in rows(ASKED):
            yield mcg, asked.replace(" G", ""), name, files.words(name, asked), b""
    yield mcg, "grow 7 5", "grow75", ["grow", "7", "5"], b""
    for asked, graph, words in [*calls_on_trees(files), *calls_on_ears(files)]:
        yield mcg, asked, graph, words, b""
    lines = {}
    for name, own in files.of.items():
        encoded = subprocess.run([mcg6.path, "encode", own["G"]], stdout=subprocess.PIPE)
        lines[name] = encoded.stdout
    simple = files.put("petersen.g6", lines["petersen"])
    yield mcg, "analyse6", "petersen", ["analyse6", simple], b""
    for asked in rows(LISTS):
        yield mcg6, "mcg6 " + asked, "list", asked.split(), b"".join(lines.values())
    yield mcg6, "mcg6 graph", "petersen", ["graph"], lines["petersen"]
    yield mcg6, "mcg6 encode", "two_k4", files.words("two_k4", "encode G"), b""
