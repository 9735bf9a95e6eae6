"""Changed reports: mcg.verify accepts one only if it is another right report, which is shown by the programs or by brute force.

Run by hand, `python3 python/tests/test_fuzz.py GRAPHS CHANGES [SEED]` makes so many changes of each report on so many graphs.
"""
import random
import re
import sys
import unittest

from support import Brute, brute_of, covered, drawn, mcg

import mcg.verify
from mcg.programs import run
from mcg.verify import Wrong
from test_answers import wrong_ears

WORDS = ["yes", "no", "brick", "brace", "none", "leaf", "cut", "0", "1", "2", "3", "4", "99", "c", "x", "to", "with", "by", "", "k", ".", "01", "1 1"]
BYTES = list("0123456789 \n\t\rcxkm.,-") + ["\x0b", "\x0c", "\x1c", "\x85", "\xa0", "\xb2", "\x00"]
ROWS = ["", "c", "c x", "leaf", "covered yes", "c leaves 1 bricks 1 braces 0", "name 1 a", "c name 1 a", "graph6 C~", " "]


def changed_byte(draw, text):
    at = draw.randrange(len(text) + 1)
    kind = draw.randrange(3)
    if kind == 0:
        return text[:at] + text[at + 1 :]
    return text[:at] + draw.choice(BYTES) + text[at + (kind == 1) :]


def changed_word(draw, text):
    parts = re.split("([ \n,])", text)
    spots = [k for k in range(0, len(parts), 2) if parts[k]]
    k, other = draw.choice(spots), draw.choice(spots)
    kind = draw.randrange(6)
    if kind == 0:
        del parts[k : k + 2]
    elif kind == 1:
        parts[k:k] = [parts[other], " "]
    elif kind == 2:
        parts[k], parts[other] = parts[other], parts[k]
    elif kind == 3:
        parts[k] = draw.choice(WORDS)
    elif parts[k].isdigit():
        parts[k] = str(max(0, int(parts[k]) + draw.choice([-2, -1, 1, 2])))
    else:
        parts[k] = parts[other]
    return "".join(parts)


def changed_line(draw, text):
    rows = text.split("\n")[:-1]
    k, other = draw.randrange(len(rows)), draw.randrange(len(rows))
    kind = draw.randrange(5)
    if kind == 0:
        del rows[k]
    elif kind == 1:
        rows[k], rows[other] = rows[other], rows[k]
    elif kind == 2:
        rows.insert(draw.randrange(len(rows) + 1), rows[k])
    elif kind == 3:
        rows.insert(draw.randrange(len(rows) + 1), draw.choice(ROWS))
    else:
        rows[k] = rows[other]
    return "".join(f"{row}\n" for row in rows)


def told(files, command, names, words=(), order=None):
    """A command, its report, the texts of the files after the graph, and the order of choice."""
    report = run(command, ["graph", *words, *names], files)[1]
    return command, "".join(f"{row}\n" for row in report), [files[it] for it in names], order


def reports(graph, draw):
    """Reports on a graph, right ones and refusals."""
    numbered = mcg.Graph(graph)
    files = {"graph": numbered.to_text()}
    yield told(files, "analyse", [])
    leaf = {**files, "tree": f"t mcg {numbered.order}\nleaf\n"}
    yield told(leaf, "check", ["tree"])
    if not mcg.analyse(numbered).covered:
        yield told(files, "decompose", [], ["first"])
        return
    first, second = (mcg.decompose(numbered, [draw.randrange(6) for _ in range(4)]) for _ in range(2))
    files.update(tree=first.to_text(), other=second.to_text(), leaf=leaf["tree"])
    files["moves"] = mcg.script(numbered, first, second).to_text(numbered)
    files["ears"] = mcg.ears(numbered).to_text(numbered)
    files["picks"] = mcg.Picks([draw.randrange(6) for _ in range(3)]).to_text()
    yield from (told(files, "decompose", [], [it], order) for it in ("first", "last", "balanced") for order in (it, None))
    yield told(files, "decompose", ["picks"], ["script"])
    for command, names in (
        ("check", ["tree"]), ("ears", []), ("checkears", ["ears"]), ("compare", ["tree", "other"]), ("script", ["tree", "other"]),
        ("replay", ["tree", "moves"]), ("compare", ["tree", "leaf"]), ("script", ["leaf", "other"]),
    ):
        yield told(files, command, names)
    for listed in list(wrong_ears(numbered, draw))[1:4]:
        yield told({**files, "ears": listed.to_text(numbered)}, "checkears", ["ears"])
    for _ in range(2):
        shore = draw.sample(range(1, numbered.order), draw.choice([3, 3, 1, 2]) if numbered.order > 3 else 1)
        text = f"t mcg {numbered.order}\ncut {' '.join(map(str, sorted(shore)))}\nleaf\nleaf\n"
        yield told({**files, "tree": text}, "check", ["tree"])
        move = f"m mcg {numbered.order}\nswitch . {draw.randrange(1, numbered.order + 1)} {draw.randrange(1, numbered.order + 1)}\n"
        yield told({**files, "moves": move}, "replay", ["tree", "moves"])


class Right:
    """Whether an accepted report is another right one, without mcg.verify: by the programs, and by brute force."""

    def __init__(self, graph, command, report, files):
        self.graph, self.command, self.report, self.files = mcg.Graph.from_text(mcg.Graph(graph).to_text()), command, report, files
        self.brute = Brute(self.graph.vertices, [edge[:2] for edge in self.graph.edges])

    def is_so(self, changed):
        """Whether it is another right report; a text that cannot be read is none."""
        try:
            return self.is_right(changed)
        except (AttributeError, IndexError, KeyError, TypeError, ValueError, mcg.BadInput):
            return False

    def is_right(self, changed):
        """Each line but those that FORMATS leaves free is as it was, and what these say is right."""
        if self.command == "ears" and not changed.startswith("covered"):
            return self.ears(changed)
        if self.command in ("compare", "script") and re.match("same|m mcg", changed):
            return self.moves(changed)
        rows, before = changed.split("\n"), self.report.split("\n")
        free = [k for k, row in enumerate(before) if re.match(r"covered no berge|.* why 4 matching", row)]
        if len(rows) != len(before) or len(free) != 1 or rows[: free[0]] + rows[free[0] + 1 :] != before[: free[0]] + before[free[0] + 1 :]:
            return False
        row, old = rows[free[0]], before[free[0]]
        if old.startswith("covered no berge"):
            is_one = re.fullmatch("covered no berge( [1-9][0-9]*)*", row)
            return bool(is_one) and self.berge([int(it) for it in row.split()[3:]])
        head, numbers = re.fullmatch("(.* why 4 matching)((?: [1-9][0-9]*)+)", row).groups()
        return old.startswith(head + " ") and self.matching(old, [int(it) for it in numbers.split()])

    def berge(self, numbers):
        odd = sum(len(part) % 2 for part in self.brute.components(*numbers))
        deficiency = self.graph.order - 2 * self.brute.largest(self.brute.whole)
        return numbers == sorted(set(numbers)) and odd - len(numbers) == deficiency

    def matching(self, old, numbers):
        """At the root: a perfect matching of the graph with three edges or more in the cut. The shore is that of the tree, or is what
        the move makes of it; the edges that were shown before tell its sides apart, so only parallel edges may be exchanged there."""
        edges = [frozenset(self.graph.edge(k)[:2]) for k in numbers]
        if numbers != sorted(set(numbers)):
            return False
        if self.command == "check":
            shore = frozenset(map(int, self.files[0].split("\n")[1].split()[1:]))
            is_perfect = sorted(v for edge in edges for v in edge) == list(self.graph.vertices)
            return is_perfect and sum(len(edge & shore) == 1 for edge in edges) >= 3
        before = [frozenset(self.graph.edge(int(k))[:2]) for k in old.split(" matching ")[1].split()]
        return sorted(map(sorted, edges)) == sorted(map(sorted, before))

    def ears(self, changed):
        """The program accepts the ears, the text is what the package writes, and each step of two ears is due."""
        listed = mcg.Ears.from_text(changed, self.graph)
        counts = f"c steps {len(listed.steps)} single {listed.single} double {listed.double}\n"
        if changed != listed.to_text(self.graph) + counts or not mcg.check_ears(self.graph, listed):
            return False
        stage = [listed.start]
        for step in listed.steps:
            if len(step) == 2 and self.goes_on_single(stage):
                return False
            stage += [edge for ear in step for edge in ear.edges]
        return True

    def goes_on_single(self, stage):
        """Whether some path of odd length is a single ear after the stage, by trying all of them."""
        inside = {v for edge in stage for v in edge[:2]}

        def paths(walk, used):
            for edge in self.graph.edges:
                if edge not in stage and edge not in used and walk[-1] in edge[:2]:
                    other = edge[1] if edge[0] == walk[-1] else edge[0]
                    if other in inside and other != walk[0]:
                        yield [*used, edge]
                    elif other not in inside and other not in walk:
                        yield from paths([*walk, other], [*used, edge])

        for path in (path for v in inside for path in paths([v], []) if len(path) % 2):
            edges = [edge[:2] for edge in [*stage, *path]]
            met = {v for edge in edges for v in edge}
            if Brute(met, edges).is_covered() and self.brute.is_matched(*met):
                return True
        return False

    def moves(self, changed):
        """The program makes the second tree with the moves; the maps are one to one and keep adjacency both ways."""
        first, second = (mcg.Decomposition.from_text(it, self.graph) for it in self.files)
        rows = changed.split("\n")[:-1]
        moves = [re.sub("^move ", "", row) for row in rows if re.match("(move )?(rotate|switch) ", row)]
        listed = mcg.Moves.from_text("\n".join([f"m mcg {self.graph.order}", *moves]) + "\n", self.graph)
        replayed = mcg.replay(self.graph, first, listed)
        if not replayed or replayed.result != second or listed.to_text(self.graph).split("\n")[1:-1] != moves:
            return False
        if self.command == "script":
            return rows == [f"m mcg {self.graph.order}", *moves, f"c leaves {len(first)} moves {len(moves)}"]
        rest = "\n".join(rows[1 + len(moves) :])
        partners = []
        for number, part in enumerate(rest.split("leaf ")[1:], 1):
            head, *maps = part.strip().split("\n")
            partners.append(int(re.fullmatch(f"{number} with ([1-9][0-9]*)", head)[1]))
            images = dict(re.fullmatch("map ([0-9]+) to ([0-9]+)", row).groups() for row in maps)
            one, other = first.leaves[number - 1], second.leaves[partners[-1] - 1]
            named = [{str(max(block)): block for block in leaf.blocks} for leaf in (one, other)]
            if list(images) != list(named[0]) or sorted(images.values()) != sorted(named[1]):
                return False
            image = {named[0][a]: named[1][b] for a, b in images.items()}
            if {frozenset(image[it] for it in pair) for pair in one.edges} != set(other.edges):
                return False
        head = f"same leaves {len(first)} moves {len(moves)}"
        return rows[0] == head and sorted(partners) == list(range(1, len(second) + 1))


def fuzz(seed, graphs, changes):
    """Changes reports; returns the numbers of changed reports and of accepted ones by command, and those accepted wrongly."""
    draw, made, accepted, wrong = random.Random(seed), {}, {}, []
    for graph in [it for pair in zip(covered(seed, graphs), drawn(seed, graphs)) for it in pair]:
        text = mcg.Graph(graph).to_text()
        for command, report, files, order in reports(graph, draw):
            for k in range(changes):
                changed = (changed_byte, changed_word, changed_line)[k % 3](draw, report)
                if changed == report:
                    continue
                made[command] = made.get(command, 0) + 1
                try:
                    mcg.verify.report(text, changed, *files, order=order)
                except (Wrong, mcg.BadInput):
                    continue
                accepted[command] = accepted.get(command, 0) + 1
                if not Right(graph, command, report, files).is_so(changed):
                    wrong.append((command, text, report, changed))
    return made, accepted, wrong


class Fuzz(unittest.TestCase):
    def test_changed_reports(self):
        made, accepted, wrong = fuzz(46, 14, 6)
        self.assertEqual(wrong, [])
        self.assertGreaterEqual(sum(made.values()), 1000)
        self.assertEqual(set(made), {"analyse", "decompose", "check", "ears", "checkears", "compare", "script", "replay"})
        print(f"fuzz: {sum(made.values())} changed reports, {sum(accepted.values())} of them other right ones: {accepted}")


if __name__ == "__main__":
    numbers = [int(it) for it in sys.argv[1:]]
    made, accepted, wrong = fuzz(*([numbers[2]] if len(numbers) > 2 else [47]), *numbers[:2])
    print(sum(made.values()), "changed reports:", made, "accepted:", accepted, "wrongly:", len(wrong))
    for command, graph, report, changed in wrong[:5]:
        print(f"--- {command}\n{graph}--- {report!r}\n--- {changed!r}")
