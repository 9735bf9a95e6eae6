"""The second opinion on lists: it agrees with each report of mcg6, and names each line that was changed."""
import contextlib
import io
import itertools
import os
import random
import shutil
import subprocess
import tempfile
import unittest
from dataclasses import replace

import brute_lists
import unlabelled
from support import ROOT, cycle, drawn, mcg

import mcg.verify
import mcg.verify.__main__ as program
from mcg.verify import Judged, Wrong, list_report
from mcg.verify.list_lines import WORDS, Facts
from mcg.verify.list_texts import listed

QUERIES = [["kinds"], ["leaves"], ["leaves", "last"], ["leaves", "balanced"], ["elementary"], ["matching"], ["cuts"], ["ears"]] + [
    ["select", what]
    for what in ("covered", "uncovered", "perfect", "brick", "brace", "composite", "bicritical", "bricks=0", "bricks=1", "braces=2")
]
NEW = ("matching", "cuts", "ears")


def told(words, data):
    """The status and the report of mcg6 on a list or a graph file."""
    with tempfile.NamedTemporaryFile() as file:
        file.write(data)
        file.flush()
        ran = subprocess.run([os.environ["MCG6"], *words, file.name], stdout=subprocess.PIPE, stderr=subprocess.PIPE, timeout=600)
    return ran.returncode, ran.stdout


def knows(word):
    """Whether the program has this word."""
    return told([word], b"")[0] == 0


def faults(data, report, words):
    return list(Judged(io.BytesIO(data), io.BytesIO(report), words))


def lines(texts):
    return "".join(f"{it}\n" for it in texts).encode()


def random_text(draw, order, density):
    """A graph with a Hamiltonian cycle, often in two parts that few edges join, so that it has tight cuts."""
    pairs = {tuple(sorted((k, (k + 1) % order))) for k in range(order)}
    half = draw.choice([order, order // 2 | 1])
    for a, b in itertools.combinations(range(order), 2):
        if (a < half) == (b < half) and draw.random() < density:
            pairs.add((a, b))
    names = draw.sample(range(1, order + 1), order)
    return mcg.Graph((range(1, order + 1), [(names[a], names[b]) for a, b in pairs])).graph6()


def spoiled(draw, data):
    """A list with a few bytes changed, as tests/judge_lists spoils it."""
    if draw.randrange(5) == 0:
        data = b">>graph6<<" + draw.choice([b"", b"\n", b"\r\n"]) + data
    if draw.randrange(6) == 0:
        data = data[:-1]
    if draw.randrange(6) == 0:
        data = data.replace(b"\n", b"\r\n")
    for _ in range(draw.choice([0, 1, 2])):
        at = draw.randrange(len(data) + 1)
        byte = bytes([draw.choice([10, 13, 32, 58, 62, 63, 64, 67, 126, 127, draw.randrange(256)])])
        data = data[:at] + draw.choice([b"", byte]) + data[at + draw.randrange(2) :]
    return data


class ByBruteForce(unittest.TestCase):
    """What is due is what an enumeration finds, on all graphs with up to 6 vertices."""

    def test_all_small_graphs(self):
        count = dict.fromkeys(NEW, 0)
        for number, text in enumerate(unlabelled.texts(6), 1):
            facts = Facts(listed(number, text.encode()))
            for word in NEW:
                rows, dues = brute_lists.lines(word, number, text), WORDS[word](facts, ())
                with self.subTest(word=word, text=text):
                    self.assertEqual(len(rows), len(dues))
                    self.assertEqual([due.judge(row.encode() + b"\n") for row, due in zip(rows, dues)], [""] * len(rows))
                count[word] += len(rows)
        self.assertEqual((count["matching"], count["ears"]), (209, 27))
        self.assertGreater(count["cuts"], 10)

    def test_the_lines_that_are_determined(self):
        draw, seen = random.Random(51), set()
        second = brute_lists.second_program()
        for number in range(1, 150):
            text = random_text(draw, draw.choice([4, 6, 8]), draw.random() / 2)
            it = listed(number, text.encode())
            facts, standing = Facts(it), second.Standing(second.plain.read_graph6(text.encode() + b"\n")[0])
            kind = f"{text} {it.order} {len(it.edges)} {standing.words()}\n"
            parts = [" ".join(map(str, [number, part, *members])) + "\n" for members, part in standing.elementary()]
            with self.subTest(text=text):
                self.assertEqual([due.line.decode() for due in WORDS["kinds"](facts, ())], [kind])
                self.assertEqual([due.line.decode() for due in WORDS["elementary"](facts, ())], parts)
                for _, what in QUERIES[8:]:
                    self.assertEqual(len(WORDS["select"](facts, (what,))), standing.has(what), what)
                if facts.is_covered:
                    kinds = sorted(due.line.split()[3].decode() for due in WORDS["leaves"](facts, ("last",)))
                    self.assertEqual(kinds, sorted(["brick"] * standing.bricks + ["brace"] * standing.braces))
            seen.add(standing.words().split()[0])
        self.assertEqual(seen, {"uncovered", "brick", "brace", "composite"})

    def test_cuts_with_all_origins(self):
        """Random graphs with 8 and 10 vertices: the candidates are those of the definition."""
        draw, seen = random.Random(52), {}
        while sum(seen.values()) < 60:
            text = random_text(draw, draw.choice([8, 8, 8, 10]), draw.random() / 3)
            facts = Facts(listed(1, text.encode()))
            if facts.is_covered and facts.kind == "composite":
                found = [due.line.decode() for due in WORDS["cuts"](facts, ())]
                self.assertEqual(found, [f"{row}\n" for row in brute_lists.cut_lines(1, text)])
                for row in found:
                    key = row.split()[2] + " bipartite" * (facts.simple.side is not None)
                    seen[key] = seen.get(key, 0) + 1
        self.assertGreaterEqual(set(seen), {"barrier", "flow bipartite", "flow"})


class Agrees(unittest.TestCase):
    """Reports of the program."""

    def agreed(self, data, queries, count=None):
        for words in queries:
            if not knows(words[0]) and words[0] in NEW:
                continue
            with self.subTest(words=words):
                status, report = told(words, data)
                self.assertEqual((status, faults(data, report, words)), (0, []))
                if words in (["kinds"], ["matching"]):
                    self.assertEqual(report.count(b"\n"), data.count(b"\n") if count is None else count)

    def test_the_new_words(self):
        """A counted skip for each word that the program does not have yet."""
        for word in NEW:
            with self.subTest(word=word):
                if not knows(word):
                    self.skipTest(f"mcg6 does not know {word}")

    def test_all_small_graphs(self):
        self.agreed(lines(unlabelled.texts(6)), QUERIES, 209)

    def test_random_graphs(self):
        draw = random.Random(53)
        texts = [random_text(draw, draw.randrange(2, 20) * 2, draw.random() ** 2 / 2) for _ in range(60)]
        self.agreed(lines(texts), QUERIES)

    def test_cubic_graphs(self):
        """The connected cubic ones with up to 12 vertices, as tests/cubic.c lists them."""
        if not shutil.which("cc"):
            self.skipTest("cc is not there")
        with tempfile.TemporaryDirectory() as folder:
            subprocess.run(["cc", "-O2", "-o", f"{folder}/cubic", f"{ROOT}/tests/cubic.c"], check=True)
            parts = [subprocess.run([f"{folder}/cubic", str(n)], stdout=subprocess.PIPE, check=True).stdout for n in range(4, 14, 2)]
        self.agreed(b"".join(parts), QUERIES, 112)

    def test_large_graphs(self):
        """Two cycles of 64 that some edges join, and a cubic graph."""
        with open(f"{ROOT}/bench/graphs/cubic_128.mcg") as file:
            cubic = mcg.Graph.from_text(file.read()).graph6()
        two = cycle(64) + [(64 + a, 64 + b) for a, b in cycle(64)] + [(k, 64 + k) for k in range(0, 64, 7)]
        self.agreed(lines([cubic, mcg.Graph(two).graph6()]), QUERIES)

    def test_spoiled_lists(self):
        """Lists with bad lines, headers and other line ends, with and without `skip`: the report ends, or goes on, as FORMATS has it."""
        draw, count = random.Random(54), {0: 0, 4: 0}
        known = [it for it in QUERIES if it[0] not in NEW or knows(it[0])]
        for _ in range(250):
            texts = [random_text(draw, draw.choice([2, 4, 6]), draw.random()) for _ in range(draw.randrange(5))]
            data = spoiled(draw, lines([*texts, *draw.sample(["?", "@", "Bw", "Ch"], draw.randrange(3))]))
            words = draw.choice(known) + draw.choice([[], ["skip"]])
            status, report = told(words, data)
            with self.subTest(words=words, data=data):
                self.assertEqual(faults(data, report, words), [])
            count[status] += 1
        self.assertGreater(min(count.values()), 40)

    def test_lines_of_the_greatest_size(self):
        good, most = b"C~\n", 65_536
        for size in (most - 1, most, most + 1, 3 * most):
            for rest in (b"", good):
                data = good + b"x" * (size - 1) + b"\n" + rest
                for words in (["kinds"], ["kinds", "skip"], ["select", "brick", "skip"]):
                    with self.subTest(size=size, rest=rest, words=words):
                        self.assertEqual(faults(data, told(words, data)[1], words), [])

    def test_graph_and_encode(self):
        draw = random.Random(55)
        for _ in range(30):
            texts = [random_text(draw, 2 * draw.randrange(1, 5), draw.random()) for _ in range(draw.randrange(3))]
            data = spoiled(draw, lines(texts))
            self.assertEqual(faults(data, told(["graph"], data)[1], ["graph"]), [], data)
        edges = [*cycle(7), *cycle(7), (1, 5)]
        numbered = mcg.Graph([(u, v, k) for k, (u, v) in enumerate(edges)])
        files = [numbered.to_text(), mcg.Graph(cycle(66)).to_text(), "p mcg 2 1\ne 1 3\n", "", "p mcg2 2 1\nv a\nv b\ne b a\n"]
        for text in files:
            self.assertEqual(faults(text.encode(), told(["encode"], text.encode())[1], ["encode"]), [], text)
        large = lines([mcg.Graph(cycle(66)).graph6()])
        report = told(["graph"], large)[1]
        self.assertEqual(faults(large, report, ["graph"]), [])
        self.assertTrue(report.startswith(b"p mcg2 66 66\nv v1\n"))


class Contradicts(unittest.TestCase):
    """Each line that is wrong is named."""

    DATA = lines(["C~", "Ch", "EhEG", "E~rG", "A_", "Bw", "IheA@GUAo"])
    KINDS = [
        "C~ 4 6 brick 1 0 bicritical yes", "Ch 4 3 uncovered edge 0", "EhEG 6 6 composite 0 2 bicritical no",
        "E~rG 6 11 composite 2 0 bicritical yes", "A_ 2 1 brace 0 1 bicritical yes", "Bw 3 3 uncovered berge 1",
        "IheA@GUAo 10 15 brick 1 0 bicritical yes",
    ]

    def named(self, rows, words=("kinds",)):
        """The lines that are wrong, and the lines of the list that they are about."""
        return [it[:2] for it in faults(self.DATA, lines(rows), list(words))]

    def test_the_lines_that_are_named(self):
        rows = self.KINDS
        self.assertEqual(self.named(rows), [])
        for k, row in enumerate(rows, 1):
            with self.subTest(line=k):
                wrong = row.replace("yes", "no") if "yes" in row else row + "0"
                self.assertEqual(self.named([*rows[: k - 1], wrong, *rows[k:]]), [(k, k)])
                self.assertEqual(self.named([*rows[: k - 1], *rows[k:]]), [(k, k)])
                self.assertEqual(self.named([*rows[:k], "x", *rows[k:]]), [(k + 1, None)])
        self.assertEqual(self.named([]), [(1, k) for k in range(1, 8)])
        self.assertEqual(self.named([*rows, *rows[:2]]), [(8, None), (9, None)])
        self.assertEqual(self.named([rows[1], rows[0], *rows[2:]]), [(1, None), (3, 2)])
        self.assertEqual(self.named([rows[0], "x", rows[2], "x", *rows[4:]]), [(2, 2), (4, 4)])

    def test_leaves(self):
        report = told(["leaves"], self.DATA)[1].decode().splitlines()
        self.assertEqual(self.named(report, ["leaves"]), [])
        self.assertEqual(self.named([*report[:2], *report[4:]], ["leaves"]), [(3, 3), (4, 4)])
        self.assertEqual(self.named([report[0].replace("brick", "brace"), *report[1:]], ["leaves"]), [(1, 1)])

    def test_an_order_of_choice(self):
        """A decomposition in another order is not accepted."""
        draw, orders = random.Random(56), ("first", "last", "balanced")
        data = lines(random_text(draw, 12, draw.random() / 3) for _ in range(120))
        reports = {order: told(["leaves", order], data)[1] for order in orders}
        self.assertEqual(len(set(reports.values())), 3)
        for (order, report), other in itertools.product(reports.items(), reports):
            with self.subTest(order=order, other=other):
                self.assertEqual(faults(data, report, ["leaves", other]) == [], report == reports[other])

    def test_what_is_free(self):
        data = lines(["Cs", "C~", "EhEG"])
        right = ["Cs 1 1-2 D 2 3 4 A 1 C", "C~ 2 1-3 2-4 D A C 1 2 3 4", "EhEG 3 1-2 3-4 5-6 D A C 1 2 3 4 5 6"]
        other = ["Cs 1 1-4 D 2 3 4 A 1 C", "C~ 2 1-4 2-3 D A C 1 2 3 4", "EhEG 3 1-6 2-3 4-5 D A C 1 2 3 4 5 6"]
        for rows in (right, other):
            self.assertEqual(faults(data, lines(rows), ["matching"]), [])
        wrong = [
            "Cs 1 2-1 D 2 3 4 A 1 C", "Cs 1 2-3 D 2 3 4 A 1 C", "Cs 1 1-2 D 2 3 4 A 1 C 1", "Cs 0 D 2 3 4 A 1 C", "Cs 1 1-2 D 2 3 4 A C 1",
            "Cs 1 1-2 D 2 4 3 A 1 C", "Cs 1 1-2  D 2 3 4 A 1 C", "Cs 1 1-02 D 2 3 4 A 1 C", "Cs 2 1-2 3-4 D A C 1 2 3 4", "Cs 1 1-2 D 2 3 4 A 1 C ",
        ]
        for row in wrong:
            self.assertEqual([it[:2] for it in faults(data, lines([row, *right[1:]]), ["matching"])], [(1, 1)], row)
        good = ["1 C~ 1 1 1-2 1-3-4-2 1-4+2-3", "1 C~ 1 1 1-2 2-4-3-1 3-2+1-4", "1 C~ 1 1 3-4 3-1-2-4 2-3+1-4"]
        for row in good:
            self.assertEqual(faults(b"C~\n", lines([row]), ["ears"]), [], row)
        wrong = [
            "1 C~ 3 0 1-2 1-3-4-2 1-4 2-3", "1 C~ 1 1 2-1 1-3-4-2 1-4+2-3", "1 C~ 1 1 1-2 1-3-4-2 1-4+1-4", "1 C~ 1 1 1-2 1-3-4 1-4+2-3",
            "1 C~ 1 0 1-2 1-3-4-2", "2 C~ 1 1 1-2 1-3-4-2 1-4+2-3", "1 C~ 1 1 1-2 1-3-4-2 1-4+2-3+2-3", "1 C~ 0 2 1-2 1-3-4-2+1-4 2-3",
        ]
        for row in wrong:
            self.assertNotEqual(faults(b"C~\n", lines([row]), ["ears"]), [], row)

    def test_the_functions(self):
        self.assertEqual(list_report(io.BytesIO(self.DATA), io.BytesIO(lines(self.KINDS)), ["kinds"]), 7)
        with self.assertRaises(Wrong) as raised:
            list_report(io.BytesIO(self.DATA), io.BytesIO(lines(self.KINDS[1:])), ["kinds"])
        self.assertIn("line 1: 'C~ 4 6 brick", str(raised.exception))
        for words in ([], ["kind"], ["kinds", "list"], ["leaves", "frist"], ["select"], ["select", "brik"], ["graph", "skip"], ["kinds", "skip", "skip"]):
            with self.subTest(words=words), self.assertRaises(mcg.BadText):
                Judged(io.BytesIO(), io.BytesIO(), words)

    def test_a_stream(self):
        """A list and a report without an end: lines are judged as they come, and none is kept."""

        class Endless:
            def __init__(self, line):
                self.line, self.count = line, 0

            def readline(self, _size=-1):
                self.count += 1
                return self.line

        source, report = Endless(b"A_\n"), Endless(b"A_ 2 1 brace 0 1 bicritical yes\n")
        judged = Judged(source, report, ["kinds"])

        def run():
            for fault in judged:
                self.fail(fault)

        report.line_after = None
        original = report.readline
        report.readline = lambda size=-1: original() if report.count < 3000 else b""
        source_line = source.readline
        source.readline = lambda size=-1: source_line() if source.count < 3000 else b""
        run()
        self.assertEqual(judged.lines, 3000)
        self.assertLess(len(judged._dues.seen) + len(judged._rows.seen), 100)


class Answers(unittest.TestCase):
    """The answers of the functions on lists."""

    def test_answers_and_changed_ones(self):
        draw = random.Random(57)
        graphs = [*drawn(57, 40), *(random_text(draw, 8, draw.random() / 2) for _ in range(20)), "C~", "Ch", "E~rG"]
        kinds, leaves = list(mcg.kinds(graphs)), list(mcg.leaves(graphs, "last"))
        parts, bricks = list(mcg.elementary(graphs)), list(mcg.select(graphs, "brick"))
        mcg.verify.kinds(graphs, iter(kinds))
        mcg.verify.leaves(graphs, leaves, "last")
        mcg.verify.elementary(graphs, parts)
        mcg.verify.select(graphs, bricks, "brick")
        last = kinds[-1]
        wrong = [replace(last, **it) for it in ({"kind": "brick"}, {"bricks": 1}, {"bicritical": False}, {"deficiency": 2}, {"order": 5}, {"covered": False}, {"reason": "edge"}, {"index": 1})]
        for it in wrong:
            with self.subTest(answer=it), self.assertRaises(Wrong):
                mcg.verify.kinds(graphs, [*kinds[:-1], it])
        for judge, answers, more in ((mcg.verify.kinds, kinds, ()), (mcg.verify.leaves, leaves, ("last",)), (mcg.verify.elementary, parts, ()), (mcg.verify.select, bricks, ("brick",))):
            for changed in (answers[1:], answers[:-1], [*answers, answers[-1]], answers[::-1]):
                with self.subTest(judge=judge.__name__), self.assertRaises(Wrong):
                    judge(graphs, changed, *more)
        with self.assertRaises(Wrong):
            mcg.verify.leaves(graphs, [*leaves[:-1], replace(leaves[-1], kind="brace")], "last")

    def test_bad_graphs(self):
        graphs = ["C~", "x!", [(1, 1)], "Bw"]
        found = list(mcg.kinds(graphs, skipped=[]))
        mcg.verify.kinds(graphs, found, skips=True)
        with self.assertRaises(mcg.BadGraph):
            mcg.verify.kinds(graphs, found)


class Program(unittest.TestCase):
    def ran(self, *names):
        out, errors = io.StringIO(), io.StringIO()
        with contextlib.redirect_stdout(out), contextlib.redirect_stderr(errors):
            status = program.main(list(names))
        return status, out.getvalue(), errors.getvalue()

    def test_the_program(self):
        with tempfile.TemporaryDirectory() as folder:
            before = os.getcwd()
            os.chdir(folder)
            try:
                for name, data in (("list", Contradicts.DATA), ("good", lines(Contradicts.KINDS)), ("bad", lines(Contradicts.KINDS[1:]))):
                    with open(name, "wb") as file:
                        file.write(data)
                self.assertEqual(self.ran("--list", "list", "good", "kinds"), (0, "good: correct mcg6 kinds report, 7 lines\n", ""))
                status, out, errors = self.ran("--list", "list", "bad", "kinds")
                self.assertEqual((status, errors), (1, ""))
                self.assertIn("bad: line 1 is wrong (line 1 of list): 'C~ 4 6 brick", out)
                self.assertIn("bad: wrong in 1 place: mcg6 kinds report, 6 lines", out)
                for names in (["--list"], ["--list", "list"], ["--list", "list", "good"], ["--list", "list", "good", "kind"], ["--list", "/nowhere", "good", "kinds"]):
                    self.assertEqual(self.ran(*names)[0], 2, names)
            finally:
                os.chdir(before)
