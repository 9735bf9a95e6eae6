"""The census of a list: what it has of each graph, and that it goes on after it was killed, nothing twice and nothing lost."""
import contextlib
import hashlib
import io
import itertools
import os
import random
import re
import shutil
import signal
import sqlite3
import subprocess
import sys
import tempfile
import time
import unittest
from unittest import mock

import unlabelled
from support import ROOT, brute_of, cycle, drawn, mcg

import mcg.__main__ as program
from mcg import graph6
from mcg.census_rows import girth

NAMES = ["list", "line", "graph6", "vertices", "edges", "girth", "least_degree", "greatest_degree", "reason", "kind", "bricks", "braces"]
NAMES += ["petersen_bricks", "bicritical", "deficiency", "removable", "b_invariant", "error"]
TABLES = ("lists", "graphs", "leaves")


def asked(file, question, *values):
    """The rows that a question gives."""
    with contextlib.closing(sqlite3.connect(file)) as database:
        return database.execute(question, values).fetchall()


def tables(file):
    """All rows of the three tables, in the order in which they were written."""
    return {name: asked(file, f"SELECT * FROM {name} ORDER BY rowid") for name in TABLES}


def brute_girth(vertices, edges):
    """The length of a shortest cycle, by the distance between the ends of each edge without it."""
    best = None
    for a, b in edges:
        layer, seen, length = {a}, {a}, 1
        while layer and b not in layer:
            layer = {w for edge in edges if edge != (a, b) for v, w in (edge, edge[::-1]) if v in layer} - seen
            seen |= layer
            length += 1
        if layer and (best is None or length < best):
            best = length
    return best


class Folder(unittest.TestCase):
    """A folder for lists and files."""

    def setUp(self):
        in_memory = "/dev/shm" if os.path.isdir("/dev/shm") else None  # (SQLite waits for the disk at each part)
        self.room = tempfile.TemporaryDirectory(prefix="mcg-census-", dir=in_memory)
        self.addCleanup(self.room.cleanup)
        self.file = f"{self.room.name}/census.sqlite"

    def list_of(self, texts, name="list.g6", end="\n"):
        path = f"{self.room.name}/{name}"
        with open(path, "wb") as file:
            file.write("".join(f"{it}{end}" for it in texts).encode("latin-1"))
        return path

    def command(self, *words):
        return [sys.executable, "-m", "mcg", "census", *words]

    def environment(self):
        return {**os.environ, "PYTHONPATH": f"{ROOT}/python"}

    def ran(self, *words):
        """The status of the program, and what it says."""
        said = io.StringIO()
        with contextlib.redirect_stderr(said), contextlib.redirect_stdout(said):
            try:
                status = program.main(["census", *words])
            except SystemExit as end:
                status = end.code
        return status, said.getvalue()


class Values(Folder):
    def test_random_graphs(self):
        graphs = drawn(61, 200, parallel=False)
        path = self.list_of([mcg.Graph(it).graph6() for it in graphs])
        self.assertEqual(mcg.census(path, self.file, edges=True), (1, 200, 200))
        rows, seen = asked(self.file, "SELECT * FROM graphs ORDER BY line"), set()
        self.assertEqual([it[0] for it in asked(self.file, "SELECT name FROM pragma_table_info('graphs')")], NAMES)
        self.assertEqual(len(rows), 200)
        for number, (graph, row) in enumerate(zip(graphs, rows), 1):
            found, brute = dict(zip(NAMES, row)), brute_of(graph)
            kinds = brute.kinds() if brute.is_covered() else None
            degrees = [len(it) for it in brute.near.values()]
            wanted = {
                "list": 1, "line": number, "graph6": mcg.Graph(graph).graph6(), "vertices": len(brute.vertices), "edges": len(brute.edges),
                "least_degree": min(degrees, default=None), "greatest_degree": max(degrees, default=None),
                "girth": brute_girth(*graph), "deficiency": len(brute.vertices) - 2 * brute.largest(brute.whole), "error": None,
                "reason": None if kinds else brute.reason(), "kind": kinds and (kinds[0] if len(kinds) == 1 else "composite"),
                "bricks": kinds and kinds.count("brick"), "braces": kinds and kinds.count("brace"), "petersen_bricks": kinds and 0,
                "bicritical": kinds and int(all(brute.is_matched(*pair) for pair in itertools.combinations(brute.vertices, 2))),
                "removable": kinds and len(mcg.removable(graph)), "b_invariant": kinds and len(mcg.b_invariant(graph)),
            }
            with self.subTest(graph=graph):
                self.assertEqual(found, wanted)
            told = asked(self.file, "SELECT graph6, kind FROM leaves WHERE list = 1 AND line = ? ORDER BY rowid", number)
            self.assertEqual(sorted(kind for _, kind in told), kinds or [])
            self.assertEqual(told, [(it.graph6, it.kind) for it in mcg.leaves([graph])])
            seen.add(found["kind"] or found["reason"])
        self.assertEqual(seen, {"brick", "brace", "composite", "order", "parts", "berge", "edge"})

    def test_girth(self):
        for length in range(3, 30):
            self.assertEqual(girth(length + 2, [(a + 1, b + 1) for a, b in cycle(length)] + [(1, length + 1), (length + 1, length + 2)]), length)
        self.assertEqual([girth(*graph6.decode(text)) for text in ("?", "A_", "Ch", "C~", "IheA@GUAo")], [None, None, None, 3, 5])

    def test_petersen_bricks(self):
        petersen = mcg.Graph("IheA@GUAo")
        k33 = mcg.Graph([(a, b) for a in range(3) for b in range(3, 6)])
        pairing = zip((edge for edge in petersen.edges if 0 in edge), (edge for edge in k33.edges if 0 in edge))
        spliced = mcg.splice(petersen, 0, k33, 0, dict(pairing))
        path = self.list_of([petersen.graph6(), spliced.graph6(), "C~"])
        mcg.census(path, self.file)
        self.assertEqual(asked(self.file, "SELECT bricks, braces, petersen_bricks FROM graphs"), [(1, 0, 1), (1, 1, 1), (1, 0, 0)])

    def test_without_edges_and_several_processes(self):
        path = self.list_of([mcg.Graph(it).graph6() for it in drawn(62, 300, parallel=False)])
        mcg.census(path, self.file)
        mcg.census(path, f"{self.room.name}/other", processes=3)
        self.assertEqual(tables(self.file), tables(f"{self.room.name}/other"))
        self.assertEqual(asked(self.file, "SELECT DISTINCT removable, b_invariant FROM graphs"), [(None, None)])

    def test_bad_lines(self):
        long = "x" * 70_000
        path = self.list_of([">>graph6<<", "C~", "x!", "", ">>graph6<<", ">>graph6<<C~", long, "C~\r", "Ch\r\r", "É"])
        mcg.census(path, self.file)
        rows = asked(self.file, "SELECT line, kind, error FROM graphs ORDER BY line")
        self.assertEqual([it[:2] for it in rows], [(2, "brick"), (3, None), (4, None), (5, None), (6, "brick"), (7, None), (8, "brick"), (9, None), (10, None)])
        self.assertEqual([(it[2] or "kind 0").split(":")[0] for it in rows], [f"kind {k}" for k in (0, 4, 7, 7, 0, 6, 0, 4, 4)])
        nothing = f"SELECT COUNT(*) FROM graphs WHERE error NOT NULL AND COALESCE({', '.join(NAMES[2:-1])}) IS NOT NULL"
        self.assertEqual(asked(self.file, nothing), [(0,)])
        (lines, sha256), = asked(self.file, "SELECT lines, sha256 FROM lists")
        with open(path, "rb") as file:
            self.assertEqual((lines, sha256), (10, hashlib.sha256(file.read()).hexdigest()))

    def test_counts(self):
        """The numbers of docs/COUNTS.md: connected graphs with up to 6 vertices, and, with a C compiler, cubic ones with up to 12."""
        small = [it for it in unlabelled.texts(6) if is_connected(it)]
        mcg.census(self.list_of(small, "connected"), self.file)
        compared = self.compare_counts("Connected graphs", 1, (2, 4, 6))
        if shutil.which("cc"):
            subprocess.run(["cc", "-O2", "-o", f"{self.room.name}/cubic", f"{ROOT}/tests/cubic.c"], check=True)
            parts = [subprocess.run([f"{self.room.name}/cubic", str(n)], stdout=subprocess.PIPE, check=True).stdout for n in range(4, 14, 2)]
            mcg.census(self.list_of(b"".join(parts).decode().split(), "cubic"), self.file)
            compared += self.compare_counts("Connected cubic graphs", 2, (4, 6, 8, 10, 12))
        print(f"census: {compared} numbers of COUNTS compared")

    def compare_counts(self, heading, number, orders):
        with open(f"{ROOT}/docs/COUNTS.md", encoding="utf-8") as file:
            section = file.read().split(f"\n## {heading}\n")[1].split("\n## ")[0]
        compared = 0
        question = """SELECT COUNT(*), SUM(deficiency = 0), COUNT(kind), COALESCE(SUM(bicritical), 0), SUM(kind IS 'brick'), SUM(kind IS 'brace'),
            SUM(bricks IS 1), SUM(kind IS 'composite') FROM graphs WHERE list = ? AND vertices = ?"""
        for n in orders:
            row = re.search(rf"^\| {n} \|(.*)\|$", section, re.M)[1]
            self.assertEqual(list(asked(self.file, question, number, n)[0]), [int(it.replace(",", "")) for it in row.split("|")], (heading, n))
            compared += 8
        return compared


def is_connected(text):
    order, edges = graph6.decode(text)
    reached = {1}
    for _ in range(order):
        reached |= {v for edge in edges if reached & set(edge) for v in edge}
    return len(reached) == order


class Resuming(Folder):
    def texts(self, count, seed=63):
        draw = random.Random(seed)
        known = ["C~", "Bw", "Ch", "EhEG", "E~rG", "A_", "IheA@GUAo", "?", "x!", ""]
        return [draw.choice(known) for _ in range(count)]

    def test_killed_twenty_times(self):
        """A census that is killed at twenty places, and then goes on to its end, is the one that is taken at once."""
        path = self.list_of(self.texts(60_000))
        draw, progress = random.Random(64), []
        for number in range(20):
            with subprocess.Popen(self.command(path, "-o", self.file, "--quiet"), env=self.environment(), stderr=subprocess.PIPE) as running:
                before = self.lines_done()
                until = time.monotonic() + 60
                # (half of them as soon as something more is written, which is just after a part or within the next)
                while number % 2 and self.lines_done() == before and time.monotonic() < until:
                    time.sleep(0.002)
                time.sleep(draw.random() / (100 if number % 2 else 2))
                self.assertIsNone(running.poll(), "it ended before it was killed")
                running.kill()
            progress.append(self.lines_done())
            self.demand_sound(path)
        self.assertEqual(progress, sorted(progress))
        self.assertGreaterEqual(len(set(progress)), 8)
        self.assertLess(progress[-1], 60_000)
        self.assertEqual(self.ran(path, "-o", self.file)[0], 0)
        mcg.census(path, f"{self.room.name}/whole")
        self.assertEqual(tables(self.file), tables(f"{self.room.name}/whole"))
        print(f"census: killed 20 times, at {len(set(progress))} places from {progress[0]} to {progress[-1]} of 60000 lines")

    def lines_done(self):
        try:
            return sum(it for it, in asked(self.file, "SELECT lines FROM lists"))
        except sqlite3.Error:
            return 0

    def demand_sound(self, path):
        """Just the lines that are done have rows, and the leaves of a graph are all there."""
        try:
            rows = asked(self.file, "SELECT lines, sha256 FROM lists")
        except sqlite3.OperationalError:  # killed before the tables were there
            rows = []
        for lines, sha256 in rows:
            with open(path, "rb") as file:
                taken = hashlib.sha256(b"".join(itertools.islice(file, lines))).hexdigest()
            self.assertEqual(sha256, taken)
            self.assertEqual(asked(self.file, "SELECT COUNT(*), COUNT(DISTINCT line), MAX(line) FROM graphs"), [(lines, lines, lines or None)])
            self.assertEqual(asked(self.file, "SELECT COALESCE(SUM(bricks + braces), 0) FROM graphs"), asked(self.file, "SELECT COUNT(*) FROM leaves"))

    def test_an_interrupt(self):
        path = self.list_of(self.texts(40_000))
        with subprocess.Popen(self.command(path, "-o", self.file), env=self.environment(), stderr=subprocess.PIPE, text=True) as running:
            while self.lines_done() == 0:
                time.sleep(0.01)
            running.send_signal(signal.SIGINT)
            _, said = running.communicate()
        self.assertEqual(running.returncode, 130, said)
        self.assertIn("interrupted", said)
        self.demand_sound(path)
        status, said = self.ran(path, "-o", self.file)
        self.assertEqual(status, 0)
        self.assertIn("40,000 lines are in", said)

    def test_a_list_that_has_grown(self):
        texts = self.texts(500)
        path = self.list_of(texts[:200])
        self.assertEqual(mcg.census(path, self.file), (1, 200, 200))
        self.assertEqual(mcg.census(path, self.file), (1, 200, 0))
        self.list_of(texts)
        self.assertEqual(mcg.census(path, self.file), (1, 500, 300))
        mcg.census(path, f"{self.room.name}/whole")
        self.assertEqual(tables(self.file), tables(f"{self.room.name}/whole"))
        with open(path, "w") as file:
            file.write("C~\nBw")
        other = f"{self.room.name}/other"
        self.assertEqual(mcg.census(path, other).new, 2)
        with open(path, "w") as file:
            file.write("C~\nBw\nCh\n")
        self.assertEqual(mcg.census(path, other).new, 1)

    def test_a_list_that_was_changed(self):
        texts = self.texts(300)
        path = self.list_of(texts)
        mcg.census(path, self.file)
        before = tables(self.file)
        for changed in (["A_", *texts], texts[:-1], texts[:100] + ["C^"] + texts[101:], [], [f"{it}\r" for it in texts]):
            self.list_of(changed)
            with self.assertRaises(mcg.BadText):
                mcg.census(path, self.file)
            status, said = self.ran(path, "-o", self.file)
            self.assertEqual(status, 1)
            self.assertIn("the list was changed", said)
        self.list_of(texts)
        with self.assertRaises(mcg.BadText):
            mcg.census(path, self.file, edges=True)
        self.assertEqual(tables(self.file), before)

    def test_a_second_list(self):
        """It adds to the file, and a graph that comes again has a row for each line."""
        one, other = self.list_of(["C~", "C~", "Bw"], "one"), self.list_of(["E~rG", "C~"], "other")
        self.assertEqual(mcg.census(one, self.file), (1, 3, 3))
        self.assertEqual(mcg.census(other, self.file), (2, 2, 2))
        self.assertEqual(asked(self.file, "SELECT list, line FROM graphs WHERE graph6 = 'C~' ORDER BY list, line"), [(1, 1), (1, 2), (2, 2)])
        self.assertEqual(asked(self.file, "SELECT name, lines FROM lists"), [(one, 3), (other, 2)])
        self.assertEqual(len(asked(self.file, "SELECT * FROM leaves")), 5)

    def test_standard_input(self):
        for number in (1, 2):
            ran = subprocess.run(self.command("-", "-o", self.file), input=b"C~\nBw\n", env=self.environment(), capture_output=True)
            self.assertEqual(ran.returncode, 0)
            self.assertIn(b"standard input cannot be resumed", ran.stderr)
            self.assertEqual(asked(self.file, "SELECT list, name, lines FROM lists"), [(k, "-", 2) for k in range(1, number + 1)])

    def test_two_at_once(self):
        """One of them goes to the end, the other ends with a message, and nothing is there twice."""
        path = self.list_of(self.texts(20_000))
        running = [subprocess.Popen(self.command(path, "-o", self.file, "--quiet"), env=self.environment(), stderr=subprocess.PIPE, text=True) for _ in range(2)]
        said = [it.communicate()[1] for it in running]
        statuses = sorted(it.returncode for it in running)
        self.assertIn(statuses, ([0, 1], [0, 0]), said)
        if statuses == [0, 1]:
            self.assertIn("another process", "".join(said))
        mcg.census(path, f"{self.room.name}/whole")
        self.assertEqual(tables(self.file), tables(f"{self.room.name}/whole"))


class Program(Folder):
    def test_errors(self):
        path = self.list_of(["C~"])
        self.assertEqual(self.ran(path)[0], 2)
        self.assertEqual(self.ran("/nowhere/list", "-o", self.file)[0], 1)
        self.assertEqual(self.ran(path, "-o", "/nowhere/file")[0], 1)
        self.assertEqual(self.ran(path, "-o", path)[0], 1)
        self.assertEqual(self.ran(path, "-o", self.file, "--processes", "0")[0], 1)
        with mock.patch.dict(os.environ, {"MCG6": "/nowhere/mcg6"}):
            self.assertEqual(self.ran(path, "-o", self.file)[0], 1)
        self.assertEqual(self.ran(path, "-o", self.file, "--quiet"), (0, ""))
        self.assertEqual(asked(self.file, "SELECT lines FROM lists"), [(1,)])

    def test_progress(self):
        path = self.list_of(["C~"] * 3000)
        with mock.patch("mcg.census_program.SECONDS", 0.0):
            status, said = self.ran(path, "-o", self.file)
        self.assertEqual(status, 0)
        self.assertIn(f"{path}: 3,000 lines done", said)
        self.assertIn(f"{path}: 3,000 lines are in {self.file}, 3,000 of them new", said)
