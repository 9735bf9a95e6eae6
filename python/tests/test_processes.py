"""Lists through several processes at a time: the results, their order, bad graphs, and what is left running."""
import itertools
import os
import tempfile
import time
import unittest
from unittest import mock

from support import cycle, drawn, mcg, program_of

from mcg import blocks, memory_files

ASKED = {
    "kinds": mcg.kinds,
    "leaves": lambda graphs, skipped=None, processes=1: mcg.leaves(graphs, "last", skipped, processes),
    "elementary": mcg.elementary,
    "select": lambda graphs, skipped=None, processes=1: mcg.select(graphs, "bricks=1", skipped, processes),
}
BAD = ["x!", [(1, 1)], "", cycle(130), "?" * 70_000]


def children():
    """The processes that this one has started and not waited for."""
    with open(f"/proc/self/task/{os.getpid()}/children") as file:
        return file.read().split()


class Processes(unittest.TestCase):
    def test_the_same_results(self):
        """Blocks of a few lines each, so that there are many."""
        graphs = drawn(61, 150)
        for name, ask in ASKED.items():
            wanted = list(ask(graphs))
            self.assertTrue(wanted)
            for processes, most in ((2, 16), (3, 5), (4, 8192)):
                with mock.patch("mcg.blocks.FIRST_LINES", min(most, 16)), mock.patch("mcg.blocks.MOST_LINES", most):
                    with self.subTest(name=name, processes=processes):
                        self.assertEqual(list(ask(graphs, processes=processes)), wanted)

    def test_bad_graphs_that_are_skipped(self):
        for name, ask in ASKED.items():
            graphs = [BAD[k % 5] if k % 7 == 3 else it for k, it in enumerate(drawn(62, 60))]
            found = []
            for processes in (1, 3):
                skipped = []
                with mock.patch("mcg.blocks.FIRST_LINES", 4), mock.patch("mcg.blocks.MOST_LINES", 4):
                    results = list(ask(graphs, skipped=skipped, processes=processes))
                found.append((results, [(it.line, str(it), type(it)) for it in skipped]))
            with self.subTest(name=name):
                self.assertEqual(found[0], found[1])
                self.assertEqual([line for line, _, _ in found[0][1]], [k + 1 for k in range(60) if k % 7 == 3])

    def test_a_bad_graph_ends_the_list(self):
        graphs = drawn(63, 40)
        for bad in BAD[:4]:
            given = [*graphs[:29], bad, *graphs[29:]]
            for processes in (1, 2):
                found = []
                with mock.patch("mcg.blocks.FIRST_LINES", 7), self.assertRaises(mcg.BadGraph) as raised:
                    for it in mcg.kinds(given, processes=processes):
                        found.append(it)
                with self.subTest(bad=bad, processes=processes):
                    self.assertEqual((len(found), raised.exception.line), (29, 30))
                    self.assertIn("graph 30 of the list", str(raised.exception))

    def test_an_iterable_that_fails(self):
        def graphs():
            yield from ["C~"] * 50
            raise KeyError("mine")

        found = []
        with self.assertRaises(KeyError):
            for it in mcg.kinds(graphs(), processes=2):
                found.append(it.kind)
        self.assertEqual(found, ["brick"] * 50)

    def test_results_come_before_the_list_ends(self):
        """An iterable without an end. Closing ends the processes, and not much is taken ahead."""
        sent = 0

        def graphs():
            nonlocal sent
            for _ in itertools.repeat(None):
                sent += 1
                yield "C~"

        before = children()
        found = mcg.kinds(graphs(), processes=3)
        for k in range(200):
            self.assertEqual(next(found).kind, "brick")
            self.assertLess(sent - k, 7 * blocks.MOST_LINES)
        found.close()
        self.assertEqual(children(), before)

    def test_a_slow_iterable(self):
        """Each result comes at most a few graphs after its own, though the next graph takes a while."""
        sent = 0

        def graphs():
            nonlocal sent
            for _ in range(12):
                time.sleep(0.1)
                sent += 1
                yield "C~"

        ahead = [sent - k for k, _ in enumerate(mcg.kinds(graphs(), processes=4), 1)]
        self.assertEqual(len(ahead), 12)
        self.assertLess(max(ahead), 6)

    def test_at_most_so_many_at_a_time(self):
        """The processes are counted while they run."""
        with tempfile.TemporaryDirectory() as folder:
            real, seen = os.environ["MCG6"], []
            with program_of(folder, f'sleep 0.05; exec "{real}" "$@"'), mock.patch("mcg.blocks.MOST_LINES", 2):
                with mock.patch("mcg.blocks.FIRST_LINES", 2):
                    for _ in mcg.kinds(["C~"] * 60, processes=3):
                        seen.append(len(children()))
        self.assertLessEqual(max(seen), 6)
        self.assertGreaterEqual(max(seen), 2)

    def begun_before_the_first_result(self):
        """How many processes have begun when the first result comes, of two at a time, if the first takes half a second."""
        with tempfile.TemporaryDirectory() as folder:
            real, log = os.environ["MCG6"], os.path.join(folder, "log")
            body = f'echo >>"{log}"; if head -n 1 </dev/stdin | grep -q "A_"; then sleep 0.5; fi; exec "{real}" "$@"'
            with program_of(folder, body), mock.patch("mcg.blocks.FIRST_LINES", 2), mock.patch("mcg.blocks.MOST_LINES", 2):
                found = mcg.kinds(["A_"] * 2 + ["C~"] * 20, processes=2)
                first = next(found)
                with open(log) as file:
                    begun = len(file.readlines())
                self.assertEqual([it.kind for it in [first, *found]], ["brace"] * 2 + ["brick"] * 20)
        return begun

    def test_no_processor_waits_for_the_first(self):
        """While the first process still runs, others begin; where the system cannot say which has ended, they wait for it."""
        self.assertEqual(self.begun_before_the_first_result(), 4)
        with mock.patch("os.pidfd_open", side_effect=OSError("no such call")):
            self.assertEqual(self.begun_before_the_first_result(), 2)

    def test_a_program_that_dies(self):
        """In the third block: the results of the first two come first, and nothing is left running."""
        with tempfile.TemporaryDirectory() as folder:
            real = os.environ["MCG6"]
            body = f'if head -n 1 </dev/stdin | grep -q "C~"; then kill -9 $$; fi; exec "{real}" "$@"'
            before, found = children(), []
            with program_of(folder, body), mock.patch("mcg.blocks.FIRST_LINES", 4), mock.patch("mcg.blocks.MOST_LINES", 4):
                with self.assertRaises(mcg.ProgramFailed) as raised:
                    for it in mcg.kinds(["A_"] * 8 + ["C~"] * 40, processes=2):
                        found.append(it.kind)
            self.assertEqual((set(found), raised.exception.status), ({"brace"}, -9))
            self.assertEqual(children(), before)

    def test_a_program_that_ends_early(self):
        for body in ("exit 0", "head -c 5 >/dev/null; exit 0", "printf 'C~ 4 6'"):
            with tempfile.TemporaryDirectory() as folder, program_of(folder, body):
                for ask in ASKED.values():
                    with self.subTest(body=body), self.assertRaises(mcg.ProgramFailed):
                        list(ask(["C~"] * 1000, processes=2))

    def test_a_wrong_number(self):
        for processes in (0, -1):
            for ask in ASKED.values():
                self.assertRaises(ValueError, ask, ["C~"], processes=processes)


class MemoryFiles(unittest.TestCase):
    def test_a_file(self):
        content = os.urandom(3_000_000)
        with memory_files.file_of(content) as file, open(memory_files.path_of(file.fileno()), "rb") as again:
            self.assertEqual((again.read(), file.read()), (content, content))

    def test_a_system_without_files_in_memory(self):
        for failure in (OSError("no such call"), AttributeError("memfd_create")):
            with mock.patch("os.memfd_create", side_effect=failure):
                self.assertEqual(mcg.analyse("C~").kind, "brick")
                self.assertEqual([it.kind for it in mcg.kinds(["C~"] * 3, processes=2)], ["brick"] * 3)

    def test_no_place_for_a_file(self):
        """Neither in memory nor on disk."""
        with mock.patch("os.memfd_create", side_effect=OSError("no such call")), mock.patch("tempfile.tempdir", "/nowhere/folder"):
            for call in (lambda: mcg.analyse("C~"), lambda: list(mcg.kinds(["C~"])), lambda: list(mcg.kinds(["C~"], processes=2))):
                with self.assertRaises(mcg.ProgramFailed) as raised:
                    call()
                self.assertIn("/nowhere/folder", str(raised.exception))

    def test_nothing_is_left_open(self):
        mcg.analyse("C~")
        before = sorted(os.listdir("/proc/self/fd"))
        mcg.decompose("E~rG", [1])
        list(mcg.kinds(["C~"] * 100, processes=3))
        next(mcg.kinds(["C~"] * 100, processes=3))
        with self.assertRaises(mcg.BadGraph):
            list(mcg.kinds(["x!"], processes=3))
        self.assertEqual(sorted(os.listdir("/proc/self/fd")), before)


if __name__ == "__main__":
    unittest.main()
