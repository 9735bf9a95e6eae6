"""Programs that die, fail or are missing: stand-ins for mcg and mcg6, and where the programs are found."""
import os
import tempfile
import unittest
from unittest import mock

from support import mcg, program_of

from mcg import programs

HEXAGON = [(a, b) for a, b in zip("abcdef", "bcdefa")]
TREE = mcg.Cut(frozenset("abc"), mcg.Leaf(), mcg.Leaf())
CALLS = {
    "analyse": lambda: mcg.analyse(HEXAGON),
    "decompose": lambda: mcg.decompose(HEXAGON),
    "picks": lambda: mcg.decompose(HEXAGON, [1]),
    "check": lambda: mcg.check(HEXAGON, TREE),
    "ears": lambda: mcg.ears(HEXAGON),
    "check_ears": lambda: mcg.check_ears(HEXAGON, mcg.Ears(HEXAGON[0], [])),
    "compare": lambda: mcg.compare(HEXAGON, TREE, TREE),
    "script": lambda: mcg.script(HEXAGON, TREE, TREE),
    "replay": lambda: mcg.replay(HEXAGON, TREE, []),
}


class OneGraph(unittest.TestCase):
    """Stand-ins for mcg, in each call on one graph."""

    def raised(self, body):
        """What each call raises, with its name."""
        with tempfile.TemporaryDirectory() as folder, program_of(folder, body, "mcg"):
            for name, call in CALLS.items():
                with self.subTest(call=name), self.assertRaises(mcg.Error) as raised:
                    call()
                yield name, raised.exception

    def test_the_calls_themselves(self):
        for call in CALLS.values():
            call()

    def test_no_report(self):
        for said in ("", "echo;", "echo covered no edge;", "echo covered no x;", "echo tree 1 refused;"):
            for status in (0, 1):
                for name, fault in self.raised(f"{said} exit {status}"):
                    self.assertEqual((name, type(fault), fault.status), (name, mcg.ProgramFailed, status))

    def test_a_report_that_is_cut_off(self):
        real = os.path.abspath(os.environ["MCG"])
        for name, fault in self.raised(f'"{real}" "$@" | head -c 5'):
            self.assertEqual((name, type(fault), fault.status), (name, mcg.ProgramFailed, 0))

    def test_a_signal(self):
        for name, fault in self.raised('echo "graph 6 6"; kill -9 $$'):
            self.assertEqual((name, type(fault), fault.status), (name, mcg.ProgramFailed, -9))
            self.assertIn("signal 9", str(fault))

    def test_out_of_memory(self):
        for name, fault in self.raised("exit 6"):
            self.assertEqual((name, type(fault)), (name, mcg.OutOfMemory))

    def test_another_status(self):
        for status in (2, 3, 5, 7, 126):
            for name, fault in self.raised(f"echo words >&2; exit {status}"):
                self.assertEqual((name, type(fault), fault.status, str(fault)), (name, mcg.ProgramFailed, status, "words"))

    def test_a_missing_program(self):
        for given in ({"MCG": "/nowhere/mcg"}, {"MCG": "", "PATH": "/nowhere"}):
            with mock.patch.dict(os.environ, given), self.assertRaises(mcg.ProgramMissing):
                mcg.analyse("C~")

    def test_the_program_of_a_wheel(self):
        """It comes before one on the `PATH`, and after what the variable says."""
        with tempfile.TemporaryDirectory() as folder:
            for name in ("bin/mcg", "other/mcg"):
                os.makedirs(os.path.dirname(f"{folder}/{name}"))
                with open(f"{folder}/{name}", "w", encoding="utf-8") as file:
                    file.write("#!/bin/sh\n")
                os.chmod(f"{folder}/{name}", 0o755)
            own = mock.patch.object(programs, "__file__", f"{folder}/programs.py")
            with own, mock.patch.dict(os.environ, {"MCG": "", "PATH": f"{folder}/other"}):
                self.assertEqual(programs.program("mcg"), f"{folder}/bin/mcg")
                os.environ["MCG"] = f"{folder}/other/mcg"
                self.assertEqual(programs.program("mcg"), f"{folder}/other/mcg")
                os.environ["MCG"] = ""
                os.remove(f"{folder}/bin/mcg")
                self.assertEqual(programs.program("mcg"), f"{folder}/other/mcg")

    def test_the_text_of_a_file(self):
        """A text that the caller has, and no program wrote, is a bad text."""
        for read in (mcg.Analysis, mcg.TreeCheck, mcg.EarsCheck, mcg.Replay, mcg.Decomposition):
            with self.assertRaises(mcg.BadText):
                read.from_text("", HEXAGON)


class Lists(unittest.TestCase):
    """Stand-ins for mcg6."""

    def test_a_program_that_dies(self):
        with tempfile.TemporaryDirectory() as folder:
            body = 'read line; echo "C~ 4 6 brick 1 0 bicritical yes"; kill -9 $$'
            with program_of(folder, body):
                found = []
                with self.assertRaises(mcg.ProgramFailed) as raised:
                    for it in mcg.kinds(["C~"] * 100_000):
                        found.append(it)
                self.assertEqual((len(found), raised.exception.status), (1, -9))

    def test_a_program_that_ends_early(self):
        with tempfile.TemporaryDirectory() as folder:
            with program_of(folder, "exit 0"), self.assertRaises(mcg.ProgramFailed):
                list(mcg.kinds(["C~"] * 100_000))

    def test_a_line_that_is_no_result(self):
        for asked in (mcg.kinds, mcg.leaves, mcg.elementary, lambda graphs: mcg.select(graphs, "brick")):
            for line in ("x", "C~ 4 6", "x C~ C~ brick y"):
                with tempfile.TemporaryDirectory() as folder, program_of(folder, f"cat >/dev/null; echo {line}"):
                    with self.subTest(line=line), self.assertRaises(mcg.ProgramFailed):
                        list(asked(["C~"]))

    def test_a_program_that_runs_out_of_memory(self):
        with tempfile.TemporaryDirectory() as folder:
            with program_of(folder, "cat >/dev/null; exit 6"), self.assertRaises(mcg.OutOfMemory):
                list(mcg.kinds(["C~"]))

    def test_a_silent_program(self):
        """The proved program that says nothing in words: the line is counted."""
        with tempfile.TemporaryDirectory() as folder:
            body = 'read line; echo "C~ 4 6 brick 1 0 bicritical yes"; read line; exit 4'
            with program_of(folder, body), self.assertRaises(mcg.BadGraph) as raised:
                list(mcg.kinds(["C~", "x!", "C~"]))
        self.assertEqual((raised.exception.line, raised.exception.kind), (2, 4))

    def test_a_missing_program(self):
        for given in ({"MCG6": "/nowhere/mcg6"}, {"MCG6": "", "PATH": "/nowhere"}):
            with mock.patch.dict(os.environ, given), self.assertRaises(mcg.ProgramMissing):
                list(mcg.kinds(["C~"]))

    def test_the_program_on_the_path(self):
        real = os.path.realpath(os.environ["MCG6"])
        with tempfile.TemporaryDirectory() as folder:
            os.symlink(real, f"{folder}/mcg6")
            with mock.patch.dict(os.environ, {"MCG6": "", "PATH": f"{folder}:{os.environ['PATH']}"}):
                self.assertEqual([it.kind for it in mcg.kinds(["C~"])], ["brick"])

    def test_one_process_for_all(self):
        """`kinds` starts one process, and closing the iterator before its end stops it."""
        with mock.patch("subprocess.Popen", side_effect=__import__("subprocess").Popen) as popen:
            self.assertEqual(len(list(mcg.kinds(["C~"] * 5000))), 5000)
            self.assertEqual(popen.call_count, 1)
