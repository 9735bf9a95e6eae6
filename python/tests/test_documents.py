"""What PYTHON shows of the package in Python, and what the package says of itself."""
import contextlib
import doctest
import importlib
import io
import os
import pkgutil
import re
import shutil
import subprocess
import tempfile
import unittest

from support import ROOT, WITHOUT_NETWORKX, mcg, networkx
from test_list_structures import stand_in
from test_verify_lists import NEW, knows

import mcg.verify

# The modules whose examples call the new words of mcg6.
NEW_MODULES = ("mcg.list_cuts", "mcg.list_ears", "mcg.list_matchings")


class Documents(unittest.TestCase):
    @unittest.skipIf(networkx is None, WITHOUT_NETWORKX)
    def test_the_page(self):
        """The blocks marked `python` of PYTHON run one after the other, and print what their comments say."""
        with open(f"{ROOT}/docs/PYTHON.md", encoding="utf-8") as file:
            blocks = re.findall(r"^```python\n(.*?)^```$", file.read(), re.M | re.S)
        self.assertGreaterEqual(len(blocks), 6)
        names, before, done, missing = {}, os.getcwd(), [], []
        with tempfile.TemporaryDirectory() as folder, contextlib.redirect_stdout(io.StringIO()) as said:
            os.chdir(folder)
            try:
                for block in blocks:
                    try:
                        exec(compile(block, "PYTHON", "exec"), names)
                        done.append(block)
                    except ImportError as why:  # an optional package
                        missing.append(str(why))
            finally:
                os.chdir(before)
        for wanted in re.findall(r"^print\(.*?\)  +# ([\[<TF].*)$", "".join(done), re.M):
            self.assertIn(wanted, said.getvalue())
        if missing:
            self.skipTest(f"{len(missing)} of {len(blocks)} blocks, the others passed: {missing[0]}")

    def test_the_examples_in_docstrings(self):
        """Of all modules; what cannot be imported, for want of an optional package, is counted."""
        total, missing = 0, []
        for name in sorted(it.name for it in pkgutil.walk_packages(mcg.__path__, "mcg.") if not it.name.endswith("__main__")):
            try:
                module = importlib.import_module(name)
            except ImportError:
                missing.append(name)
                continue
            with tempfile.TemporaryDirectory() as folder, contextlib.ExitStack() as stack:
                if name in NEW_MODULES and not all(map(knows, NEW)):  # (those tests of the program itself are counted as skipped)
                    for it in stand_in(folder):
                        stack.enter_context(it)
                failed, tried = doctest.testmod(module, verbose=False)
            self.assertEqual(failed, 0, name)
            total += tried
        self.assertEqual(doctest.testmod(mcg, verbose=False).failed, 0)
        self.assertGreaterEqual(total, 100)
        print(f"docstrings: {total} examples run, not imported: {missing}")

    def test_each_function_has_an_example(self):
        names = {name: getattr(mcg, name) for name in mcg.__all__} | {f"verify.{name}": getattr(mcg.verify, name) for name in mcg.verify.__all__}
        for name, it in names.items():
            is_exception = isinstance(it, type) and issubclass(it, Exception)
            if callable(it) and not is_exception and getattr(it, "__module__", "").startswith("mcg."):
                with self.subTest(name=name):
                    self.assertIn(">>>", it.__doc__ or "")

    def test_types(self):
        """mypy finds nothing in the package, and refuses words that are no orders or properties."""
        if not shutil.which("mypy"):
            self.skipTest("mypy is not there")
        with tempfile.TemporaryDirectory() as folder:
            with open(f"{folder}/calls.py", "w") as file:
                file.write("import mcg\nmcg.decompose('C~', 'last')\nmcg.leaves(['C~'], 'balanced')\nmcg.select(['C~'], 'bricks=1')\n")
                file.write("mcg.select(['C~'], ('bricks', 12))\nmcg.decompose('C~', [1, 2])\n")
                file.write("mcg.decompose('C~', 'frist')\nmcg.leaves(['C~'], 'frist')\nmcg.select(['C~'], 'brik')\n")
            asked = ["mypy", "--strict", "--cache-dir", f"{folder}/cache"]
            ran = subprocess.run([*asked, f"{ROOT}/python/mcg", f"{folder}/calls.py"], cwd=f"{ROOT}/python", capture_output=True, text=True)
        errors = re.findall(r"^(\S+?):(\d+): error", ran.stdout, re.M)
        self.assertEqual([(os.path.basename(name), int(line)) for name, line in errors], [("calls.py", 7), ("calls.py", 8), ("calls.py", 9)])

    def test_public_names(self):
        """Each public name of the package has a docstring, and is sorted."""
        for name in set(mcg.__all__) - {"Order", "Property", "__version__"}:
            self.assertTrue(getattr(mcg, name).__doc__, name)
        self.assertEqual(sorted(mcg.__all__), list(mcg.__all__))

    def test_the_version(self):
        with open(f"{ROOT}/VERSION") as one, open(f"{ROOT}/python/VERSION") as other:
            version = one.read()
            self.assertEqual((version, mcg.__version__), (other.read(), version.strip()))
        self.assertTrue(os.path.exists(f"{ROOT}/python/mcg/py.typed"))
