"""The example for Dask: all lines are there, none twice, though a worker is killed in the middle."""
import os
import subprocess
import sys
import tempfile
import unittest

from support import ROOT


def python_with(module):
    """An interpreter that can import the module: the one that runs the tests, or Debian's. None if neither can."""
    for path in (sys.executable, "/usr/bin/python3"):
        if os.access(path, os.X_OK) and not subprocess.run([path, "-c", f"import {module}"], capture_output=True).returncode:
            return path
    return None


class Dask(unittest.TestCase):
    def test_a_worker_that_is_killed(self):
        python = python_with("dask.bag, distributed")
        if python is None:
            self.skipTest("Dask and distributed cannot be imported")
        with tempfile.TemporaryDirectory() as folder:
            words = [python, f"{ROOT}/python/tests/with_dask.py", folder]
            ran = subprocess.run(words, capture_output=True, text=True, timeout=300)
        self.assertEqual(ran.returncode, 0, ran.stderr)
        self.assertRegex(ran.stdout.splitlines()[-1], "^dask: 1000 lines compared, one of two workers killed, [1-9]")
