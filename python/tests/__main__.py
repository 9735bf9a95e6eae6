"""Runs the tests of the Python package: python3 python/tests [-v] [NAMES], after the gate or ./build has made the proved programs.

They call the proved fronts in crates/, or what MCG and MCG6 name. A program that is missing is a failure. What needs NumPy, NetworkX,
Matplotlib, Dask, Sage, mypy or Chromium is skipped if that is missing, and listed by name. It ends with a line
`python: N passed, M failed, K skipped`, and with status 1 if a test failed.
"""
import os
import sys
import unittest

HERE = os.path.dirname(os.path.realpath(__file__))
sys.path.insert(0, HERE)

import support  # noqa: E402, F401


def main(words):
    missing = [os.environ[it] for it in ("MCG", "MCG6") if not os.access(os.environ[it], os.X_OK)]
    if missing:
        print(f"python: FAILED: a program is not there: {' '.join(missing)}; ./build makes the proved programs")
        return 1
    names = [it for it in words if it != "-v"]
    loader = unittest.defaultTestLoader
    suite = loader.loadTestsFromNames(names) if names else loader.discover(HERE, top_level_dir=HERE)
    result = unittest.TextTestRunner(verbosity=2 if "-v" in words else 1).run(suite)
    faults = [test for test, _why in result.failures + result.errors] + result.unexpectedSuccesses
    failed = len({getattr(test, "test_case", test).id() for test in faults})  # a test with several bad subtests counts once
    for test, why in result.skipped:
        print(f"skipped {test.id()}: {why}")
    if loader.errors or not result.testsRun:
        failed += 1
        print("python: FAILED: a test could not be loaded")
    skipped = len(result.skipped)
    print(f"python: {result.testsRun - failed - skipped} passed, {failed} failed, {skipped} skipped")
    return 0 if result.wasSuccessful() and not failed else 1


if __name__ == "__main__":
    sys.exit(main(sys.argv[1:]))
