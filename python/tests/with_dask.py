"""Runs the example for Dask on a local cluster of two workers and kills one of them in the middle. Needs Dask; test_dask calls it.

    with_dask.py FOLDER: makes its files there, and ends with a line on what it compared.
"""
import os
import signal
import subprocess
import sys
import threading
import time

HERE = os.path.dirname(os.path.realpath(__file__))
ROOT = os.path.dirname(os.path.dirname(HERE))
sys.path[:0] = [f"{ROOT}/examples", f"{ROOT}/python"]

import dask_kinds  # noqa: E402
from distributed import Client  # noqa: E402

TEXTS = ["C~", "Bw", "Ch", "IheA@GUAo", "E~rG", "A_"]
PARTS = 12


def lines_in(name):
    try:
        with open(name) as file:
            return len(file.readlines())
    except FileNotFoundError:
        return 0


def kill_one(client, begun):
    """Kills a worker after a few processes of mcg6 were begun."""
    victim = min(client.run(os.getpid).values())
    while lines_in(begun) < 5:
        time.sleep(0.01)
    os.kill(victim, signal.SIGKILL)


def slow_program(folder, begun):
    """A program that notes each of its runs, waits, and does what mcg6 does."""
    path = f"{folder}/mcg6"
    with open(path, "w") as file:
        file.write(f'#!/bin/sh\necho begun >>"{begun}"\nsleep 0.4\nexec "{os.environ["MCG6"]}" "$@"\n')
    os.chmod(path, 0o755)
    return path


def main(folder):
    given, output, begun = (f"{folder}/{name}" for name in ("list.g6", "output", "begun"))
    with open(given, "w") as file:
        file.writelines(TEXTS[k * k % 6] + "\n" for k in range(1000))
    wanted = subprocess.run([os.environ["MCG6"], "kinds", given], capture_output=True, text=True, check=True).stdout
    os.environ["MCG6"] = slow_program(folder, begun)
    with dask_kinds.local_cluster(2) as cluster, Client(cluster) as client:
        killer = threading.Thread(target=kill_one, args=(client, begun))
        killer.start()
        count = dask_kinds.written(client, given, output, PARTS)
        killer.join()
    with open(output) as file:
        found = file.read()
    again = lines_in(begun) - PARTS
    assert again > 0, "the worker was killed when it had nothing to lose"
    assert (count, found) == (1000, wanted), f"{count} lines, and they differ"
    print(f"dask: {count} lines compared, one of two workers killed, {again} parts computed again")


if __name__ == "__main__":
    main(sys.argv[1])
