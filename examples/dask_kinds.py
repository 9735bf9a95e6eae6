#!/usr/bin/env python3
"""Writes what mcg6 kinds says of each graph of a list, by the machines of a Dask cluster.

    dask_kinds.py LIST.g6 OUTPUT [--scheduler ADDRESS] [--workers N] [--parts N]

The list is cut into parts at line ends. Each part is a task: some worker reads it and sends it through a process of mcg6. The
output has the lines of all parts in the order of the list. If a worker is lost, Dask gives its parts to others; a line is
written when its part has come whole, so none is missing and none is there twice. Without an address a cluster of N workers is
started on this machine. Otherwise each machine needs the programs, the package `mcg` and the list under the same name.
"""
import argparse
import os
from contextlib import nullcontext

import dask.bag
import mcg
from distributed import Client, LocalCluster


def parts_of(name, count):
    """The parts of a file as pairs (first byte, byte after the last), each ending with a line."""
    size, ends = os.path.getsize(name), [0]
    with open(name, "rb") as file:
        for k in range(1, count):
            file.seek(max(ends[-1], k * size // count))
            file.readline()
            ends.append(file.tell())
    ends.append(size)
    return [(a, b) for a, b in zip(ends, ends[1:]) if a < b]


def kinds_of(part, name):
    """The lines of one part. A bad graph raises mcg.BadGraph, which ends the run with its line in the part."""
    first, after = part
    with open(name, "rb") as file:
        file.seek(first)
        lines = file.read(after - first).splitlines()
    return [line_of(kind) for kind in mcg.kinds(lines)]


def line_of(kind):
    """The line as mcg6 kinds writes it."""
    if not kind.covered:
        return f"{kind.graph6} {kind.order} {kind.size} uncovered {kind.reason} {kind.deficiency}"
    bicritical = "yes" if kind.bicritical else "no"
    return f"{kind.graph6} {kind.order} {kind.size} {kind.kind} {kind.bricks} {kind.braces} bicritical {bicritical}"


def written(client, name, output, count):
    """Writes the lines of all parts, in order, and returns how many there are."""
    parts = parts_of(name, count)
    if not parts:
        open(output, "w").close()
        return 0
    bag = dask.bag.from_sequence(parts, npartitions=len(parts)).map(kinds_of, name)
    lines = 0
    with open(output, "w") as file:
        for future in client.compute(bag.to_delayed()):
            for found in future.result():
                lines += len(found)
                file.writelines(line + "\n" for line in found)
            future.release()
    return lines


def local_cluster(workers):
    """A cluster on this machine, with one process and one thread for each worker."""
    return LocalCluster(n_workers=workers, threads_per_worker=1, dashboard_address=None)


def main():
    parser = argparse.ArgumentParser(description=__doc__, formatter_class=argparse.RawDescriptionHelpFormatter)
    parser.add_argument("list")
    parser.add_argument("output")
    parser.add_argument("--scheduler", help="the address of a scheduler, as tcp://HOST:8786")
    parser.add_argument("--workers", type=int, default=2, help="how many workers to start without an address (2)")
    parser.add_argument("--parts", type=int, default=64, help="into how many parts the list is cut (64)")
    given = parser.parse_args()
    cluster = nullcontext(given.scheduler) if given.scheduler else local_cluster(given.workers)
    with cluster as address, Client(address) as client:
        count = written(client, os.path.abspath(given.list), given.output, given.parts)
    print(f"{count} lines")


if __name__ == "__main__":
    main()
