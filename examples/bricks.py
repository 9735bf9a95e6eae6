#!/usr/bin/env python3
"""Prints the bricks and braces of a labelled multigraph, as labelled graphs.

It needs the Python package `mcg`, which runs the programs that MCG and MCG6 name or that are on the PATH.
"""
import mcg

# Two tetrahedra on u and v, who share two roads; an edge is (end, end, key).
ROADS = [
    ("u", "v", "old"), ("u", "v", "new"), ("u", "a", 1), ("u", "b", 2), ("v", "a", 3), ("v", "b", 4), ("a", "b", 5),
    ("u", "x", 6), ("u", "y", 7), ("v", "x", 8), ("v", "y", 9), ("x", "y", 10),
]


def name(block):
    """A vertex of a brick or brace is a block: a set of vertices of the graph that were contracted to one."""
    return "+".join(sorted(block))


def main():
    for leaf in mcg.decompose(ROADS).leaves:
        print(leaf.kind, "on", ", ".join(map(name, leaf.blocks)))
        for pair, roads in leaf.edges.items():
            print("   ", " - ".join(sorted(map(name, pair))), "by", *(key for _, _, key in roads))
    for kind in mcg.kinds(["C~", "IheA@GUAo", ROADS]):
        print(kind.graph6, kind.kind, kind.bricks, kind.braces)


if __name__ == "__main__":
    main()
