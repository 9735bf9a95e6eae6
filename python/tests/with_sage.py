"""Compares the package with Sage on graphs of Sage. Needs Sage; test_sage calls it, by `sage -python` or Debian's python3.

It ends with a line on what it compared.
"""
import os
import sys

HERE = os.path.dirname(os.path.realpath(__file__))
sys.path[:0] = [HERE, os.path.dirname(HERE)]

from sage.all import Graph, graphs  # noqa: E402
from support import brute_of, covered, drawn, mcg  # noqa: E402


def same(found, wanted, what):
    assert found == wanted, f"{what}: {found!r} and not {wanted!r}"


def there_and_back(given):
    """A graph goes to Sage and comes back with its vertices and edges."""
    vertices, edges = given
    if None in vertices:
        try:
            mcg.Graph(given).to_sage()
        except ValueError:
            return
        raise AssertionError("Sage took a vertex None")
    made = mcg.Graph(given).to_sage()
    same(set(made.vertices(sort=False)), set(vertices), "vertices")
    same((made.order(), made.size(), made.allows_loops()), (len(vertices), len(edges), False), "sizes")
    back = mcg.Graph(made)
    same({(frozenset(it[:2]), it[2:]) for it in back.edges}, {(frozenset(it[:2]), it[2:]) for it in edges}, "edges")


def structure(given):
    """What Sage and brute force say of a graph of Sage, and what the package says."""
    made = mcg.Graph(given).to_sage()
    simple = made.to_simple(immutable=False)
    found = mcg.analyse(made)
    same(found.matching_number, int(simple.matching(value_only=True, use_edge_labels=False)), "matching number")
    same(found.components, made.connected_components_number(), "components")
    same(found.bipartite, made.is_bipartite(), "bipartite")
    same(next(mcg.kinds([made])).graph6, Graph(next(mcg.kinds([made])).graph6).graph6_string(), "graph6")


def leaves(given):
    """The leaves as graphs of Sage, simple and with multiple edges."""
    found = mcg.decompose(mcg.Graph(given).to_sage())
    same(sorted(leaf.kind for leaf in found.leaves), brute_of(given).kinds(), "leaves")
    for leaf in found.leaves:
        simple, multiple = leaf.to_sage(), leaf.to_sage(multigraph=True)
        same(set(simple.vertices(sort=False)), set(leaf.blocks), "blocks")
        same({frozenset(it[:2]): list(it[2]) for it in simple.edge_iterator()}, dict(leaf.edges), "edges of a leaf")
        same(multiple.size(), sum(map(len, leaf.edges.values())), "multiple edges of a leaf")
        same({label for _, _, label in multiple.edge_iterator()}, {it for listed in leaf.edges.values() for it in listed}, "labels")


def named_graphs():
    """Graphs that Sage names."""
    same(mcg.is_petersen(graphs.PetersenGraph()), True, "the Petersen graph")
    same((mcg.analyse(graphs.PetersenGraph()).kind, mcg.analyse(graphs.CubeGraph(3)).kind), ("brick", "brace"), "kinds")
    same(mcg.b_invariant(graphs.PetersenGraph()), [], "b-invariant edges of the Petersen graph")
    same(mcg.retract(graphs.CycleGraph(8)).graph.to_sage().size(), 2, "the retract of a cycle")
    wheel = graphs.WheelGraph(6)
    same({frozenset(it[:2]) for it in mcg.thin(wheel)}, {frozenset((0, k)) for k in range(1, 6)}, "thin edges of a wheel")
    cubic = [it for it in graphs.nauty_geng("-c -d3 -D3 8")]
    same([it.kind for it in mcg.kinds(cubic)], [mcg.analyse(it).kind for it in cubic], "cubic graphs")
    return 6 + len(cubic)


def main():
    general, decomposable = drawn(71, 60), [it for it in covered(72, 40) if None not in it[0]]
    simple = covered(73, 20, parallel=False)
    for given in general + simple:
        there_and_back(given)
    usable = [it for it in general if None not in it[0]]
    for given in usable:
        structure(given)
    for given in decomposable:
        leaves(given)
    count = named_graphs()
    print(f"sage: {len(general + simple)} graphs there and back, {len(usable)} structures, {len(decomposable)} decompositions, {count} more")


if __name__ == "__main__":
    main()
