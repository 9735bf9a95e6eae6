"""Names of the bricks and braces that everyone knows."""
from __future__ import annotations

import itertools
from functools import lru_cache
from typing import Any, Iterable, List, Tuple

from .plain import PlainGraph
from .scene import Run, Runs


def _prism(n: int, step: int = 1) -> List[Tuple[int, int]]:
    """Two cycles with spokes, the inner one in steps."""
    outer = [(k, (k + 1) % n) for k in range(n)]
    inner = [(n + k, n + (k + step) % n) for k in range(n)]
    return outer + inner + [(k, n + k) for k in range(n)]


def _wheel(n: int) -> List[Tuple[int, int]]:
    return [(k, (k + 1) % n) for k in range(n)] + [(k, n) for k in range(n)]


def _ladder(n: int) -> List[Tuple[int, int]]:
    return [(k, (k + 1) % (2 * n)) for k in range(2 * n)] + [(k, k + n) for k in range(n)]


def _letter(letter: str, index: str) -> Runs:
    return [Run(letter, italic=True), Run(index, sub=True)]


def _both(a: int, b: int) -> Iterable[Tuple[int, int]]:
    return ((i, a + j) for i in range(a) for j in range(b))


def _graph(edges: Iterable[Tuple[int, int]]) -> Any:
    """The graph with these edges. (NetworkX would load pandas, if it is there, for `Graph(edges)`.)"""
    import networkx as nx

    made = nx.Graph()
    made.add_edges_from(edges)
    return made


@lru_cache(maxsize=None)
def _known() -> List[Tuple[Any, Runs]]:
    """The graphs that have a name, with the name."""
    listed: List[Tuple[Iterable[Tuple[int, int]], Runs]] = [
        ([(0, 1)], _letter("K", "2")),
        (itertools.combinations(range(4), 2), _letter("K", "4")),
        (itertools.combinations(range(6), 2), _letter("K", "6")),
        (itertools.combinations(range(8), 2), _letter("K", "8")),
        ([(k, (k + 1) % 4) for k in range(4)], _letter("C", "4")),
        (_both(3, 3), _letter("K", "3,3")),
        (_both(4, 4), _letter("K", "4,4")),
        (_prism(3), [Run("prism")]),
        (_prism(4), [Run("cube")]),
        (_prism(5), [Run("pentagonal prism")]),
        (_prism(5, 2), [Run("Petersen graph")]),
        (_wheel(5), [Run("5-wheel")]),
        (_wheel(7), [Run("7-wheel")]),
        (_ladder(4), [Run("Möbius ladder on 8")]),
    ]
    return [(_graph(edges), name) for edges, name in listed]


def leaf_name(graph: PlainGraph) -> Runs:
    """Returns the name of the simple graph beneath, or on how many vertices it is; without NetworkX
    always that."""
    try:
        import networkx as nx
    except ImportError:
        return [Run(f"on {graph.order} vertices")]
    simple = _graph(graph.pairs)
    for known, name in _known():
        same = len(known) == len(simple) and known.number_of_edges() == simple.number_of_edges()
        if same and nx.is_isomorphic(known, simple):
            return name
    return [Run(f"on {graph.order} vertices")]
