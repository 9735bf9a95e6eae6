"""Makes graphs of Sage."""
from __future__ import annotations

import importlib
from typing import Any, Iterable, Sequence, Tuple

from .labels import Label


def sage_graph(
    vertices: Sequence[Label], edges: Iterable[Tuple[Label, Label, Any]], is_multigraph: bool
) -> Any:
    """Returns a graph of Sage with these vertices and edges (u, v, label). Raises `ImportError`
    without Sage, and `ValueError` for a vertex None."""
    if any(it is None for it in vertices):
        raise ValueError("Sage cannot have a vertex None")
    sage = importlib.import_module("sage.all")  # it has to come before sage.graphs.graph
    made = sage.Graph(multiedges=is_multigraph, loops=False)
    made.add_vertices(vertices)
    for u, v, label in edges:
        made.add_edge(u, v, label)
    return made
