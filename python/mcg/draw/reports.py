"""What the programs say of a graph: the reports that a page shows, and what is read from them."""
from __future__ import annotations

from dataclasses import dataclass
from typing import Dict, List, Optional, Tuple

from ..analysis import Analysis
from ..comparisons import Comparison
from ..properties import ORDERS
from ..ear_lists import Ears
from ..graphs import Graph, GraphLike
from ..programs import run
from ..trees import Decomposition


@dataclass
class Reports:
    """The graph and what is known of it; `texts` has the command line and the report of each
    command. Without a decomposition the graph is not matching covered; `comparison` is None if all
    orders give the same decomposition."""

    graph: Graph
    analysis: Analysis
    texts: List[Tuple[str, str]]
    decomposition: Optional[Decomposition] = None
    ears: Optional[Ears] = None
    comparison: Optional[Comparison] = None


def reports_of(source: GraphLike) -> Reports:
    """Returns what the programs report on a graph: its structure and, if it is matching covered, an
    ear decomposition, a tight cut decomposition and the way to another one. Raises `BadGraph`,
    `TooLarge` and the exceptions on programs."""
    graph = Graph(source)
    asked = _Asked(graph)
    found = Reports(graph, Analysis.from_text(asked.report("analyse"), graph), asked.texts)
    if not found.analysis.covered:
        return found
    found.decomposition = Decomposition.from_text(asked.report("decompose", "first"), graph)
    found.ears = Ears.from_text(asked.report("ears"), graph)
    for order in ORDERS[1:]:
        text = asked.read("decompose", order)
        other = Decomposition.from_text(text, graph)
        if other.to_text() != found.decomposition.to_text():
            asked.keep("decompose", text, order)
            trees = {"first": found.decomposition.to_text(), "second": other.to_text()}
            report = asked.report("compare", "first", "second", files=trees)
            found.comparison = Comparison.from_text(report, graph, found.decomposition, other)
            break
    return found


class _Asked:
    """Asks `mcg` about one graph, and keeps the reports."""

    def __init__(self, graph: Graph) -> None:
        self.text = graph.to_text()
        self.texts: List[Tuple[str, str]] = []

    def read(self, command: str, *words: str, files: Optional[Dict[str, str]] = None) -> str:
        given = {"graph": self.text, **(files or {})}
        return "\n".join(run(command, ["graph", *words], given)[1]) + "\n"

    def keep(self, command: str, text: str, *words: str) -> str:
        self.texts.append((" ".join(["mcg", command, "FILE", *words]), text))
        return text

    def report(self, command: str, *words: str, files: Optional[Dict[str, str]] = None) -> str:
        return self.keep(command, self.read(command, *words, files=files), *words)
