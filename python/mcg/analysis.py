"""The structure of a graph, as `mcg analyse` reports it."""
from __future__ import annotations

from dataclasses import dataclass
from typing import Any, Dict, FrozenSet, List, Mapping, Optional, Tuple

from . import dicts, report_texts
from .errors import NotCovered
from .graphs import Graph, GraphLike
from .labels import Label, counted, shown
from .programs import reported, run, understood
from .sources import Edge
from .words import uncovered_words

Pair = Tuple[Label, Label]

# What is known of matching covered graphs alone.
STRUCTURE = ("classes", "bicritical", "equivalent_pair", "cut_pair", "kind", "shore")

# The fields that are numbers and texts, sets of vertices, and pairs of them.
PLAIN = (
    *("order", "size", "components", "bipartite", "matching_number", "deficiency"),
    *("covered", "reason", "bicritical", "kind"),
)
SETS = ("D", "A", "C", "shore")
PAIRS = ("equivalent_pair", "cut_pair")


@dataclass(frozen=True, repr=False)
class Analysis:
    """The structure of a graph, in the caller's labels.

    For every graph: `order` and `size`; `components`, their number; `bipartite`;
    `matching_number`, the edges of a maximum matching; `deficiency`, the vertices it misses; the
    Gallai-Edmonds sets `D`, `A` and `C`; `allowed`, the edges that are in a perfect matching;
    `covered`, whether the graph is matching covered; `reason` and `witness` as `NotCovered` has
    them, both None if it is.

    For a matching covered graph, and else None: `classes`, the canonical partition (two vertices
    are in one class if deleting them leaves no perfect matching); `bicritical`;
    `equivalent_pair`, the first two vertices of one class, None if it is bicritical; `cut_pair`,
    the first two vertices whose deletion disconnects the graph, or None; `kind`, `"brick"`,
    `"brace"` or `"composite"`; `shore`, one side of a nontrivial tight cut if it is composite.
    "First" is by the order of `Graph(G).vertices`. `graph` is the `Graph` that it is of.

    Sources: Lovász and Plummer, "Matching Theory" (1986), sections 3.2 and 5.2.

    >>> import mcg
    >>> path = mcg.analyse([("a", "b"), ("b", "c"), ("c", "d")])
    >>> path
    <Analysis of 4 vertices, 3 edges: not matching covered (edge)>
    >>> path.allowed, path.C
    ([('a', 'b'), ('c', 'd')], {'a', 'b', 'c', 'd'})
    >>> print(path)
    <Analysis of 4 vertices, 3 edges: not matching covered (edge)>
    components: 1
    bipartite: True
    matching_number: 2
    deficiency: 0
    D: {}
    A: {}
    C: {'a', 'b', 'c', 'd'}
    allowed: ('a', 'b'), ('c', 'd')
    the graph is not matching covered: edge ('b', 'c') is in no perfect matching (leave out such edges: analyse lists the others as allowed)
    >>> mcg.Analysis.from_dict(path.to_dict(), path.graph) == path
    True
    """

    order: int
    size: int
    components: int
    bipartite: bool
    matching_number: int
    deficiency: int
    D: FrozenSet[Label]
    A: FrozenSet[Label]
    C: FrozenSet[Label]
    allowed: List[Edge]
    covered: bool
    reason: Optional[str]
    witness: Any
    classes: Optional[List[FrozenSet[Label]]]
    bicritical: Optional[bool]
    equivalent_pair: Optional[Pair]
    cut_pair: Optional[Pair]
    kind: Optional[str]
    shore: Optional[FrozenSet[Label]]
    graph: Graph

    def __hash__(self) -> int:
        return hash((self.graph, self.reason, self.kind))

    def __repr__(self) -> str:
        sizes = f"{counted(self.order, 'vertex', 'vertices')}, {counted(self.size, 'edge')}"
        return f"<Analysis of {sizes}: {self.kind or f'not matching covered ({self.reason})'}>"

    def __str__(self) -> str:
        """The lines of the report, in labels."""
        sets = [f"{name}: {shown(getattr(self, name))}" for name in ("D", "A", "C")]
        rows = [f"{name}: {getattr(self, name)}" for name in ("components", "bipartite", "matching_number", "deficiency")]
        rows = [repr(self), *rows, *sets, f"allowed: {', '.join(map(shown, self.allowed))}"]
        if not self.covered:
            return "\n".join([*rows, uncovered_words(self.reason, self.witness)])
        pairs = [f"{name}: {shown(getattr(self, name))}" for name in PAIRS]
        classes = f"classes: {', '.join(map(shown, self.classes or []))}"
        kind = f"kind: {self.kind}" if self.shore is None else f"kind: {self.kind}, shore {shown(self.shore)}"
        return "\n".join([*rows, classes, f"bicritical: {self.bicritical}", *pairs, kind])

    @classmethod
    def from_text(cls, text: str, graph: GraphLike) -> Analysis:
        """Returns the report of `mcg analyse` on the graph, in its labels. Raises `BadText`."""
        return _understood(report_texts.lines_of(text), Graph(graph))

    def to_dict(self) -> Dict[str, Any]:
        """Returns the analysis as a dict with the names of its fields, by the rules of
        `mcg.dicts`."""
        made = {**dicts.head(self.graph), **{name: getattr(self, name) for name in PLAIN}}
        for name in SETS:
            found = getattr(self, name)
            made[name] = None if found is None else self.graph.numbers(found)
        for name in PAIRS:
            pair = getattr(self, name)
            made[name] = None if pair is None else [self.graph.number(it) for it in pair]
        made["allowed"] = dicts.edge_numbers(self.graph, self.allowed)
        made["classes"] = None if self.classes is None else [self.graph.numbers(it) for it in self.classes]
        return {**made, "witness": dicts.witness(self.graph, self.reason, self.witness)}

    @classmethod
    def from_dict(cls, given: Mapping[str, Any], graph: GraphLike) -> Analysis:
        """Returns the analysis of a dict that `to_dict` made, with the labels of the graph.
        Raises `BadText` for another dict, or a graph with other edges."""
        numbered = dicts.numbered(given, graph)
        with dicts.understood("an analysis"):
            made: Dict[str, Any] = {name: given[name] for name in PLAIN}
            for name in SETS:
                made[name] = None if given[name] is None else numbered.labels(given[name])
            for name in PAIRS:
                made[name] = None if given[name] is None else tuple(map(numbered.label, given[name]))
            made["allowed"] = numbered.edge_list(given["allowed"])
            listed = given["classes"]
            made["classes"] = None if listed is None else [numbered.labels(it) for it in listed]
            made["witness"] = dicts.read_witness(numbered, given["reason"], given["witness"])
            analysis = cls(**made, graph=numbered)
        dicts.demand_same(analysis.to_dict(), given)
        return analysis


def analyse(graph: GraphLike) -> Analysis:
    """Returns the structure of a graph with at most 128 vertices and 2,048 edges.

    Raises `BadGraph`, `TooLarge` and the exceptions on programs.

    >>> import mcg
    >>> mcg.analyse("C~").classes
    [{0}, {1}, {2}, {3}]
    """
    numbered = Graph(graph)
    status, report = run("analyse", ["graph"], {"graph": numbered.to_text()})
    with reported("analyse", status):
        return _understood(report, numbered)


def _understood(report: List[str], graph: Graph) -> Analysis:
    with understood("analyse"):
        found = _read(report, graph)
        rows = report[:-1] if report[-1] == f"graph6 {graph.graph6()}" else report
        report_texts.demand_begins(report_texts.analyse_lines(found), rows, "name")
        return found


def verdict(line: str, graph: Graph) -> Optional[Tuple[str, Any]]:
    """Returns the reason and the witness of a line `covered no ..`, and None for `covered yes`."""
    words = line.split()
    if words[:2] == ["covered", "yes"]:
        return None
    if words[:2] != ["covered", "no"]:
        raise ValueError(line)
    reason, numbers = words[2], [int(it) for it in words[3:]]
    witnesses: Dict[str, Any] = {
        "order": lambda: None,
        "parts": lambda: tuple(graph.label(k) for k in numbers),
        "berge": lambda: graph.labels(numbers),
        "edge": lambda: graph.edge(numbers[0]),
    }
    return reason, witnesses[reason]()


def demand_covered(report: List[str], graph: Graph) -> None:
    """Raises `NotCovered` if a report is the line `covered no ..`."""
    if report[:1] and report[0].startswith("covered no"):
        found = verdict(report[0], graph)
        assert found
        raise NotCovered(*found)


def _read(report: List[str], graph: Graph) -> Analysis:
    """The report of `analyse`, line by line."""
    words = iter([line.split() for line in report])

    def due(name: str) -> List[str]:
        found = next(words)
        if found[:1] != [name]:
            raise ValueError(f"{name} is expected, and not {' '.join(found)}")
        return found[1:]

    def vertices(name: str) -> FrozenSet[Label]:
        return graph.labels(map(int, due(name)))

    order, size = map(int, due("graph"))
    if (order, size) != (graph.order, graph.size):
        raise ValueError("the report is on another graph")
    general: Dict[str, Any] = {
        "graph": graph,
        "order": order,
        "size": size,
        "components": int(due("components")[0]),
        "bipartite": due("bipartite")[0] == "yes",
        "matching_number": int(due("matching")[0]),
        "deficiency": int(due("deficiency")[0]),
        "D": vertices("D"),
        "A": vertices("A"),
        "C": vertices("C"),
        "allowed": graph.edge_list(map(int, due("allowed"))),
    }
    found = verdict(" ".join(["covered", *due("covered")]), graph)
    if found is not None:
        nothing: Dict[str, Any] = dict.fromkeys(STRUCTURE)
        return Analysis(**general, covered=False, reason=found[0], witness=found[1], **nothing)
    return Analysis(
        **general,
        covered=True,
        reason=None,
        witness=None,
        classes=[vertices("class") for _ in range(int(due("classes")[0]))],
        **_pair("bicritical", "equivalent_pair", due("bicritical"), graph),
        **_pair(None, "cut_pair", due("cutpair"), graph),
        **_kind(due("kind"), graph),
    )


def _pair(flag: Optional[str], name: str, words: List[str], graph: Graph) -> Dict[str, Any]:
    """A pair of vertices at the end of a line, None if it has none, and whether its word is yes."""
    numbers = [int(it) for it in words if it.isdigit()]
    pair = tuple(graph.label(k) for k in numbers) if numbers else None
    found: Dict[str, Any] = {name: pair}
    if flag:
        found[flag] = words[0] == "yes"
    return found


def _kind(words: List[str], graph: Graph) -> Dict[str, Any]:
    shore = graph.labels(map(int, words[1:])) if words[0] == "composite" else None
    return {"kind": words[0], "shore": shore}
