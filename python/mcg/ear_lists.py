"""Ear decompositions, and `ears`, which finds one."""
from __future__ import annotations

from dataclasses import dataclass, field
from typing import TYPE_CHECKING, Any, Dict, Iterator, List, Mapping, Optional, Tuple

from . import dicts, report_texts, texts
from .analysis import demand_covered
from .errors import BadText
from .graphs import Graph, GraphLike
from .labels import Label, counted, shown
from .pictures import Drawable
from .programs import reported, run
from .sources import Edge

if TYPE_CHECKING:
    from .draw import Picture


@dataclass(frozen=True, repr=False)
class Ear:
    """An ear: the vertex where it begins, and its edges in order.

    >>> Ear("a", (("a", "b"), ("c", "b"), ("c", "d"))).path
    ['a', 'b', 'c', 'd']
    """

    vertex: Label
    edges: Tuple[Edge, ...]

    @property
    def path(self) -> List[Label]:
        """The vertices along the ear, if it is a path."""
        walk = [self.vertex]
        for edge in self.edges:
            walk.append(edge[1] if edge[0] == walk[-1] else edge[0])
        return walk

    def __repr__(self) -> str:
        return f"<ear with {counted(len(self.edges), 'edge')}: {' '.join(map(shown, self.path))}>"


@dataclass(frozen=True, repr=False)
class Ears(Drawable):
    """An ear decomposition: the edge of the first stage, and for each step its one or two ears.

    Its length is the number of steps, and iterating yields them. `graph` is the `Graph` that `ears`
    was given, None for a list made by hand.

    Source: Lovász and Plummer, "Matching Theory" (1986), section 5.4; every matching covered graph
    has one.

    >>> import mcg
    >>> found = mcg.ears([("a", "b"), ("b", "c"), ("c", "d"), ("d", "a")])
    >>> found
    <Ears from ('a', 'b'): 1 step, 1 single, 0 double>
    >>> print(found)
    <Ears from ('a', 'b'): 1 step, 1 single, 0 double>
    step 1: 'a' 'd' 'c' 'b'
    """

    start: Edge
    steps: List[Tuple[Ear, ...]]
    graph: Optional[Graph] = field(default=None, compare=False)

    @property
    def single(self) -> int:
        """The number of steps with one ear."""
        return sum(len(step) == 1 for step in self.steps)

    @property
    def double(self) -> int:
        """The number of steps with two ears."""
        return sum(len(step) == 2 for step in self.steps)

    def __hash__(self) -> int:
        return hash((self.start, tuple(self.steps)))

    def __len__(self) -> int:
        return len(self.steps)

    def __iter__(self) -> Iterator[Tuple[Ear, ...]]:
        return iter(self.steps)

    def __bool__(self) -> bool:
        """True, for a list without steps as well, which is that of a single edge."""
        return True

    def __repr__(self) -> str:
        steps = f"{counted(len(self.steps), 'step')}, {self.single} single, {self.double} double"
        return f"<Ears from {shown(self.start)}: {steps}>"

    def __str__(self) -> str:
        paths = ("; with ".join(" ".join(map(shown, ear.path)) for ear in step) for step in self.steps)
        return "\n".join([repr(self), *(f"step {k}: {path}" for k, path in enumerate(paths, 1))])

    def to_dict(self, graph: Optional[GraphLike] = None) -> Dict[str, Any]:
        """Returns the list as a dict, by the rules of `mcg.dicts`: `start` is an edge, and each of
        the `steps` has one ear or two, with its `vertex` and `edges`. A list made by hand needs
        the graph."""
        numbered = dicts.graph_for("ears", self.graph, graph)
        steps = [
            [
                {"vertex": numbered.number(it.vertex), "edges": dicts.edge_numbers(numbered, it.edges)}
                for it in step
            ]
            for step in self.steps
        ]
        return {**dicts.head(numbered), "start": numbered.edge_number(self.start), "steps": steps}

    @classmethod
    def from_dict(cls, given: Mapping[str, Any], graph: GraphLike) -> Ears:
        """Returns the list of a dict that `to_dict` made, with the labels of the graph. Raises
        `BadText` for another dict, or a graph with other edges."""
        numbered = dicts.numbered(given, graph)
        with dicts.understood("ears"):
            steps = [
                tuple(
                    Ear(numbered.label(it["vertex"]), tuple(numbered.edge_list(it["edges"])))
                    for it in step
                )
                for step in given["steps"]
            ]
            made = cls(numbered.edge(given["start"]), steps, numbered)
        dicts.demand_same(made.to_dict(), given)
        return made

    def draw(self, graph: Optional[GraphLike] = None, **options: Any) -> Picture:
        """Returns the picture: a panel for the first edge and for each step. The options are those
        of `mcg.draw.draw_ears`: `pos`, `columns`, `labels`, `title`, `ax`."""
        from .draw.ears import draw_ears

        return draw_ears(self, graph, **options)

    def _bare(self, options: Dict[str, Any]) -> Picture:
        from .draw.ears import graph_of
        from .draw.graphs import on_circle

        given = options.get("graph")
        around = on_circle((graph_of(self) if given is None else Graph(given)).vertices)
        return self.draw(**{**options, "pos": around})

    def to_dot(self) -> str:
        """Returns the graph for Graphviz, each edge with the number of its step."""
        from .draw.ears import ears_dot

        return ears_dot(self)

    def to_text(self, graph: GraphLike) -> str:
        """Returns the text in the ear format for this graph. Raises `BadText` for an ear that is
        not made of vertices and edges of the graph."""
        numbered = Graph(graph)
        rows = [f"r mcg {numbered.order} {numbered.size}", f"start {numbered.edge_number(self.start)}"]
        for step in self.steps:
            if not 1 <= len(step) <= 2:
                raise BadText(f"a step has one ear or two, and not {len(step)}")
            for word, ear in zip(("ear", "with"), step):
                if not ear.edges:
                    raise BadText(f"an ear has at least one edge: {ear!r}", kind=texts.WORD)
                edges = [numbered.edge_number(edge) for edge in ear.edges]
                rows.append(texts.spaced(word, [numbered.number(ear.vertex), *edges]))
        return texts.bounded("the list of ears", rows)

    @classmethod
    def from_text(cls, text: str, graph: GraphLike) -> Ears:
        """Returns the ears of a text in the ear format, in the labels of the graph. Raises
        `BadText` with the line and the kind."""
        return _read(text, Graph(graph))


def ears(graph: GraphLike) -> Ears:
    """Returns an ear decomposition of a matching covered graph.

    Each stage is matching covered, an ear is a path of odd length, and two ears are added at once
    only if no ear decomposition goes on with a single one; never in a bipartite graph. Raises
    `NotCovered`, `BadGraph`, `TooLarge`, and the exceptions on programs.

    >>> import mcg
    >>> len(mcg.ears("C~")), mcg.ears("C~").double
    (2, 1)
    """
    numbered = Graph(graph)
    status, report = run("ears", ["graph"], {"graph": numbered.to_text()})
    with reported("ears", status):
        demand_covered(report, numbered)
        found = _read("\n".join(report) + "\n", numbered)
        report_texts.demand_exact(report_texts.ears_lines(found, numbered), report)
        return found


def _read(text: str, graph: Graph) -> Ears:
    reader = texts.Reader(text)
    line, given = reader.header("r", "mcg", 2)
    if given != [graph.order, graph.size]:
        raise reader.fault(line, texts.HEADER)
    line, words = reader.take()
    if words[0] != "start" or len(words) != 2:
        raise reader.fault(line, texts.WORD)
    (start,) = reader.numbers(line, words[1:])
    if not 1 <= start <= graph.size:
        raise reader.fault(line, texts.RANGE)
    steps: List[Tuple[Ear, ...]] = []
    before = "start"
    while not reader.is_done():
        line, words = reader.take()
        is_second = words[0] == "with" and before == "ear"
        if not (words[0] == "ear" or is_second) or len(words) < 3:
            raise reader.fault(line, texts.WORD)
        ear = _read_ear(reader, line, words[1:], graph)
        if is_second:
            steps[-1] += (ear,)
        else:
            steps.append((ear,))
        before = words[0]
    return Ears(graph.edge(start), steps, graph)


def _read_ear(reader: texts.Reader, line: int, words: List[str], graph: Graph) -> Ear:
    first, *edges = reader.numbers(line, words)
    if not 1 <= first <= graph.order or not all(1 <= it <= graph.size for it in edges):
        raise reader.fault(line, texts.RANGE)
    return Ear(graph.label(first), tuple(graph.edge_list(edges)))
