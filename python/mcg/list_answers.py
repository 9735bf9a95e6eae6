"""What is reported of the graphs of a list: one plain answer for each."""
from __future__ import annotations

from dataclasses import asdict, dataclass, field, fields
from typing import Any, Dict, Mapping, Optional, Tuple

from . import dicts
from .graphs import Graph
from .labels import Label, brief, counted, shown


@dataclass(frozen=True, repr=False)
class Kind:
    """What `mcg6 kinds` reports of a graph.

    `index` is the place of the graph among those given, from 0, and `given` is the graph itself.
    `graph6` is the text of the simple graph, `order` and `size` are its numbers of vertices and
    edges, and `covered` says whether it is matching covered. If it is not, `reason` is `"order"`
    (fewer than two vertices), `"parts"` (not connected), `"berge"` (no perfect matching) or
    `"edge"` (some edge is in no perfect matching), and `kind`, `bricks`, `braces` and `bicritical`
    are None. If it is, `reason` is None, `kind` is `"brick"`, `"brace"` or `"composite"`, `bricks`
    and `braces` count those of each of its tight cut decompositions (Lovász 1987), and `bicritical`
    says whether deleting any two vertices leaves a graph with a perfect matching. `deficiency` is
    the number of vertices that a maximum matching misses, so 0 if the graph is covered.

    >>> import mcg
    >>> next(mcg.kinds(["C~"]))
    <Kind of graph 0, C~: brick, 1 brick, 0 braces>
    """

    index: int
    graph6: str
    order: int
    size: int
    covered: bool
    reason: Optional[str]
    deficiency: int
    kind: Optional[str]
    bricks: Optional[int]
    braces: Optional[int]
    bicritical: Optional[bool]
    given: Any = field(default=None, compare=False)

    @classmethod
    def of(cls, index: int, graph6: str, facts: Mapping[str, Any], given: Any) -> Kind:
        """Returns the kind with these values; `facts` has the other fields by name. They are set at
        once, which takes less time than the frozen class takes, and a list can have millions."""
        made = object.__new__(cls)
        made.__dict__.update(facts, index=index, graph6=graph6, given=given)
        return made

    def __repr__(self) -> str:
        what = f"not matching covered ({self.reason})"
        if self.covered:
            what = f"{self.kind}, {counted(self.bricks or 0, 'brick')}, {counted(self.braces or 0, 'brace')}"
        return f"<Kind of graph {self.index}, {brief(self.graph6)}: {what}>"

    def to_dict(self) -> Dict[str, Any]:
        """Returns the answer as a dict with the names of its fields, without the graph that was
        given. A list of them makes a table: `pandas.DataFrame([kind.to_dict() for kind in ..])`."""
        return {it.name: getattr(self, it.name) for it in fields(self) if it.name != "given"}

    @classmethod
    def from_dict(cls, given: Mapping[str, Any], graph: Any = None) -> Kind:
        """Returns the answer of a dict that `to_dict` made, with the graph, if there is one. Raises
        `BadText`."""
        with dicts.understood("a kind"):
            return cls(**given, given=graph)


@dataclass(frozen=True, repr=False)
class ListLeaf:
    """A brick or brace of a graph of a list.

    `index` is the place of the graph among those given, from 0, and `graph` is its graph6 text;
    `graph6` is the text of the leaf as a simple graph, and `kind` is `"brick"` or `"brace"`.

    >>> import mcg
    >>> next(mcg.leaves(["C~"]))
    <brick C~ of graph 0>
    """

    index: int
    graph: str
    graph6: str
    kind: str

    def __repr__(self) -> str:
        return f"<{self.kind} {brief(self.graph6)} of graph {self.index}>"

    def to_dict(self) -> Dict[str, Any]:
        """Returns the answer as a dict with the names of its fields."""
        return asdict(self)

    @classmethod
    def from_dict(cls, given: Mapping[str, Any], _graph: Any = None) -> ListLeaf:
        """Returns the answer of a dict that `to_dict` made. Raises `BadText`."""
        with dicts.understood("a leaf"):
            return cls(**given)


@dataclass(frozen=True, repr=False)
class ListComponent:
    """An elementary component of a graph of a list.

    `index` is the place of the graph among those given, from 0. `graph6` is the text of the
    component as a simple graph: its vertices, and the allowed edges between them, those that lie
    in perfect matchings. `vertices` are the labels of its vertices in the graph, in the order of
    the vertices of the text; those of a graph in graph6 are 0, 1, .., as in `Graph(text)`.

    >>> import mcg
    >>> next(mcg.elementary([[("b", "a")]])).vertices
    ('b', 'a')
    """

    index: int
    graph6: str
    vertices: Tuple[Label, ...]

    def __repr__(self) -> str:
        return f"<component {brief(', '.join(map(shown, self.vertices)))} of graph {self.index}: {brief(self.graph6)}>"

    def to_dict(self) -> Dict[str, Any]:
        """Returns the answer as a dict with the names of its fields."""
        return {"index": self.index, "graph6": self.graph6, "vertices": list(self.vertices)}

    @classmethod
    def from_dict(cls, given: Mapping[str, Any], graph: Any = None) -> ListComponent:
        """Returns the answer of a dict that `to_dict` made; with a graph, its labels are those of
        this graph that are written so, a tuple as a list. Raises `BadText`."""
        with dicts.understood("a component"):
            labels = [_plain(it) for it in given["vertices"]]
            if graph is not None:
                known = {_plain(it): it for it in Graph(graph).vertices}
                labels = [known[it] for it in labels]
            return cls(given["index"], given["graph6"], tuple(labels))


def _plain(label: Any) -> Any:
    """A label with its lists as tuples."""
    return tuple(map(_plain, label)) if isinstance(label, (list, tuple)) else label
