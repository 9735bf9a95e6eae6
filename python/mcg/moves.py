"""Moves between decompositions: Rotate and Switch, and their text."""
from __future__ import annotations

import re
from dataclasses import dataclass
from typing import Any, Dict, FrozenSet, Iterable, List, Mapping, Optional, Union

from . import dicts, texts
from .errors import LIMIT, BadText
from .graphs import Graph, GraphLike
from .labels import Label, brief, counted, shown

MOST_MOVES = 20_000


@dataclass(frozen=True)
class Rotate:
    """The move that brings the cut at the end of the path over its parent.

    A path is a text with the letter k for each step to `kept` and m for each step to `merged`,
    from the root; the path of no steps is empty.

    >>> print(Rotate("km"))
    rotate km
    """

    path: str

    def __str__(self) -> str:
        return f"rotate {self.path or '.'}"


@dataclass(frozen=True, repr=False)
class Switch:
    """The move that exchanges, at the cut at the end of the path, the part `leaves` of the shore
    and the part `joins` of its complement.

    >>> print(Switch("", frozenset({"a"}), frozenset({"d"})))
    switch . {'a'} {'d'}
    """

    path: str
    leaves: FrozenSet[Label]
    joins: FrozenSet[Label]

    def __str__(self) -> str:
        return f"switch {self.path or '.'} {shown(self.leaves)} {shown(self.joins)}"

    def __repr__(self) -> str:
        return f"Switch(path={self.path!r}, leaves={shown(self.leaves)}, joins={shown(self.joins)})"


Move = Union[Rotate, Switch]


class Moves(List[Move]):
    """A list of moves, each made on what the one before has left.

    `graph` is the `Graph` that they were found for, None for a list made by hand. `print` shows a
    line for each.

    >>> Moves([Rotate("k"), Rotate("m")])
    <Moves: 2 rotations, 0 switches>
    >>> print(Moves([Rotate("k"), Rotate("m")]))
    rotate k
    rotate m
    """

    graph: Optional[Graph]

    def __init__(self, moves: Iterable[Move] = (), graph: Optional[GraphLike] = None) -> None:
        super().__init__(moves)
        self.graph = None if graph is None else Graph(graph)

    def __repr__(self) -> str:
        rotates = sum(isinstance(it, Rotate) for it in self)
        return f"<Moves: {counted(rotates, 'rotation')}, {counted(len(self) - rotates, 'switch', 'switches')}>"

    def __str__(self) -> str:
        return "\n".join(map(str, self))

    def to_dict(self, graph: Optional[GraphLike] = None) -> Dict[str, Any]:
        """Returns the moves as a dict, by the rules of `mcg.dicts`: `moves` has for each a `path`
        and, for a Switch, the sets `leaves` and `joins`. A list made by hand needs the graph."""
        numbered = dicts.graph_for("moves", self.graph, graph)
        return {**dicts.head(numbered), "moves": [_as_dict(it, numbered) for it in self]}

    @classmethod
    def from_dict(cls, given: Mapping[str, Any], graph: GraphLike) -> Moves:
        """Returns the moves of a dict that `to_dict` made, with the labels of the graph. Raises
        `BadText` for another dict, or a graph with other edges."""
        numbered = dicts.numbered(given, graph)
        with dicts.understood("moves"):
            made = cls((_of_dict(it, numbered) for it in given["moves"]), numbered)
        dicts.demand_same(made.to_dict(), given)
        return made

    def to_text(self, graph: GraphLike) -> str:
        """Returns the text in the move format for this graph. Raises `BadText` for a label that
        is not a vertex of the graph, a path that is none, or too many moves."""
        numbered = Graph(graph)
        if len(self) > MOST_MOVES:
            raise BadText(f"there are {len(self):,} moves, and {MOST_MOVES:,} is the most", kind=LIMIT)
        return texts.bounded("the list of moves", [f"m mcg {numbered.order}", *(_words(it, numbered) for it in self)])

    @classmethod
    def from_text(cls, text: str, graph: GraphLike) -> Moves:
        """Returns the moves of a text in the move format, in the labels of the graph. Raises
        `BadText` with the line and the kind."""
        numbered = Graph(graph)
        reader = texts.Reader(text)
        line, (order,) = reader.header("m", "mcg", 1)
        if order != numbered.order:
            raise reader.fault(line, texts.HEADER)
        moves = cls(graph=numbered)
        while not reader.is_done():
            line, words = reader.take()
            if len(moves) == MOST_MOVES:
                raise reader.fault(line, LIMIT)
            moves.append(_read(reader, line, words, numbered))
        return moves


def _words(move: Move, graph: Graph) -> str:
    """The line of a move."""
    path = move.path or "."
    if not isinstance(move.path, str) or not re.fullmatch("[km]{0,127}", move.path):
        raise BadText(f"a path has at most 127 letters k and m, and is not {brief(repr(move.path))}", kind=texts.WORD)
    if isinstance(move, Rotate):
        return f"rotate {path}"
    parts = [graph.numbers(it) for it in (move.leaves, move.joins)]
    if not all(parts):
        raise BadText(f"a Switch has two sets that are not empty: {move}", kind=texts.WORD)
    return f"switch {path} " + " ".join(",".join(map(str, it)) for it in parts)


def _as_dict(move: Move, graph: Graph) -> Dict[str, Any]:
    if isinstance(move, Rotate):
        return {"move": "rotate", "path": move.path}
    sets = {"leaves": graph.numbers(move.leaves), "joins": graph.numbers(move.joins)}
    return {"move": "switch", "path": move.path, **sets}


def _of_dict(given: Mapping[str, Any], graph: Graph) -> Move:
    if given["move"] == "rotate":
        return Rotate(given["path"])
    return Switch(given["path"], graph.labels(given["leaves"]), graph.labels(given["joins"]))


def _read(reader: texts.Reader, line: int, words: List[str], graph: Graph) -> Move:
    due = {"rotate": 2, "switch": 4}.get(words[0])
    if len(words) != due or not re.fullmatch(r"\.|[km]{1,127}", words[1]):
        raise reader.fault(line, texts.WORD)
    path = words[1].strip(".")
    if words[0] == "rotate":
        return Rotate(path)
    parts = [word.split(",") for word in words[2:]]
    reader.numbers(line, (it for part in parts for it in part))
    out, into = (graph.labels(reader.vertices(line, part, graph.order)) for part in parts)
    return Switch(path, out, into)


def as_moves(moves: Iterable[Move]) -> Moves:
    """Returns the moves as a list with `to_text`. Raises `BadText` for anything else."""
    if isinstance(moves, (str, bytes)):
        raise TypeError("moves are a list of Rotate and Switch; Moves.from_text(text, graph) reads a text")
    listed = list(moves)
    for it in listed:
        if not isinstance(it, (Rotate, Switch)):
            raise BadText(f"a move is a Rotate or a Switch, and not {brief(shown(it))}")
    return Moves(listed)
