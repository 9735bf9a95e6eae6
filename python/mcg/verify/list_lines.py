"""What mcg6 writes about a graph of a list, by the definitions: the lines that are due."""
from __future__ import annotations

from functools import cached_property
from typing import Callable, Dict, List, NamedTuple, Optional, Sequence

from .. import graph6
from ..ear_lists import Ear, Ears
from ..errors import BadInput
from ..graphs import Graph
from . import stages
from .all_cuts import candidates, leaves
from .list_texts import Listed
from .places import Place, Simple, members
from .structure import Wrong, need


class Due(NamedTuple):
    """A line that is due: the number of the graph's line in the list; the line itself, or None if
    something in it is free; how a line begins that is about the graph; and what judges a line, which
    returns what is wrong with it, or an empty text."""

    number: int
    line: Optional[bytes]
    start: bytes
    judge: Callable[[bytes], str]


def fixed(number: int, line: str, end: bytes = b"\n") -> Due:
    """Returns a line in which nothing is free."""
    due = line.encode("latin-1") + end

    def judge(found: bytes) -> str:
        return "" if found == due else f"it is to be {shown(due)}"

    return Due(number, due, due, judge)


def free(it: Listed, start: str, judged: Callable[[List[str]], str]) -> Due:
    """Returns a line that begins so, in which something is free. `judged` takes the words of a line
    and returns what the line would be, written in canonical form, if what it says is right; it raises
    `Wrong` if not."""

    def judge(found: bytes) -> str:
        try:
            line = judged(found.decode("latin-1").rstrip("\n").split(" "))
        except Wrong as what:
            return str(what)
        except (BadInput, IndexError, KeyError, ValueError):
            return "it is no such line"
        return "" if found == line.encode("latin-1") + b"\n" else f"it would be written {line!r}"

    return Due(it.number, None, start.encode("latin-1") + b" ", judge)


def shown(line: bytes) -> str:
    """Returns a line as text, with dots for its end if it is long."""
    text = repr(line)[2:-1]
    return f"'{text}'" if len(text) <= 160 else f"'{text[:157]}...'"


class Facts:
    """A graph of a list with what the definitions say of it. Vertices count from 0."""

    def __init__(self, it: Listed) -> None:
        self.listed = it
        self.pairs = [(a - 1, b - 1) for a, b in it.edges]
        self.simple = Simple(it.order, self.pairs)
        self.place = Place(self.pairs, [1 << v for v in range(it.order)])
        self.place.__dict__["simple"] = self.simple

    @cached_property
    def is_covered(self) -> bool:
        """Whether the graph is matching covered."""
        return self.simple.is_covered()

    @property
    def is_perfect(self) -> bool:
        """Whether the graph has a perfect matching."""
        return not self.simple.deficiency

    @property
    def is_bicritical(self) -> bool:
        """Whether the graph is bicritical and has an edge."""
        is_big = self.simple.order >= 2 and self.is_perfect
        return is_big and self.simple.first_equivalent() is None

    @property
    def reason(self) -> str:
        """The first reason why the graph is not matching covered."""
        if self.simple.order < 2:
            return "order"
        if len(self.simple.components()) > 1:
            return "parts"
        return "edge" if self.is_perfect else "berge"

    def leaves(self, order: str) -> List[Place]:
        """The contractions at the leaves of a decomposition; none if it is not matching covered."""
        return leaves(self.place, self.pairs, order) if self.is_covered else []

    @cached_property
    def leaf_kinds(self) -> List[str]:
        """The kinds of the leaves of a decomposition."""
        return [kind_of(it.simple) for it in self.leaves("first")]

    @property
    def kind(self) -> str:
        """The kind of a matching covered graph."""
        return "composite" if len(self.leaf_kinds) > 1 else self.leaf_kinds[0]


def kind_of(simple: Simple) -> str:
    """Returns whether a graph at a leaf is a brick or a brace. Raises `Wrong` if it is neither."""
    if simple.is_brace():
        return "brace"
    need(simple.is_brick(), "a leaf that is neither a brick nor a brace")
    return "brick"


def kinds(facts: Facts, _words: Sequence[str]) -> List[Due]:
    """The line of `kinds`."""
    it, simple = facts.listed, facts.simple
    about = f"{it.text} {it.order} {len(it.edges)}"
    if not facts.is_covered:
        return [fixed(it.number, f"{about} uncovered {facts.reason} {simple.deficiency}")]
    counts = [facts.leaf_kinds.count(word) for word in ("brick", "brace")]
    bicritical = "yes" if facts.is_bicritical else "no"
    line = f"{about} {facts.kind} {counts[0]} {counts[1]} bicritical {bicritical}"
    return [fixed(it.number, line)]


def leaf_lines(facts: Facts, words: Sequence[str]) -> List[Due]:
    """The lines of `leaves`."""
    it = facts.listed
    return [
        fixed(it.number, f"{it.number} {it.text} {text_of(place.simple)} {kind_of(place.simple)}")
        for place in facts.leaves(words[0] if words else "first")
    ]


def text_of(simple: Simple) -> str:
    """Returns the graph6 text of a graph."""
    edges = ((a + 1, b + 1) for a, row in enumerate(simple.rows) for b in row)
    return graph6.encode(simple.order, edges)


def elementary(facts: Facts, _words: Sequence[str]) -> List[Due]:
    """The lines of `elementary`."""
    it, simple = facts.listed, facts.simple
    if not facts.is_perfect:
        return []
    allowed = Simple(simple.order, [(a, b) for a, b in facts.pairs if simple.table[a][b]])
    found = []
    for part in allowed.components():
        name = {v: k for k, v in enumerate(members(part), 1)}
        edges = [(name[a], name[b]) for a in name for b in allowed.rows[a]]
        row = [it.number, graph6.encode(len(name), edges), *(v + 1 for v in name)]
        found.append(fixed(it.number, " ".join(map(str, row))))
    return found


def select(facts: Facts, words: Sequence[str]) -> List[Due]:
    """The line of `select`, which is that of the list with its own end."""
    if not _has(facts, words[0]):
        return []
    return [fixed(facts.listed.number, facts.listed.line.decode("latin-1"), b"")]


def _has(facts: Facts, what: str) -> bool:
    """Whether a graph has a property."""
    if what == "perfect":
        return facts.is_perfect
    if what == "bicritical":
        return facts.is_bicritical
    if not facts.is_covered or what == "uncovered":
        return not facts.is_covered and what == "uncovered"
    name, _, number = what.partition("=")
    if number:
        return facts.leaf_kinds.count(name[:-1]) == int(number)
    return what == "covered" or facts.kind == what


def cuts(facts: Facts, _words: Sequence[str]) -> List[Due]:
    """The lines of `cuts`."""
    it = facts.listed
    found = candidates(facts.simple, facts.pairs) if facts.is_covered else []
    rows = ([it.number, it.text, one.origin, *(v + 1 for v in members(one.shore))] for one in found)
    return [fixed(it.number, " ".join(map(str, row))) for row in rows]


def matching(facts: Facts, _words: Sequence[str]) -> List[Due]:
    """The line of `matching`, in which the edges are free."""
    it, simple = facts.listed, facts.simple
    missed = sum(1 << v for v, is_missed in enumerate(simple.missed) if is_missed)
    near = 0
    for v in members(missed):
        near |= simple.near[v]
    near &= ~missed
    sets = (("D", missed), ("A", near), ("C", (1 << simple.order) - 1 & ~missed & ~near))
    due = [" ".join([name, *(str(v + 1) for v in members(bits))]) for name, bits in sets]
    count = (simple.order - simple.deficiency) // 2

    def judged(words: List[str]) -> str:
        edges = [_pair(word) for word in words[2 : 2 + count]]
        for a, b in edges:
            need((a, b) in it.edges, f"{a}-{b} is no edge of the graph")
        ends = [v for edge in edges for v in edge]
        need(len(set(ends)) == len(ends), "two of the edges have an end in common")
        edge_words = [f"{a}-{b}" for a, b in sorted(edges)]
        return " ".join([it.text, str(count), *edge_words, *due])

    return [free(it, it.text, judged)]


def ears(facts: Facts, _words: Sequence[str]) -> List[Due]:
    """The line of `ears`, in which the ears are free."""
    it = facts.listed
    if not facts.is_covered:
        return []
    graph = Graph((range(1, it.order + 1), it.edges))

    def judged(words: List[str]) -> str:
        start = _pair(words[4])
        need(start in it.edges, f"{words[4]} is no edge of the graph")
        steps = [tuple(map(_path, word.split("+"))) for word in words[5:]]
        made = Ears(start, [tuple(map(_ear, step)) for step in steps], graph)
        need(all(1 <= len(step) <= 2 for step in steps), "a step has one ear or two")
        stages.ears(graph, made)
        rows = ["+".join("-".join(map(str, path)) for path in step) for step in steps]
        head = [it.number, it.text, made.single, made.double, f"{start[0]}-{start[1]}"]
        return " ".join(map(str, [*head, *rows]))

    return [free(it, f"{it.number} {it.text}", judged)]


def _pair(word: str) -> tuple[int, int]:
    a, b = map(_number, word.split("-"))
    return a, b


def _path(word: str) -> List[int]:
    return [_number(it) for it in word.split("-")]


def _ear(path: Sequence[int]) -> Ear:
    """The ear along a path of vertices."""
    need(len(path) > 1, "an ear has an edge")
    return Ear(path[0], tuple((min(it), max(it)) for it in zip(path, path[1:])))


def _number(word: str) -> int:
    if not (word.isascii() and word.isdigit()):
        raise ValueError(word)
    return int(word)


WORDS: Dict[str, Callable[[Facts, Sequence[str]], List[Due]]] = {
    "kinds": kinds,
    "leaves": leaf_lines,
    "elementary": elementary,
    "select": select,
    "matching": matching,
    "cuts": cuts,
    "ears": ears,
}
