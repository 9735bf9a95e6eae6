"""`Ears.draw()`: a panel for the first edge, and one for each step."""
from __future__ import annotations

import math
from dataclasses import replace
from typing import Any, List, Mapping, NamedTuple, Optional, Sequence, Set

from ..ear_lists import Ears
from ..graphs import Graph, GraphLike
from . import style
from .dot import quoted
from .graph_scene import Look, draw_frame, frame_of
from .graphs import Positions, named, places_of
from .keys import Entry, add_key
from .names import Key, short_names
from .picture import Picture, finished
from .plain import PlainGraph
from .scene import Pen, Scene
from .style import Point

_GAP, _HIGH = 30.0, 60.0  # between panels of a row, and between rows
_CAPTION, _PATH = 10.5, 9.5  # letters
_NUMBER = 8.5  # the size of the number of an edge
_GHOST = 2.6  # the radius of a vertex that is still to come
COLOURS = (style.BLUE, style.RUST)
_NEW = (
    Pen(stroke=style.BLUE, width=style.EDGE_NEW),
    Pen(stroke=style.RUST, width=style.EDGE_NEW, dash=style.SECOND_EAR),
)


class Step(NamedTuple):
    """A step: the edges of each of its ears by number from 0, and the vertices along each."""

    edges: List[List[int]]
    walks: List[List[int]]

    def told(self, graph: PlainGraph) -> List[str]:
        """Returns the names along each ear."""
        return [" ".join(graph.names[v] for v in walk) for walk in self.walks]


def graph_of(ears: Ears) -> Graph:
    """Returns the graph that the edges of the ears make."""
    edges = [ears.start, *(edge for step in ears.steps for ear in step for edge in ear.edges)]
    return Graph((list(dict.fromkeys(end for edge in edges for end in edge[:2])), edges))


def steps_of(graph: Graph, ears: Ears) -> List[Step]:
    """Returns the steps, the first edge being the first. Raises `BadText` for other edges."""
    start = graph.edge_number(ears.start) - 1
    found = [Step([[start]], [[v - 1 for v in graph.ends[start]]])]
    for step in ears.steps:
        edges = [[graph.edge_number(edge) - 1 for edge in ear.edges] for ear in step]
        walks = [[graph.number(v) - 1 for v in ear.path] for ear in step]
        found.append(Step(edges, walks))
    return found


def caption(steps: Sequence[Step], at: int) -> str:
    """Returns what a step is."""
    return f"{at}. {('single', 'double')[len(steps[at].edges) - 1]} ear" if at else "start"


def step_look(graph: PlainGraph, steps: Sequence[Step], at: int, short: Sequence[str]) -> Look:
    """Returns how step `at` looks: what was there thin, the new ear blue, a second one rust and
    dashed, what is to come as a pale ghost."""
    look = Look(names="inside", widest=900.0)
    before: Set[int] = {k for step in steps[:at] for ear in step.edges for k in ear}
    new = {k: i for i, ear in enumerate(steps[at].edges) for k in ear}
    there = {v for k in before | set(new) for v in graph.edges[k]}
    for k in range(len(graph.edges)):
        if k in new:
            look.pens[k] = _NEW[new[k]]
        elif k not in before:
            look.pens[k] = Pen(stroke=style.GHOST, width=style.EDGE_PALE)
    for v in range(graph.order):
        look.texts[v] = short[v] if v in there else ""
        if short[v] != graph.names[v]:
            look.titles[v] = graph.names[v]
        if v not in there:
            look.radii[v], look.rims[v] = _GHOST, style.GHOST_RIM
    return look


class Panels:
    """The panels of all steps, on one frame. `key` tells what short names stand for; with `numbers`
    the new edges have theirs, from 1."""

    def __init__(
        self,
        graph: PlainGraph,
        steps: Sequence[Step],
        places: Sequence[Point],
        numbers: bool = False,
    ) -> None:
        self.graph, self.steps, self.numbers = graph, steps, numbers
        self.short, self.key = short_names(graph.names)
        self.frame = frame_of(graph, places, Look(names="inside", widest=900.0))
        self.scenes = [self._panel(at) for at in range(len(steps))]

    def _panel(self, at: int) -> Scene:
        scene = Scene()
        frame = replace(self.frame, prefix=f"s{at}_")
        draw_frame(scene, frame, step_look(self.graph, self.steps, at, self.short))
        for ear, colour in zip(self.steps[at].edges, COLOURS) if self.numbers else ():
            for k in ear:
                _number(scene, self.frame.lines()[k], str(k + 1), colour)
        return scene

    @property
    def box(self) -> Any:
        """The box that holds each panel."""
        boxes = [scene.box for scene in self.scenes]
        low = [min(box[k] for box in boxes) for k in (0, 1)]
        return (*low, *(max(box[k] for box in boxes) for k in (2, 3)))


def _number(scene: Scene, line: Sequence[Point], words: str, colour: str) -> None:
    """The number of an edge on a white ground, at two fifths of its length, so that edges that
    cross at their middles show both."""
    far, ends = 0.4 * math.dist(line[0], line[-1]), line[0]
    for a, b in zip(line, line[1:]):
        step = math.dist(a, b)
        if step >= far:
            ends = (a[0] + (b[0] - a[0]) * far / step, a[1] + (b[1] - a[1]) * far / step)
            break
        far -= step
    half = style.width(words, _NUMBER) / 2 + 2
    ground = Pen(style.PAPER, None, 0)
    scene.rectangle(ends[0] - half, ends[1] - 5.5, ends[0] + half, ends[1] + 5.5, ground, radius=4)
    scene.text(*ends, words, _NUMBER, fill=colour)


def sheet(panels: Panels, columns: Optional[int] = None, widest: float = 720.0) -> Scene:
    """Returns all panels in rows, read like text, with thin rules between them."""
    steps, count = panels.steps, len(panels.steps)
    x0, y0, x1, y1 = panels.box
    captions = [style.width(caption(steps, at), _CAPTION) for at in range(count)]
    told = [_told_width(step.told(panels.graph)) for step in steps]
    wide, high = max(x1 - x0, max(captions), max(told)), y1 - y0
    columns = columns or max(1, min(count, int((widest + _GAP) // (wide + _GAP))))
    rows = -(-count // columns)
    columns = -(-count // rows)
    scene = Scene()
    for at, panel in enumerate(panels.scenes):
        x, y = (at % columns) * (wide + _GAP), (at // columns) * (high + _HIGH)
        scene.open("step", at=at)
        scene.put(panel, x + (wide - (x1 - x0)) / 2 - x0, y - y0)
        scene.text(x + wide / 2, y - 15, caption(steps, at), _CAPTION)
        _tell(scene, steps[at].told(panels.graph), x + wide / 2, y + high + 13)
        scene.close()
        if at % columns:
            rule = Pen(stroke=style.RULE, width=0.6)
            scene.line((x - _GAP / 2, y - 20), (x - _GAP / 2, y + high + 14), rule)
    return scene


def _told_width(told: Sequence[str]) -> float:
    return sum(style.width(it, _PATH) for it in told) + 16 * (len(told) - 1)


def _tell(scene: Scene, told: Sequence[str], middle: float, y: float) -> None:
    """The vertices along each ear in its colour."""
    x = middle - _told_width(told) / 2
    for it, colour in zip(told, COLOURS):
        scene.text(x, y, it, _PATH, anchor="start", fill=colour)
        x += style.width(it, _PATH) + 16


def add_short_names(scene: Scene, key: Key) -> None:
    """Adds what short names stand for."""
    add_key(scene, [Entry(short, name) for short, name in key])


def draw_ears(
    ears: Ears,
    graph: Optional[GraphLike] = None,
    *,
    pos: Optional[Positions] = None,
    columns: Optional[int] = None,
    numbers: bool = False,
    labels: Optional[Mapping[Any, object]] = None,
    title: str = "",
    ax: Optional[Any] = None,
) -> Picture:
    """Returns the picture of an ear decomposition: a panel for the first edge and one for each
    step, on the same places. The new ear is blue, a second one rust and dashed; the vertices along
    each are below.

    `graph` is the graph, if its order of vertices matters for the places; `columns` the number of
    panels in a row; `numbers` writes the numbers of the new edges on them, from 1. `pos`, `labels`
    and `ax` as for `draw`. Raises `ImportError` without NumPy and NetworkX if `pos` is not given.
    """
    numbered = graph_of(ears) if graph is None else Graph(graph)
    plain = named(numbered, labels)
    panels = Panels(plain, steps_of(numbered, ears), places_of(numbered, plain, pos), numbers)
    scene = sheet(panels, columns)
    add_short_names(scene, panels.key)
    count = len(ears.steps)
    words = title or f"An ear decomposition with {count} step{'' if count == 1 else 's'}"
    return finished(scene, words, "", ax)


def ears_dot(ears: Ears) -> str:
    """Returns the graph of an ear decomposition for Graphviz, without places; needs nothing. Each
    edge has the number of its step, the second ear of a step is dashed."""
    graph = graph_of(ears)
    plain = PlainGraph.of(graph)
    rows = [f"  {quoted(str(v))} [label={quoted(name)}];" for v, name in enumerate(plain.names)]
    for at, step in enumerate(steps_of(graph, ears)):
        for ear, style_of in zip(step.edges, ("solid", "dashed")):
            for k in ear:
                a, b = plain.edges[k]
                rows.append(
                    f'  {quoted(str(a))} -- {quoted(str(b))} [label="{at}", style={style_of}];'
                )
    body = "".join(f"{row}\n" for row in rows)
    return f"graph {{\n  node [shape=circle];\n{body}}}\n"
