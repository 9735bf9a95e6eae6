"""Puts one graph into a scene: a frame (where everything is) and a look (what it looks like)."""
from __future__ import annotations

import math
from dataclasses import dataclass, field, replace
from typing import Dict, List, Mapping, Optional, Sequence, Tuple

from . import style
from .edges import edge_paths
from .geometry import distance, flat, segments
from .names import Beside, Key, Obstacle, short_names
from .plain import PlainGraph
from .scene import Pen, Scene, Steps, Words, plain_words
from .style import Point

# How much a drawing grows where names find no place beside their vertices.
_GROWTHS = (1.0, 1.25, 1.55, 1.9, 2.3)


@dataclass
class Look:
    """How one drawing looks: everything that may differ from the plain look, by the number of the
    vertex or edge.

    `names` is `"auto"`, `"beside"`, `"inside"` or `"none"`; `radius` and `length` (of a mean edge)
    are by the number of vertices where they are None; `widest` is the most that it may be wide.
    """

    marks: Dict[int, style.Mark] = field(default_factory=dict)
    rims: Dict[int, str] = field(default_factory=dict)
    texts: Dict[int, Words] = field(default_factory=dict)
    radii: Dict[int, float] = field(default_factory=dict)
    titles: Dict[int, str] = field(default_factory=dict)
    pens: Dict[int, Pen] = field(default_factory=dict)
    names: str = "auto"
    is_merged: bool = False
    radius: Optional[float] = None
    length: Optional[float] = None
    widest: float = style.WIDEST


@dataclass
class Frame:
    """Where a graph is in a scene: `points` of the vertices, `paths` of the edges that are drawn,
    each with the number of edges that it stands for, and the sizes.

    `boxes` are the places of names beside vertices, `key` what short names stand for.
    """

    graph: PlainGraph
    points: List[Point]
    radius: float
    letters: float
    scale: float
    names: str
    paths: Dict[int, Tuple[Steps, int]] = field(default_factory=dict)
    boxes: Dict[int, Tuple[float, float, float, float]] = field(default_factory=dict)
    key: Key = field(default_factory=list)
    prefix: str = ""

    def lines(self) -> Dict[int, List[Point]]:
        """Returns points along each edge that is drawn."""
        return {k: flat(steps) for k, (steps, _) in self.paths.items()}

    def middle(self) -> Point:
        """Returns the mean of the vertices."""
        count = max(1, len(self.points))
        return sum(x for x, _ in self.points) / count, sum(y for _, y in self.points) / count


def frame_of(
    graph: PlainGraph, places: Sequence[Point], look: Look, growth: float = 1.0, scale: float = 0.0
) -> Frame:
    """Returns where everything is, for places in units of a mean edge, y upward.

    The scale leaves room for every disc, and is no larger than `look.widest` allows; a scale that
    is given is taken as it is.
    """
    sizes = style.sizes(graph.order)
    names, radius, letters = look.names, sizes.radius, sizes.letters
    if names != "inside":
        radius = style.dot(graph.order, bool(look.marks))
    if look.radius is not None:
        radius = look.radius
        letters = 1.16 * radius if radius > 5 else letters
    length = look.length or sizes.length
    need = _need(graph, places, radius)
    fitted = scale or max(length, min(need, 1.9 * length)) * growth
    far = _extent(places)
    most = look.widest - 2 * radius
    if not scale and far * fitted > most:
        fitted = most / far
        if names == "inside" and fitted < 0.8 * need:
            names, radius = "none", style.dot(graph.order, bool(look.marks))
    if names == "inside" and letters < 6.0:
        names = "none"
    points = [(x * fitted, -y * fitted) for x, y in places]
    frame = Frame(graph, points, radius, letters, fitted, names)
    frame.paths = edge_paths(graph, points, radius, look.is_merged)
    return frame


def _extent(places: Sequence[Point]) -> float:
    if not places:
        return 0.1
    xs, ys = [x for x, _ in places], [y for _, y in places]
    return max(max(xs) - min(xs), max(ys) - min(ys), 0.1)


def _need(graph: PlainGraph, places: Sequence[Point], radius: float) -> float:
    """The scale at which rims are far enough from one another and from foreign edges."""
    order = graph.order
    if order < 2:
        return 0.0
    near = min(math.dist(places[a], places[b]) for a in range(order) for b in range(a))
    need = (2 * radius + (14 if order <= 24 else 8)) / max(near, 1e-6)
    least = math.inf
    for a, b in graph.pairs:
        segment = (*places[a], *places[b])
        x0, x1 = min(segment[0], segment[2]) - 1, max(segment[0], segment[2]) + 1
        for v, it in enumerate(places):
            if v != a and v != b and x0 < it[0] < x1:
                least = min(least, distance(it, segment))
    return max(need, (radius + 3.2) / max(least, 0.06))


def draw_graph(
    scene: Scene,
    graph: PlainGraph,
    places: Sequence[Point],
    look: Optional[Look] = None,
    prefix: str = "",
) -> Frame:
    """Adds the graph to the scene: edges, then vertices, then names. Returns where everything is.

    With names `"auto"` they stand beside the vertices, and the drawing grows until all of them
    have a place; if it would be too wide, they go inside, shortened, and the key tells the rest.
    `prefix` tells the vertices of several graphs of one scene apart.
    """
    look = look or Look()
    if look.names == "auto":
        look = replace(look, names="none") if graph.order > 64 else look
    if look.names == "auto":
        grown = _grown(graph, places, look)
        if grown is not None:
            grown[0].prefix = prefix
            return draw_frame(scene, *grown)
        look, key = inside(graph, look)
        frame = frame_of(graph, places, look)
        frame.key = key
    else:
        frame = frame_of(graph, places, look)
    frame.prefix = prefix
    beside = _beside(frame, look) if frame.names == "beside" else None
    return draw_frame(scene, frame, look, beside)


def inside(graph: PlainGraph, look: Look) -> Tuple[Look, Key]:
    """Returns the look with short names inside, and the key of these."""
    short, key = short_names(graph.names)
    texts: Dict[int, Words] = {**dict(enumerate(short)), **look.texts}
    titles = {v: name for v, name in enumerate(graph.names) if short[v] != name}
    return replace(look, names="inside", texts=texts, titles={**titles, **look.titles}), key


def _grown(
    graph: PlainGraph, places: Sequence[Point], look: Look
) -> Optional[Tuple[Frame, Look, Dict[int, Point]]]:
    """The least growth at which all names find a place beside their vertices, or None."""
    look = replace(look, names="beside")
    base = frame_of(graph, places, look)
    for growth in _GROWTHS:
        if growth > 1.0 and _extent(places) * base.scale * growth > look.widest:
            return None
        frame = base if growth == 1.0 else frame_of(graph, places, look, growth)
        found = _beside(frame, look, stop=True)
        if len(found) == sum(bool(_text(frame, look, v)) for v in range(graph.order)):
            return frame, look, found
    return None


def _text(frame: Frame, look: Look, v: int) -> Words:
    return look.texts.get(v, frame.graph.names[v])


def _beside(frame: Frame, look: Look, stop: bool = False) -> Dict[int, Point]:
    """Where names stand beside the vertices; `stop` ends at the first without a place."""
    fine = style.EDGE / 2
    obstacles = [
        Obstacle(it, look.pens[k].width / 2 if k in look.pens else fine)
        for k, line in frame.lines().items()
        for it in segments(line)
    ]
    beside = Beside(frame.points, frame.radius, frame.letters + 0.5, obstacles)
    found: Dict[int, Point] = {}
    graph = frame.graph
    for v in sorted(range(graph.order), key=lambda v: -len(graph.near[v])):
        text = plain_words(_text(frame, look, v))
        if text:
            shape = look.marks.get(v, style.PLAIN).shape
            reach = frame.radius * (1.0 if shape == "disc" else 1.27)
            at = beside.place(v, text, sorted(graph.near[v]), reach)
            if at is not None:
                found[v] = at
            elif stop:
                return found
    frame.boxes = beside.boxes
    return found


def draw_frame(
    scene: Scene, frame: Frame, look: Look, beside: Optional[Mapping[int, Point]] = None
) -> Frame:
    """Adds a graph whose frame is known."""
    _draw_edges(scene, frame, look)
    within = _draw_vertices(scene, frame, look)
    if within and frame.names == "inside":
        # (a text lets the pointer through, so that the words of a square are found under its name)
        scene.open("names", size=frame.letters)
        for at, words, size, ink in within:
            scene.text(*at, words, size, fill=ink)
        scene.close()
    for v, at in sorted((beside or {}).items()):
        scene.text(*at, _text(frame, look, v), frame.letters + 0.5, kind="name")
    return frame


def _draw_edges(scene: Scene, frame: Frame, look: Look) -> None:
    """The edges, thick and coloured ones last, over the others."""
    graph = frame.graph
    plain = Pen(width=style.EDGE if graph.order <= 40 else style.EDGE_FINE)
    scene.open("edges", width=plain.width)
    pens = {k: look.pens.get(k, plain) for k in frame.paths}
    for k in sorted(frame.paths, key=lambda k: (pens[k].width, k)):
        steps, count = frame.paths[k]
        a, b = graph.edges[k]
        scene.path(steps, pens[k], (f"{frame.prefix}{a}", f"{frame.prefix}{b}"))
        if count > 1:
            (x0, y0), (x1, y1) = frame.points[a], frame.points[b]
            _draw_count(scene, ((x0 + x1) / 2, (y0 + y1) / 2), count)
    scene.close()


def _draw_count(scene: Scene, at: Point, count: int) -> None:
    """How many parallel edges a line stands for, on a white ground at its middle."""
    words = f"×{count}"
    half = style.width(words, 9.5) / 2 + 3
    ground = Pen(style.PAPER, None, 0)
    scene.rectangle(at[0] - half, at[1] - 6.5, at[0] + half, at[1] + 6.5, ground, radius=6.5)
    scene.text(*at, words, 9.5)


Inside = Tuple[Point, Words, float, str]


def _draw_vertices(scene: Scene, frame: Frame, look: Look) -> List[Inside]:
    """The vertices; returns their names with the place, the size and the colour inside them."""
    within: List[Inside] = []
    scene.open("vertices")
    for v, (x, y) in enumerate(frame.points):
        mark = look.marks.get(v, style.PLAIN)
        radius = look.radii.get(v, frame.radius)
        rim = style.OUTLINE if radius > 5 else style.OUTLINE_FINE
        title = look.titles.get(v, "")
        if title:
            scene.open("v", title)
        pen = Pen(mark.fill, look.rims.get(v, style.INK), rim)
        name = look.titles.get(v) or frame.graph.names[v]
        scene.shape(mark.shape, (x, y), radius, pen, f"{frame.prefix}{v}", name)
        if title:
            scene.close()
        words = _text(frame, look, v)
        if words:
            at = (x, y + (0.1 * radius if mark.shape == "triangle" else 0.0))
            within.append((at, words, _size_inside(words, radius, frame.letters), mark.ink))
    scene.close()
    return within


def _size_inside(words: Words, radius: float, letters: float) -> float:
    """The size of a name inside its vertex, smaller if it is long."""
    wide = style.width(plain_words(words), letters)
    room = 2 * radius - 2.5
    return letters if wide <= room else letters * max(0.72, room / wide)
