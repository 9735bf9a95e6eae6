"""`draw`: a graph with what is known of it."""
from __future__ import annotations

import math
from typing import Any, FrozenSet, Iterable, List, Mapping, Optional, Sequence, Tuple, Union

from ..analysis import Analysis, analyse
from ..graphs import Graph, GraphLike
from ..labels import Label
from . import needs, style
from .analysed import Matching, look_of, matched
from .dot import bare_dot
from .graph_scene import Frame, Look, draw_graph, inside
from .keys import Entry, add_key
from .picture import Picture, finished
from .plain import PlainGraph, name_of
from .scene import Pen, Scene
from .style import Point

Positions = Mapping[Any, Sequence[float]]
LAYOUTS = ("free", "gallai-edmonds")


def draw(
    graph: GraphLike,
    analysis: Union[bool, Analysis] = False,
    *,
    matching: Matching = False,
    shores: Iterable[Iterable[Label]] = (),
    thick: Iterable[Sequence[Any]] = (),
    pos: Optional[Positions] = None,
    layout: str = "free",
    labels: Optional[Mapping[Any, object]] = None,
    with_labels: bool = True,
    title: str = "",
    ax: Optional[Any] = None,
) -> Picture:
    """Returns the picture of a graph.

    `analysis` is what `analyse` returns, or True to have it asked: a matching covered graph shows
    its canonical classes by fill and shape, or the two sides if it is bipartite; another graph
    shows D, A and C, and edges in no perfect matching are pale. `matching` is a list of edges that
    are drawn thick, or True for a perfect matching of a matching covered graph. `shores` are sets
    of vertices: dashed curves round them, or lines through their cuts where two of them cross.
    `thick` edges are blue.

    `pos` maps labels to places, as NetworkX has them; without it the places are found, the same in
    every run. `layout="gallai-edmonds"` puts A in a row with the components of D below. `labels`
    maps labels to what is written. `ax` are axes of Matplotlib on which the picture is drawn too.

    Raises `ImportError` without NumPy and NetworkX if the places are not given, `ValueError` for a
    vertex without a place, and what `analyse` and `ears` raise.
    """
    if layout not in LAYOUTS:
        raise ValueError(f"layout is {' or '.join(LAYOUTS)}, and not {layout!r}")
    numbered = Graph(graph)
    plain = named(numbered, labels)
    known = analyse(numbered) if analysis is True else analysis or None
    look = Look(names="auto" if with_labels else "none")
    key = look_of(numbered, known, look) + matched(numbered, matching, look)
    for edge in thick:
        look.pens[numbered.edge_number(edge) - 1] = Pen(stroke=style.BLUE, width=2.0)
    cuts = [frozenset(v - 1 for v in numbered.numbers(shore)) for shore in shores]
    parts: List[List[int]] = []
    if layout == "gallai-edmonds" and pos is None:
        places, parts = _by_theorem(numbered, plain, known or analyse(numbered))
    else:
        places = places_of(numbered, plain, pos, cuts)
    scene, frame = _scene(plain, places, look, parts, cuts)
    add_key(scene, key + [Entry(short, name) for short, name in frame.key])
    return finished(scene, title or f"A graph with {count_of(numbered)}", "", ax)


def count_of(graph: Graph) -> str:
    """Returns how many vertices and edges there are, in words."""
    one = "1 vertex" if graph.order == 1 else f"{graph.order} vertices"
    return f"{one} and " + ("1 edge" if graph.size == 1 else f"{graph.size} edges")


def to_dot(graph: GraphLike) -> str:
    """Returns a graph for Graphviz, without places; needs nothing. The pictures of `draw` have
    `to_dot` with places."""
    return bare_dot(PlainGraph.of(Graph(graph)))


def to_tikz(graph: GraphLike, analysis: Union[bool, Analysis] = False, **options: Any) -> str:
    """Returns a graph as a `tikzpicture` for LaTeX; the options are those of `draw`. Without NumPy
    and NetworkX, which find places, its vertices are on a circle."""
    try:
        return draw(graph, analysis, **options).to_tikz()
    except ImportError:
        options["pos"] = on_circle(Graph(graph).vertices)
        return draw(graph, analysis, **options).to_tikz()


def on_circle(vertices: Sequence[Label]) -> Positions:
    """Returns places on a circle, in the order of the vertices, the first at the top."""
    turns = {vertex: 2 * math.pi * k / len(vertices) for k, vertex in enumerate(vertices)}
    return {vertex: (math.sin(turn), math.cos(turn)) for vertex, turn in turns.items()}


def named(graph: Graph, labels: Optional[Mapping[Any, object]]) -> PlainGraph:
    """Returns the graph as pictures need it, with other texts for some labels."""
    plain = PlainGraph.of(graph)
    if labels is not None:
        plain.names = [name_of(str(labels.get(it, ""))) for it in graph.vertices]
    return plain


def places_of(
    graph: Graph,
    plain: PlainGraph,
    pos: Optional[Positions] = None,
    shores: Sequence[Iterable[int]] = (),
) -> List[Point]:
    """Returns the places of the vertices in units of a mean edge: those that are given, or those of
    the layout. Raises `ValueError` and `ImportError`."""
    if pos is not None:
        return _given(graph, plain, pos)
    inner = [frozenset(it) for it in shores]
    inner = [it for it in inner if 1 < len(it) < plain.order - 1]
    found: Any = needs.laid_out("layout").place(plain, inner)
    return [(float(x), float(y)) for x, y in found]


def _given(graph: Graph, plain: PlainGraph, pos: Positions) -> List[Point]:
    missing = [it for it in graph.vertices if it not in pos]
    if missing:
        raise ValueError(f"pos has no place for {missing[0]!r}")
    points = [(float(pos[it][0]), float(pos[it][1])) for it in graph.vertices]
    if not all(map(math.isfinite, (v for point in points for v in point))):
        raise ValueError("pos has a place that is not finite")
    far = [math.dist(points[a], points[b]) for a, b in plain.pairs]
    unit = sum(far) / len(far) if far and sum(far) > 0 else 1.0
    low = [min((p[k] for p in points), default=0.0) for k in (0, 1)]
    high = [max((p[k] for p in points), default=0.0) for k in (0, 1)]
    middle = ((low[0] + high[0]) / 2, (low[1] + high[1]) / 2)
    return [((x - middle[0]) / unit, (y - middle[1]) / unit) for x, y in points]


def _by_theorem(
    graph: Graph, plain: PlainGraph, analysis: Analysis
) -> Tuple[List[Point], List[List[int]]]:
    sets = [{v - 1 for v in graph.numbers(part)} for part in (analysis.D, analysis.A, analysis.C)]
    if not sets[0]:
        raise ValueError("the graph has a perfect matching, so D and A are empty")
    found, parts = needs.laid_out("gallai_edmonds").places(plain, *sets)
    return [(float(x), float(y)) for x, y in found], [part for part in parts if len(part) > 1]


def _scene(
    plain: PlainGraph,
    places: List[Point],
    look: Look,
    parts: List[List[int]],
    cuts: List[FrozenSet[int]],
) -> Tuple[Scene, Frame]:
    """The graph with grey patches below some parts, and with its cuts."""
    body = Scene()
    if cuts and look.names == "auto":
        look, key = inside(plain, look)  # curves leave no room beside
        frame = draw_graph(body, plain, places, look)
        frame.key = key
    else:
        frame = draw_graph(body, plain, places, look)
    scene = Scene()
    if parts:
        needs.laid_out("shores").shade(scene, frame, parts)
    scene.put(body)
    if cuts:
        needs.laid_out("shores").draw_cuts(scene, frame, cuts)
    return scene, frame
