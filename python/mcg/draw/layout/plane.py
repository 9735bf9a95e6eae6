"""Plane drawings: embeddings, their faces, and each inner vertex amid its neighbours."""
from __future__ import annotations

import math
import random
from typing import Any, Dict, FrozenSet, Iterable, List, Sequence, Tuple

import networkx as nx
import numpy as np
from networkx.algorithms.planar_drawing import make_bi_connected

from ..plain import PlainGraph
from .arrays import TINY, Array, Pairs, ends_of
from .measures import crossings, lengths, resolution, strangers
from .relaxing import relax_all

_SEEDS = 24  # by which different embeddings are looked for
_EMBEDDINGS = 4  # tried of a graph with several
_OUTER_FACES = 12  # tried of each embedding
_ROUNDS, _FEW_ROUNDS = 24, 8
_MANY = 40  # vertices; of larger graphs fewer drawings are relaxed, and less
_CROWDED = 0.3  # the room below which other starts are tried

Face = List[int]


def is_planar(graph: PlainGraph) -> bool:
    """Returns whether the graph can be drawn without crossings."""
    return embedding(graph) is not None


def embedding(graph: PlainGraph, seed: int = 0) -> Any:
    """Returns a plane embedding of NetworkX, or None; another seed may give another one."""
    place = list(range(graph.order))
    if seed:
        random.Random(seed).shuffle(place)
    made = nx.Graph()
    made.add_nodes_from(sorted(range(graph.order), key=place.__getitem__))
    made.add_edges_from(sorted(graph.pairs, key=lambda it: (place[it[0]], place[it[1]])))
    is_plane, found = nx.check_planarity(made)
    return found if is_plane else None


def is_three_connected(graph: PlainGraph) -> bool:
    """Returns whether no two vertices separate the graph: without each vertex, the rest has no
    vertex that separates it."""
    if graph.order < 4:
        return False
    whole = nx.Graph()
    whole.add_edges_from(graph.pairs)  # (a list given to Graph would be tried as a table of pandas)
    for v in range(graph.order):
        rest = whole.subgraph(set(whole) - {v})
        if not nx.is_connected(rest) or next(nx.articulation_points(rest), None) is not None:
            return False
    return True


def faces_of(plane: Any) -> List[Face]:
    """Returns the faces of an embedding, as walks."""
    seen: set[Tuple[int, int]] = set()
    found = []
    for a, b in sorted(plane.edges()):
        if (a, b) not in seen:
            found.append(plane.traverse_face(a, b, seen))
    return found


def plane_drawings(
    graph: PlainGraph, shores: Sequence[Iterable[int]] = (), most: int = 6
) -> List[Array]:
    """Returns plane drawings of a connected graph, none if it is not planar: for several embeddings
    (one, if it is 3-connected) and outer faces the barycentric one; the best of these, and these
    relaxed."""
    first = embedding(graph)
    if first is None:
        return []
    is_firm = is_three_connected(graph)
    tried: Dict[float, Array] = {}
    for plane in [first] if is_firm else _embeddings(graph, first):
        for outer, drawn in _of_embedding(graph, plane, is_firm):
            rank = _unevenness(drawn, graph.pairs) + 2.0 * strangers(drawn, shores)
            tried.setdefault(round(rank - (0.0 if is_firm else 0.6 * outer), 3), drawn)
    found = [opened(tried[rank], graph.pairs) for rank in sorted(tried)[:most]]
    if not is_firm:
        reaches = [1.1, 2.0]
        is_large = graph.order > _MANY
        some = found[:2] if is_large else found
        both = [p for p in some for _ in reaches]
        found += relax_all(both, graph.pairs, 100 if is_large else 250, reaches * len(some))
    if max(resolution(p, graph.pairs) for p in found) < _CROWDED:
        # deep nesting leaves too little room in the middle: from a grid, vertices have more
        some = [*found[:2], _on_grid(first, graph), _on_grid(first, graph)]
        steps = 120 if graph.order > _MANY else 500
        found += relax_all(some, graph.pairs, steps, [1.6, 1.6, 1.1, 2.0][-len(some) :])
    return found


def _on_grid(plane: Any, graph: PlainGraph) -> Array:
    """The drawing on a grid by Chrobak and Payne, in which no two vertices are very near."""
    places = nx.combinatorial_embedding_to_pos(plane)
    return np.array([places[v] for v in range(graph.order)], dtype=float)


def _embeddings(graph: PlainGraph, first: Any) -> List[Any]:
    """Different embeddings, those with the longest faces first: these leave the most room."""
    found: Dict[FrozenSet[FrozenSet[int]], Any] = {_sets(faces_of(first)): first}
    for seed in range(1, _SEEDS if graph.order <= 30 else _SEEDS // 2):
        plane = embedding(graph, seed)
        found.setdefault(_sets(faces_of(plane)), plane)

    def sizes(faces: FrozenSet[FrozenSet[int]]) -> List[int]:
        return sorted((-len(face) for face in faces))

    return [found[faces] for faces in sorted(found, key=sizes)[:_EMBEDDINGS]]


def _sets(faces: List[Face]) -> FrozenSet[FrozenSet[int]]:
    return frozenset(frozenset(face) for face in faces)


def _of_embedding(graph: PlainGraph, plane: Any, is_firm: bool) -> List[Tuple[int, Array]]:
    """For the longest faces of an embedding, one of each kind: their lengths, and the drawing with
    that face outside."""
    filled = plane.copy()
    if not is_firm:
        visited: set[Tuple[int, int]] = set()
        for v in list(filled.nodes()):
            for w in list(filled.neighbors_cw_order(v)):
                make_bi_connected(filled, v, w, visited)
    faces = faces_of(filled)
    longest = max(map(len, faces))
    trials = [face for face in faces if len(face) >= max(3, 0.6 * longest)]
    trials.sort(key=lambda face: (-len(face), sorted(face)))
    edges = sorted({(min(e), max(e)) for e in filled.edges()})
    found = []
    if is_firm:
        trials = _one_of_each_kind(graph, trials)
    for outer in trials[:_OUTER_FACES]:
        inner = [face for face in faces if face is not outer]
        found.append((len(outer), _with_outer(graph, edges, inner, outer, is_firm)))
    return found


def _with_outer(
    graph: PlainGraph, edges: List[Tuple[int, int]], inner: List[Face], outer: Face, is_firm: bool
) -> Array:
    """The best barycentric drawing with that face outside. If the graph is not
    3-connected, each face with more than three corners gets a middle point, which makes it so."""
    n, size = graph.order, graph.order
    more = list(edges)
    if not is_firm:
        for face in inner:
            if len(face) > 3:
                more += [(v, size) for v in face]
                size += 1
    more.sort()
    rounds = barycentric(size, more, inner, outer, _ROUNDS if is_firm else _FEW_ROUNDS)
    late = [p[:n] for p in rounds[len(rounds) // 3 :]]
    return min(late, key=lambda p: _unevenness(p, graph.pairs))


def _one_of_each_kind(graph: PlainGraph, faces: List[Face]) -> List[Face]:
    """Faces that no refinement of colours tells apart give the same drawing; the first of each."""
    kinds: Dict[object, Face] = {}
    for face in faces:
        kinds.setdefault(_kind_of_face(graph, face), face)
    return list(kinds.values())


def _kind_of_face(graph: PlainGraph, face: Face) -> object:
    """What the colours are after refinement from the vertices of this face."""
    on = set(face)
    colour = [int(v in on) for v in range(graph.order)]
    listed: object = None
    for _ in range(graph.order):
        keys = [
            (colour[v], tuple(sorted(colour[w] for w in graph.near[v]))) for v in range(graph.order)
        ]
        names = {key: k for k, key in enumerate(sorted(set(keys)))}
        fresh = [names[key] for key in keys]
        listed = (listed, tuple(sorted(keys)))
        if len(set(fresh)) == len(set(colour)):
            break
        colour = fresh
    return listed


def barycentric(
    n: int, pairs: Pairs, faces: List[Face], outer: Face, rounds: int, even: float = 0.55
) -> List[Array]:
    """Returns Tutte's drawing with that face as a regular polygon, then drawings with weights that
    make long edges and wide faces smaller.

    Any positive weights give a convex plane drawing of a 3-connected graph (Tutte 1963, Floater
    1997), so that they may be changed at will.
    """
    p, k = np.zeros((n, 2)), len(outer)
    start = math.pi / 2 + (math.pi / k if k % 2 == 0 else 0)
    for i, v in enumerate(outer):
        p[v] = math.cos(start - 2 * math.pi * i / k), math.sin(start - 2 * math.pi * i / k)
    is_fixed = np.zeros(n, bool)
    is_fixed[outer] = True
    inner, fixed = np.flatnonzero(~is_fixed), np.flatnonzero(is_fixed)
    if not len(inner):
        return [p]
    e, areas = ends_of(pairs), _Areas(faces, pairs)
    weight, found = np.ones(len(pairs)), []
    for _ in range(rounds):
        laplacian = np.zeros((n, n))
        laplacian[e[:, 0], e[:, 1]] = -weight
        laplacian[e[:, 1], e[:, 0]] = -weight
        np.fill_diagonal(laplacian, -laplacian.sum(1))
        p = p.copy()
        right = -laplacian[np.ix_(inner, fixed)] @ p[fixed]
        p[inner] = np.linalg.solve(laplacian[np.ix_(inner, inner)], right)
        found.append(p)
        size = lengths(p, pairs)
        weight = weight * np.maximum(size / size.mean(), 1e-3) ** even * areas.beside(p) ** 0.5
        weight = np.clip(weight / np.exp(np.log(weight).mean()), 1e-3, 1e3)
    return found


class _Areas:
    """The areas of the faces of a drawing, and how wide the two at each edge are."""

    def __init__(self, faces: List[Face], pairs: Pairs) -> None:
        self.walk = np.array([v for face in faces for v in face], dtype=np.int64)
        self.after = np.array([v for face in faces for v in face[1:] + face[:1]], dtype=np.int64)
        self.first = np.cumsum([0] + [len(face) for face in faces])[:-1]
        number: Dict[FrozenSet[int], int] = {frozenset(e): k for k, e in enumerate(pairs)}
        self.sides = np.zeros((len(pairs), len(faces)))
        for k, face in enumerate(faces):
            for a, b in zip(face, face[1:] + face[:1]):
                edge = number.get(frozenset((a, b)))
                if edge is not None:
                    self.sides[edge, k] = 1.0
        self.count = np.maximum(self.sides.sum(1), 1.0)

    def beside(self, p: Array) -> Array:
        """The root of the mean area of the faces at each edge, against the mean of all."""
        x, y, u, v = p[self.walk, 0], p[self.walk, 1], p[self.after, 0], p[self.after, 1]
        area = np.abs(np.add.reduceat(x * v - y * u, self.first)) / 2
        mean = np.exp(np.log(np.maximum(area, 1e-6)).mean())
        found: Array = np.sqrt(self.sides @ area / self.count / mean)
        return np.maximum(np.where(self.sides.any(1), found, 1.0), 1e-3)


def opened(p: Array, pairs: Pairs) -> Array:
    """Returns the drawing with its middle spread: distances from the middle to the best power
    below 1 that crosses nothing."""
    middle = (p.max(0) + p.min(0)) / 2
    radius = np.hypot(*(p - middle).T)[:, None]
    top = float(radius.max())
    best, room, before = p, resolution(p, pairs), crossings(p, pairs)
    for power in (0.9, 0.8, 0.7, 0.6, 0.5):
        factor = np.where(radius > TINY, (np.maximum(radius, TINY) / top) ** (power - 1), 1.0)
        q: Array = middle + (p - middle) * factor
        better = resolution(q, pairs)
        if better > room + 1e-6 and crossings(q, pairs) <= before:
            best, room = q, better
    return best


def _unevenness(p: Array, pairs: Pairs) -> float:
    size = lengths(p, pairs)
    return 1 / max(resolution(p, pairs), 1e-6) + float(size.std() / size.mean())
