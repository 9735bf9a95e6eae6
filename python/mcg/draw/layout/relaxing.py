"""Makes a drawing better: stress majorization, and forces that keep a plane drawing plane."""
from __future__ import annotations

from typing import List, Optional, Sequence, Tuple

import numpy as np

from ..plain import PlainGraph
from .arrays import TINY, Array, Integers, Pairs, ends_of
from .measures import scaled

_AT_ONCE = 16_384  # vertices times edges of the drawings that are relaxed together


def distances(graph: PlainGraph) -> Array:
    """Returns the distances in the graph; of vertices in different components, their number."""
    n = graph.order
    near = np.zeros((n, n), bool)
    for a, b in graph.pairs:
        near[a, b] = near[b, a] = True
    found = np.full((n, n), float(n))
    reached = np.eye(n, dtype=bool)
    found[reached] = 0.0
    for step in range(1, n):
        front = (reached @ near) & ~reached
        if not front.any():
            break
        found[front] = step
        reached |= front
    return found


def majorize(starts: Array, d: Array, steps: int = 200) -> Array:
    """Returns each of some drawings, an array of shape (k, n, 2), with distances nearer to those
    of the graph, by stress majorization (Gansner, Koren and North 2004). All are done at once."""
    n = starts.shape[1]
    if n < 3 or not len(starts):
        return starts
    weight = np.where(d > 0, np.maximum(d, TINY) ** -2.0, 0.0)
    laplacian = -weight
    np.fill_diagonal(laplacian, weight.sum(1))
    inverse = np.linalg.pinv(laplacian)
    ideal = weight * d
    found: Array = np.array(starts)
    left = np.arange(len(found))  # those that still move
    first, second = np.empty((2, len(found), n, n))
    for _ in range(steps):
        p, ratio, rise = found[left], first[: len(left)], second[: len(left)]
        x, y = p[:, :, 0], p[:, :, 1]
        np.subtract(x[:, :, None], x[:, None], out=ratio)
        np.subtract(y[:, :, None], y[:, None], out=rise)
        ratio *= ratio
        rise *= rise
        ratio += rise
        np.sqrt(ratio, out=ratio)
        np.maximum(ratio, TINY, out=ratio)
        np.divide(ideal, ratio, out=ratio)
        new = inverse @ (ratio.sum(2)[..., None] * p - ratio @ p)
        found[left] = new
        left = left[np.abs(new - p).max((1, 2)) >= 1e-4]
        if not len(left):
            break
    return found


def relax(
    p: Array,
    pairs: Pairs,
    steps: int = 260,
    reach: float = 1.1,
    slack: Optional[Array] = None,
) -> Array:
    """Returns one drawing made better, as `relax_all` does."""
    return relax_all([p], pairs, steps, [reach], slack)[0]


def relax_all(
    drawings: Sequence[Array],
    pairs: Pairs,
    steps: int,
    reaches: Sequence[float],
    slack: Optional[Array] = None,
) -> List[Array]:
    """Returns drawings improved by springs along the edges and by vertices that repel one another
    and the edges of others, up to the reach of each drawing (PrEd, Bertault 2000).

    A vertex moves at most two fifths of its distance from an edge, so that crossings neither come
    nor go; all move at once, so that a symmetric drawing stays symmetric. `slack` above 1 makes an
    edge longer, as parallel ones need it. Several drawings are done at once.
    """
    if not drawings or len(drawings[0]) < 3 or len(pairs) < 2:
        return list(drawings)
    n, e = len(drawings[0]), ends_of(pairs)
    at_once = max(1, _AT_ONCE // (n * len(e)))
    found: List[Array] = []
    for k in range(0, len(drawings), at_once):
        some = np.array([scaled(it, pairs) for it in drawings[k : k + at_once]])
        forces = _Forces(n, e, np.array(reaches[k : k + at_once]), slack)
        found += list(_relaxed(some, forces, steps))
    return found


def _relaxed(p: Array, forces: _Forces, steps: int) -> Array:
    heat = 0.12
    for _ in range(steps):
        force, bound = forces.at(p, heat)
        strong = np.sqrt((force**2).sum(2))
        step = force * np.minimum(0.05, bound / np.maximum(strong, TINY))[..., None]
        p = p + step
        heat *= 0.988
        if float(np.abs(step).max()) < 4e-4:
            break
    return p


class _Forces:
    """The forces on the vertices of some drawings of one graph, an array of shape (k, n, 2)."""

    def __init__(self, n: int, e: Integers, reaches: Array, slack: Optional[Array]) -> None:
        self.first, self.second = e[:, 0], e[:, 1]
        self.reach = reaches[:, None, None]
        self.slack = 1.0 if slack is None else slack
        k = np.arange(len(e))
        self.at_first, self.at_second = np.zeros((len(e), n)), np.zeros((len(e), n))
        self.at_first[k, self.first] = 1.0
        self.at_second[k, self.second] = 1.0
        # what makes the distance of a vertex from its own edges so large that it has no effect
        self.own = 9.0 * (self.at_first + self.at_second).T
        # the edges at each vertex, filled up with a number that stands for no edge
        at = [np.flatnonzero((e == v).any(1)) for v in range(n)]
        self.edges_at = np.full((n, max(map(len, at))), len(e))
        for v, listed in enumerate(at):
            self.edges_at[v, : len(listed)] = listed

    def at(self, p: Array, heat: float) -> Tuple[Array, Array]:
        """Returns the forces, and how far each vertex may move without passing an edge."""
        x, y = np.ascontiguousarray(p[..., 0]), np.ascontiguousarray(p[..., 1])
        ax, ay = x[:, self.first], y[:, self.first]
        dx, dy = x[:, self.second] - ax, y[:, self.second] - ay
        square = np.maximum(dx * dx + dy * dy, TINY)
        pull = np.sqrt(square) / self.slack
        t, wx, wy, far = self._from_edges(x, y, ax, ay, dx, dy, square)
        near = np.flatnonzero(far < self.reach)  # only these edges repel their vertices
        drawing = near // (far.shape[1] * far.shape[2])
        gap, t = far.ravel()[near], t.ravel()[near]
        lack = (self.reach.ravel()[drawing] - gap) / np.maximum(gap, 0.03)
        lack *= lack * ((t > 0) & (t < 1))
        du, dv = x[:, :, None] - x[:, None], y[:, :, None] - y[:, None]
        apart = np.sqrt(du * du + dv * dv)
        strong = 1.0 / np.maximum(apart, 0.05)
        strong *= strong * strong * (apart < 3.0)
        pushes = _Pushes(far.shape, near, t)
        along_x = self._along((strong * du).sum(2), pushes.of(lack * wx.ravel()[near]), dx * pull)
        along_y = self._along((strong * dv).sum(2), pushes.of(lack * wy.ravel()[near]), dy * pull)
        return np.stack([along_x, along_y], 2), self._bound(far, heat)

    def _from_edges(self, *given: Array) -> Tuple[Array, Array, Array, Array]:
        """The nearest place on each edge for each vertex, the way from there, and how far it is."""
        x, y, ax, ay, dx, dy, square = given
        wx, wy = x[:, :, None] - ax[:, None], y[:, :, None] - ay[:, None]
        t: Array = wx * (dx / square)[:, None]
        other: Array = wy * (dy / square)[:, None]
        t += other
        np.maximum(t, 0.0, out=t)
        np.minimum(t, 1.0, out=t)
        wx -= np.multiply(t, dx[:, None], out=other)
        wy -= np.multiply(t, dy[:, None], out=other)
        far: Array = np.multiply(wx, wx)
        far += np.multiply(wy, wy, out=other)
        np.sqrt(far, out=far)
        far += self.own
        return t, wx, wy, far

    def _along(self, apart: Array, push: Tuple[Array, Array, Array], pull: Array) -> Array:
        """The forces along one axis: vertices that repel one another, edges that repel vertices,
        and springs."""
        on_vertex, on_edge, at_second = push
        at_first = on_edge - at_second
        found: Array = apart + on_vertex
        found = found + (pull - at_first) @ self.at_first - (pull + at_second) @ self.at_second
        return found

    def _bound(self, far: Array, heat: float) -> Array:
        bound: Array = np.minimum(heat, 0.4 * far.min(2))
        of_edge = np.full((len(far), far.shape[2] + 1), heat)
        of_edge[:, :-1] = 0.4 * far.min(1)
        return np.minimum(bound, of_edge[:, self.edges_at].min(2))


class _Pushes:
    """Sums of forces between some vertices and edges, of arrays of shape (k, n, m), at places that
    are given by number; `t` is the nearest place on the edge, from 0 to 1."""

    def __init__(self, shape: Tuple[int, ...], near: Integers, t: Array) -> None:
        k, n, m = shape
        row, edge = np.divmod(near, m)
        self.rows, self.edges, self.t = row, row // n * m + edge, t
        self.shape = k, n, m

    def of(self, push: Array) -> Tuple[Array, Array, Array]:
        """Returns the force on each vertex, on each edge, and the part of this on its second end."""
        k, n, m = self.shape
        on_edge, at_second = (_sums(self.edges, it, (k, m)) for it in (push, push * self.t))
        return _sums(self.rows, push, (k, n)), on_edge, at_second


def _sums(places: Integers, values: Array, shape: Tuple[int, int]) -> Array:
    """The sums of the values at each place, the places counted row by row."""
    found = np.bincount(places, values, shape[0] * shape[1])
    return np.asarray(found, dtype=np.float64).reshape(shape)
