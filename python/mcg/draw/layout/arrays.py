"""The types of arrays that the layout works with."""
from __future__ import annotations

from typing import Any, List, Sequence, Tuple

import numpy as np
import numpy.typing as npt

Array = npt.NDArray[np.float64]  # of shape (n, 2) for the places of n vertices
Integers = npt.NDArray[np.int64]
Flags = npt.NDArray[np.bool_]
Pairs = Sequence[Tuple[int, int]]
TINY = 1e-9


def ends_of(pairs: Pairs) -> Integers:
    """Returns the ends of edges as an array of shape (m, 2)."""
    return np.asarray(pairs, dtype=np.int64).reshape(-1, 2)


def cross(o: Array, a: Array, b: Array) -> Array:
    """Returns twice the area of the triangles o, a, b, positive if they turn to the left."""
    one = np.multiply(a[..., 0] - o[..., 0], b[..., 1] - o[..., 1])
    return np.subtract(one, np.multiply(a[..., 1] - o[..., 1], b[..., 0] - o[..., 0]))


def as_points(p: Any) -> List[Tuple[float, float]]:
    """Returns the rows of an array as pairs of numbers."""
    return [(float(x), float(y)) for x, y in p]


def centred(p: Array) -> Array:
    """Returns a drawing with the middle of its box at (0, 0)."""
    found: Array = p - (p.max(0) + p.min(0)) / 2
    return found


def turned_by(angle: float) -> Array:
    """Returns the matrix that turns a drawing clockwise when it is multiplied from the right."""
    c, s = np.cos(angle), np.sin(angle)
    return np.array([[c, s], [-s, c]])
