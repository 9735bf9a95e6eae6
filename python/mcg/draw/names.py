"""Names of vertices: where they stand beside the vertices, and short ones that go inside."""
from __future__ import annotations

import math
from typing import Dict, Iterator, List, NamedTuple, Optional, Sequence, Tuple

from . import style
from .geometry import Box, Segment, box_distance, overlap, touches, widened
from .style import Point

Key = List[Tuple[str, str]]


def short_names(names: Sequence[str], most: int = 3) -> Tuple[List[str], Key]:
    """Returns names that go inside a vertex, and the key that tells what they stand for.

    They are the names themselves if none is longer than `most`, with an empty key; else their
    beginnings if these differ; else numbers.
    """
    if all(len(it) <= most for it in names):
        return list(names), []
    for size in range(1, most + 1):
        cut = [it[:size] for it in names]
        if len(set(cut)) == len(cut):
            return cut, [(c, it) for c, it in zip(cut, names) if c != it]
    numbers = [str(k + 1) for k in range(len(names))]
    return numbers, list(zip(numbers, names))


class Obstacle(NamedTuple):
    """A piece of an edge that no name may touch, with half its width."""

    segment: Segment
    half: float


class Beside:
    """Names beside vertices: `boxes` are the places taken, `left` the vertices without a place."""

    def __init__(
        self, points: Sequence[Point], radius: float, size: float, obstacles: Sequence[Obstacle]
    ) -> None:
        self.points, self.radius, self.size = points, radius, size
        self.obstacles = obstacles
        self.boxes: Dict[int, Box] = {}
        self.left: List[int] = []
        count = max(1, len(points))
        self.middle = (sum(x for x, _ in points) / count, sum(y for _, y in points) / count)

    def place(self, v: int, name: str, near: Sequence[int], reach: float) -> Optional[Point]:
        """Returns the middle of a place for the name of a vertex that touches nothing, and takes
        it; None if there is none. `reach` is the radius of the vertex's mark.

        The middles of the two widest gaps between edges come first, then the outward direction,
        then 24 directions, each at three distances.
        """
        wide, high = style.width(name, self.size), 0.74 * self.size
        for turn, more in self._spots(v, near):
            c, s = math.cos(turn), math.sin(turn)
            # the box touches the circle round the vertex at its nearest point
            x = (
                self.points[v][0]
                + c * (reach + more)
                + (c if abs(c) > 0.35 else 0.6 * c) * wide / 2
            )
            y = self.points[v][1] + s * (reach + more) + s * high / 2
            box = widened((x - wide / 2, y - high / 2, x + wide / 2, y + high / 2), 0.8)
            if self._is_free(box):
                self.boxes[v] = box
                return x, y
        self.left.append(v)
        return None

    def _spots(self, v: int, near: Sequence[int]) -> Iterator[Tuple[float, float]]:
        """Directions and distances, the best first."""
        x, y = self.points[v]
        outward = math.atan2(y - self.middle[1], x - self.middle[0])
        turns = sorted(math.atan2(self.points[u][1] - y, self.points[u][0] - x) for u in near)
        gaps = []
        for k, turn in enumerate(turns):
            after = turns[k + 1] if k + 1 < len(turns) else turns[0] + 2 * math.pi
            gaps.append(((turn + after) / 2, after - turn))
        gaps = gaps or [(outward, 2 * math.pi)]
        gaps.sort(key=lambda it: -(it[1] + 0.5 * math.cos(it[0] - outward)))
        best = [turn for turn, _ in gaps[:2]]
        rest = [turn for turn, _ in gaps[2:]] + [outward] + [k * math.pi / 12 for k in range(24)]
        for turn in best:
            for more in (2.5, 4.0, 6.0):
                yield turn, more
        for more in (2.5, 5.0, 8.0):
            for turn in rest:
                yield turn, more

    def _is_free(self, box: Box) -> bool:
        """Whether a box keeps off all names, vertices and edges, by half the width of each."""
        if any(overlap(box, it) for it in self.boxes.values()):
            return False
        if any(box_distance(box, it) < self.radius + 1.0 for it in self.points):
            return False
        return not any(touches(widened(box, it.half), it.segment) for it in self.obstacles)
