"""Automorphisms of a graph, and starts for a layout with one as a rotation or a mirror."""
from __future__ import annotations

import itertools
import math
from typing import Dict, List, Set, Tuple

import numpy as np

from ..plain import PlainGraph
from .arrays import Array, Pairs, ends_of

Permutation = List[int]
Cycles = List[List[int]]


def automorphisms(graph: PlainGraph, budget: int = 30000, most: int = 320) -> List[Permutation]:
    """Returns some automorphisms of a connected graph, found by mapping a breadth-first order step
    by step; stops after `budget` steps."""
    search = _Search(graph)
    same = [x for x in range(graph.order) if search.colour[x] == search.colour[search.root]]
    share = max(700, budget // max(1, len(same)))
    cap = max(4, most // max(1, len(same)))
    found: List[Permutation] = []
    for image in same:
        found += search.from_root(image, share, cap)
    return found


class _Search:
    """Maps the vertices in breadth-first order to vertices of the same colour."""

    def __init__(self, graph: PlainGraph) -> None:
        self.near = graph.near
        self.colour = refined(graph)
        count = {c: self.colour.count(c) for c in self.colour}
        vertices = range(graph.order)
        self.root = min(vertices, key=lambda v: (count[self.colour[v]], v))
        self.order, self.before = [self.root], {self.root: self.root}
        for v in self.order:
            for w in sorted(self.near[v]):
                if w not in self.before:
                    self.before[w] = v
                    self.order.append(w)
        place = {v: k for k, v in enumerate(self.order)}
        self.known = [[w for w in self.near[v] if place[w] < place[v]] for v in self.order]
        self.listed = [sorted(near) for near in self.near]
        self.bits = [sum(1 << w for w in near) for near in self.near]

    def from_root(self, image: int, budget: int, most: int) -> List[Permutation]:
        """Automorphisms that map the root to this vertex."""
        self.left, self.most = budget, most
        self.found: List[Permutation] = []
        self._extend(1, {self.root: image}, 1 << image)
        return self.found

    def _extend(self, k: int, image: Dict[int, int], used: int) -> None:
        if k == len(self.order):
            self.found.append([image[v] for v in range(k)])
            return
        v, wanted = self.order[k], 0
        for w in self.known[k]:
            wanted |= 1 << image[w]
        for x in self.listed[image[self.before[v]]]:
            if used >> x & 1:
                continue
            if self.left <= 0 or len(self.found) >= self.most:
                return
            self.left -= 1
            if self.colour[x] == self.colour[v] and self.bits[x] & used == wanted:
                image[v] = x
                self._extend(k + 1, image, used | 1 << x)


def refined(graph: PlainGraph) -> List[int]:
    """Returns colours of the vertices: two of one colour have as many neighbours of each colour."""
    colour = [len(near) for near in graph.near]
    for _ in range(graph.order):
        keys = [
            (colour[v], tuple(sorted(colour[w] for w in near))) for v, near in enumerate(graph.near)
        ]
        names = {key: k for k, key in enumerate(sorted(set(keys)))}
        fresh = [names[key] for key in keys]
        if len(set(fresh)) == len(set(colour)):
            return fresh
        colour = fresh
    return colour


def cycles_of(image: Permutation) -> Cycles:
    """Returns the cycles of a permutation."""
    seen: Set[int] = set()
    found = []
    for v in range(len(image)):
        if v not in seen:
            walk = [v]
            seen.add(v)
            while image[walk[-1]] not in seen:
                walk.append(image[walk[-1]])
                seen.add(walk[-1])
            found.append(walk)
    return found


def turns_and_mirrors(graph: PlainGraph) -> Tuple[Dict[int, List[Cycles]], List[Cycles]]:
    """Returns the automorphisms whose cycles all have the same length, by that length (one fixed
    vertex at most), and those that exchange pairs."""
    turns: Dict[int, List[Cycles]] = {}
    mirrors: List[Cycles] = []
    for image in automorphisms(graph):
        walks = cycles_of(image)
        long = [len(walk) for walk in walks if len(walk) > 1]
        alone = len(walks) - len(long)
        if long and min(long) == max(long) >= 3 and alone <= 1:
            turns.setdefault(max(long), []).append(walks)
        elif long and max(long) == 2:
            mirrors.append(walks)
    mirrors.sort(key=lambda walks: sum(len(walk) == 1 for walk in walks))
    return turns, mirrors


def coprime(k: int) -> List[int]:
    """Returns the numbers up to k / 2 that have no divisor in common with k."""
    return [s for s in range(1, k // 2 + 1) if math.gcd(s, k) == 1]


def rings(n: int, walks: Cycles, k: int, step: int, seed: int) -> Array:
    """Returns a drawing with each cycle of a rotation of order k as a ring of random radius."""
    rng = np.random.RandomState(1000 * k + seed)
    p = np.zeros((n, 2))
    for walk in walks:
        if len(walk) == k:
            radius, turn = rng.uniform(0.5, 3.0), rng.uniform(0, 2 * math.pi)
            angle = turn + 2 * math.pi * step * np.arange(k) / k
            p[walk] = radius * np.stack([np.cos(angle), np.sin(angle)], 1)
    return p


def mirrored(n: int, walks: Cycles, seed: int) -> Array:
    """Returns a drawing in which a mirror exchanges the pairs of an automorphism."""
    rng = np.random.RandomState(77 + seed)
    p = np.zeros((n, 2))
    for walk in walks:
        x, y = rng.uniform(0.5, 3.0), rng.uniform(-3.0, 3.0)
        p[walk[0]] = (x if len(walk) == 2 else 0.0), y
        if len(walk) == 2:
            p[walk[1]] = -x, y
    return p


def one_circle(n: int, pairs: Pairs, walks: Cycles, k: int) -> Array:
    """Returns all vertices on one circle, the cycles of a rotation of order k interleaved: of the
    ways to do so that are tried, the one with the shortest chords."""
    listed = [walk for walk in walks if len(walk) == k]
    count = len(listed)
    shifts = itertools.islice(itertools.product(range(k), repeat=count - 1), 64)
    orders = list(itertools.islice(itertools.permutations(range(1, count)), 2))
    places = []
    for shift in shifts:
        for order in orders:
            place = np.zeros(n)
            for j, r in enumerate((0, *order)):
                off = count * shift[r - 1] if r else 0
                place[listed[r]] = np.arange(k) * count + j + off
            places.append(place)
    turns = np.array(places) * 2 * math.pi / n
    e = ends_of(pairs)
    chords = np.abs(np.sin((turns[:, e[:, 0]] - turns[:, e[:, 1]]) / 2)).sum(1)
    turn = turns[int(np.round(chords, 6).argmin())]
    return np.stack([np.sin(turn), np.cos(turn)], 1)


def snapped(p: Array, k: int) -> List[Array]:
    """Returns a drawing with a rotation of order k with its rings turned to half steps, in each of
    the ways nearby, so that it may get mirrors too."""
    q = p - p.mean(0)
    z = q[:, 0] + 1j * q[:, 1]
    far, half = int(np.abs(z).argmax()), math.pi / k
    angle = (np.angle(z) - np.angle(z[far])) / half
    by_ring: Dict[Tuple[float, float], List[int]] = {}
    for v in np.flatnonzero(np.abs(z) > 1e-6):
        part = float(angle[v]) % 1.0
        key = (round(float(abs(z[v])), 3), round(0.0 if part > 0.999 else part, 3))
        by_ring.setdefault(key, []).append(int(v))
    free = [ring for (_, part), ring in by_ring.items() if 0.01 < part < 0.99]
    found = []
    for ups in itertools.product((0, 1), repeat=min(len(free), 4)):
        turned = np.round(angle)
        for ring, up in zip(free, ups):
            turned[ring] = np.floor(angle[ring]) + up
        out = np.abs(z) * np.exp(1j * turned * half)
        found.append(np.stack([out.real, out.imag], 1))
    return found
