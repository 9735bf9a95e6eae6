"""Texts in graph6, the format of nauty's programs, of NetworkX and of Sage."""
from __future__ import annotations

from typing import Iterable, Iterator, List, Optional, Tuple

from .errors import FAULTS, LIMIT, BadGraph, TooLarge

HEADER = ">>graph6<<"
# The header alone, as the first line of a list may be.
HEADER_LINES = (b">>graph6<<", b">>graph6<<\n", b">>graph6<<\r\n")
MOST_VERTICES, MOST_EDGES = 128, 2048


def _size(order: int) -> str:
    """The bytes of the number of vertices."""
    if order <= 62:
        return chr(63 + order)
    if order <= 258_047:
        return "~" + "".join(chr(63 + (order >> shift & 63)) for shift in (12, 6, 0))
    return "~~" + "".join(chr(63 + (order >> shift & 63)) for shift in range(30, -1, -6))


def encode(order: int, ends: Iterable[Tuple[int, int]]) -> str:
    """Returns the text of the simple graph on the vertices 1 to `order` with these edges.

    Of parallel edges one is kept. Takes time in the square of the order.

    >>> encode(4, [(1, 2), (2, 3), (3, 4)])
    'Ch'
    """
    count = order * (order - 1) // 2
    bits = 0
    for a, b in {(min(pair), max(pair)) for pair in ends}:
        bits |= 1 << (count - 1 - ((b - 1) * (b - 2) // 2 + a - 1))
    filling = -count % 6
    bits <<= filling
    return _size(order) + "".join(chr(63 + (bits >> at & 63)) for at in range(count + filling - 6, -1, -6))


def _fault(kind: int) -> BadGraph:
    made = TooLarge if kind == LIMIT else BadGraph
    return made(f"not a graph in graph6: {FAULTS[kind]}", 1, kind)


def _order(data: List[int]) -> Tuple[int, List[int]]:
    """The number of vertices, and what follows it."""
    if data[0] != 63:
        return data[0], data[1:]
    if len(data) < 4:
        raise _fault(7)
    if data[1] == 63:
        raise _fault(LIMIT)
    order = (data[1] << 12) + (data[2] << 6) + data[3]
    if order <= 62:
        raise _fault(15)
    return order, data[4:]


def decode(text: str) -> Tuple[int, List[Tuple[int, int]]]:
    """Returns the number of vertices and the edges of a text, the vertices counted from 1.

    A header `>>graph6<<` and a line end are set aside. Raises `BadGraph` or `TooLarge`, with the
    kind of the first error by the order of docs/FORMATS.md.

    >>> decode("Ch")
    (4, [(1, 2), (2, 3), (3, 4)])
    """
    body = bare(text)
    if not body:
        raise _fault(7)
    if "\n" in body:
        raise BadGraph("not a graph in graph6: there are several lines", 2, 8)
    data = [ord(letter) - 63 for letter in body]
    if any(not 0 <= it <= 63 for it in data):
        raise BadGraph("not graph6: a byte is outside the range 63-126", 1, 4)
    order, rest = _order(data)
    if order > MOST_VERTICES:
        raise _fault(LIMIT)
    count = order * (order - 1) // 2
    due = (count + 5) // 6
    if len(rest) != due:
        raise _fault(7 if len(rest) < due else 8)
    bits = [it >> at & 1 for it in rest for at in range(5, -1, -1)]
    if any(bits[count:]):
        raise _fault(14)
    pairs = [pair for pair, bit in zip(_pairs(order), bits) if bit]
    if len(pairs) > MOST_EDGES:
        raise _fault(LIMIT)
    return order, pairs


def fault_kind(line: bytes) -> Optional[int]:
    """Returns the kind of the first error of a line of a list, None if it has none.

    >>> fault_kind(b"x!"), fault_kind(b"C~")
    (4, None)
    """
    try:
        decode(line.decode("latin-1"))
    except BadGraph as fault:
        return fault.kind
    return None


def _pairs(order: int) -> Iterator[Tuple[int, int]]:
    return ((a, b) for b in range(2, order + 1) for a in range(1, b))


def bare(text: str) -> str:
    """Returns the text without a header `>>graph6<<` and without its line end."""
    body = text[len(HEADER) :] if text.startswith(HEADER) else text
    if body.endswith("\n"):
        body = body[:-1]
        if body.endswith("\r"):
            body = body[:-1]
    return body
