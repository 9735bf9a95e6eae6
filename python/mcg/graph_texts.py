"""Reads graph files, in either version."""
from __future__ import annotations

import re
from typing import Dict, List, Optional, Sequence, Tuple

from . import texts
from .errors import LIMIT, BadGraph

Numbered = Tuple[Sequence[object], List[Tuple[int, int]]]


def read_graph(text: str) -> Numbered:
    """Returns the vertices of a graph file, 1, 2, .. or the names, and the ends of its edges by number.

    Raises `BadGraph` or `TooLarge`, with the line and the kind of the first error.
    """
    reader = texts.Reader(text, BadGraph)
    words = reader.lines[0][1] if reader.lines else []
    is_named = len(words) == 4 and words[:2] == ["p", "mcg2"]
    line, (order, size) = reader.header("p", "mcg2" if is_named else "mcg", 2)
    most_vertices, most_edges = (128, 2048) if is_named else (64, 512)
    if order > most_vertices or size > most_edges:
        raise reader.fault(line, LIMIT)
    names = _read_names(reader, order) if is_named else None
    ends = [_read_edge(reader, order, names) for _ in range(size)]
    reader.end()
    return range(1, order + 1) if names is None else list(names), ends


def _read_names(reader: texts.Reader, order: int) -> Dict[str, int]:
    names: Dict[str, int] = {}
    for k in range(1, order + 1):
        line, words = reader.take()
        if words[0] != "v" or len(words) != 2:
            raise reader.fault(line, texts.WORD)
        if not re.fullmatch("[A-Za-z0-9_.-]{1,16}", words[1]):
            raise reader.fault(line, texts.BAD_NAME)
        if names.setdefault(words[1], k) != k:
            raise reader.fault(line, texts.SAME_NAME)
    return names


def _read_edge(reader: texts.Reader, order: int, names: Optional[Dict[str, int]]) -> Tuple[int, int]:
    line, words = reader.take()
    if words[0] != "e" or len(words) != 3:
        raise reader.fault(line, texts.WORD)
    if names is not None:
        if not all(it in names for it in words[1:]):
            raise reader.fault(line, texts.UNNAMED)
        a, b = (names[it] for it in words[1:])
    else:
        a, b = reader.numbers(line, words[1:])
        if not (1 <= a <= order and 1 <= b <= order):
            raise reader.fault(line, texts.RANGE)
    if a == b:
        raise reader.fault(line, texts.LOOP)
    return a, b
