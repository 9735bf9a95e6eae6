"""Lists of graphs in graph6, line by line, by docs/FORMATS.md."""
from __future__ import annotations

from typing import IO, Iterator, NamedTuple, Optional, Tuple

from .. import graph6
from ..errors import BadGraph

# The most bytes of a line, its line feed included; a longer one ends the run, with `skip` too.
MOST_LINE = 65_536


class Listed(NamedTuple):
    """A graph of a list: the number of its line, the line with its end, its graph6 text without the
    header, the number of its vertices, and its edges (a, b) from 1 with a < b, in their order."""

    number: int
    line: bytes
    text: str
    order: int
    edges: Tuple[Tuple[int, int], ...]


def graphs_of(file: IO[bytes], skips: bool) -> Iterator[Listed]:
    """Yields the graphs of a list up to its first bad line, or with `skips` without the bad lines, up
    to one that is too long."""
    for number, line in enumerate(iter(lambda: file.readline(MOST_LINE + 1), b""), 1):
        if len(line) > MOST_LINE:
            return
        if number == 1 and line in graph6.HEADER_LINES:
            continue
        found = listed(number, line)
        if found is not None:
            yield found
        elif not skips:
            return


def listed(number: int, line: bytes) -> Optional[Listed]:
    """Returns the graph of a line, None if the line is bad."""
    text = line.decode("latin-1")
    try:
        order, edges = graph6.decode(text)
    except BadGraph:
        return None
    return Listed(number, line, graph6.bare(text), order, tuple(edges))
