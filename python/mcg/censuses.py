"""A census: what is known of each graph of a list, in an SQLite file that can be asked in SQL."""
from __future__ import annotations

import hashlib
import sys
import time
from contextlib import ExitStack, closing
from typing import IO, Callable, Iterator, List, NamedTuple, Optional, Tuple

from . import graph6
from .census_files import UNNAMED, CensusFile, Done
from .census_rows import Row, bad_row, rows_of
from .errors import LIMIT, BadText
from .sessions import MOST_LINE

# A part of a list is written at a time, of FIRST lines at first. After a part that took less than SHORT
# seconds the next has twice as many, but at most MOST; after one that took more than LONG, half as many,
# but at least LEAST.
FIRST, LEAST, MOST, SHORT, LONG = 64, 16, 8_192, 1.0, 10.0

# A part of a list is closed if its lines come so slowly.
PATIENCE = 1.0

Progress = Callable[[int], None]


class Census(NamedTuple):
    """What a call of `census` did: the number of the list in the file, how many of its lines are done
    now, and how many of these by this call.

    >>> Census(1, 27, 27).new
    27
    """

    list: int
    lines: int
    new: int


def census(
    name: str,
    file: str,
    edges: bool = False,
    processes: int = 1,
    progress: Optional[Progress] = None,
) -> Census:
    """Writes what is known of each graph of a list into an SQLite file, and returns how far it came.

    `name` is that of a file with graphs in graph6, one on each line, or `-` for standard input. The
    tables are these; a row of `graphs` is of one line, so a graph that comes again has a row again.

    - `graphs`: list, line, graph6, vertices, edges, girth (null for forests), least_degree,
      greatest_degree, reason, kind, bricks, braces, petersen_bricks, bicritical (0 or 1), deficiency,
      removable, b_invariant, error. Where a graph is not matching covered it has a reason, and its
      kind and what follows from it are null. The numbers of removable and of b-invariant edges are
      there with `edges`, and else null. A bad line has its error, and all else is null.
    - `leaves`: list, line, graph6, kind; one row for each brick and brace of a decomposition.
    - `lists`: list (its number), name, lines (how many are done), sha256 (that of these lines, each
      with a line feed at its end), with_edges.

    `mcg6 kinds` and `mcg6 leaves` decide; with `processes`, by so many at a time. The package counts
    degrees, finds the girth, and recognises the Petersen graph.

    Each part of the list is written as a whole, together with the number of lines done. So a census
    can be interrupted or killed at any point, and the same call goes on where it was. It does so too
    where the list has grown. Another list is added to the file. Standard input cannot be resumed: it
    is a new list each time. `progress` is called with the number of lines done, after each part.

    Raises `BadText` if the lines that are done are no longer those of the list, or the edges are
    asked for now and were not before, or the reverse; `OSError` if the list cannot be read;
    `sqlite3.Error` for the file; and the exceptions on programs.

    >>> import os, sqlite3, tempfile, mcg
    >>> with tempfile.TemporaryDirectory() as folder:
    ...     with open(f"{folder}/list.g6", "w") as list: _ = list.write("C~\\nE~rG\\n")
    ...     mcg.census(f"{folder}/list.g6", f"{folder}/census.sqlite").new
    ...     asked = sqlite3.connect(f"{folder}/census.sqlite").execute
    ...     asked("SELECT line, kind, bricks, girth FROM graphs").fetchall()
    2
    [(1, 'brick', 1, 3), (2, 'composite', 2, 3)]
    """
    with ExitStack() as stack:
        source = sys.stdin.buffer if name == UNNAMED else stack.enter_context(open(name, "rb"))
        found = stack.enter_context(closing(CensusFile(file)))
        lines = _Lines(source)
        begun = found.done(name)
        if begun is not None:
            _demand_same(name, lines, begun, edges)
        done = begun or found.begin(name, lines.sha256, edges)
        first = done.lines
        for part in _parts(lines, edges, processes):
            done = found.add(done, part, lines.count, lines.sha256)
            if progress is not None:
                progress(done.lines)
    return Census(done.list, done.lines, done.lines - first)


class _Lines:
    """The lines of a list, how many were taken, and their SHA-256, for which each has a line feed at
    its end."""

    def __init__(self, file: IO[bytes]) -> None:
        self._file, self._hash, self.count = file, hashlib.sha256(), 0

    @property
    def sha256(self) -> str:
        """The SHA-256 of what was taken, in hexadecimal."""
        return self._hash.hexdigest()

    def take(self) -> Optional[bytes]:
        """The next line with its end, of a long one the beginning; None at the end of the list."""
        line = piece = self._file.readline(MOST_LINE + 1)
        if not line:
            return None
        self._hash.update(piece)
        while piece and not piece.endswith(b"\n"):
            piece = self._file.readline(MOST_LINE + 1)
            self._hash.update(piece or b"\n")
        self.count += 1
        return line


def _demand_same(name: str, lines: _Lines, done: Done, edges: bool) -> None:
    """Takes the lines that are done. Raises `BadText` if they are others."""
    if done.with_edges != edges:
        now, then = ("with", "without") if edges else ("without", "with")
        raise BadText(f"the census of {name} was begun {then} the edges; go on {then} them, and not {now} them")
    while lines.count < done.lines and lines.take() is not None:
        pass
    if (lines.count, lines.sha256) != (done.lines, done.sha256):
        what = f"the first {done.lines:,} lines of {name} are not those that the census has"
        raise BadText(f"{what}: the list was changed; take its census into another file")


def _parts(lines: _Lines, edges: bool, processes: int) -> Iterator[List[Row]]:
    """The rows of the lines that are left, part by part."""
    most, is_last = FIRST, False
    while not is_last:
        start, before = time.monotonic(), lines.count
        bad, good, is_last = _taken(lines, most)
        if lines.count > before:
            yield sorted([*bad, *rows_of(good, edges, processes)], key=lambda it: it.line)
        took = time.monotonic() - start
        most = min(2 * most, MOST) if took < SHORT else max(LEAST, most // 2) if took > LONG else most


def _taken(lines: _Lines, most: int) -> Tuple[List[Row], List[Tuple[int, bytes]], bool]:
    """At most so many lines: the rows of those that are too long, the others with their numbers, and
    whether the list has ended. A header that is alone on the first line is no graph."""
    bad: List[Row] = []
    good: List[Tuple[int, bytes]] = []
    until = time.monotonic() + PATIENCE
    while len(good) + len(bad) < most and time.monotonic() < until:
        line = lines.take()
        if line is None:
            return bad, good, True
        if len(line) > MOST_LINE:
            bad.append(bad_row(lines.count, LIMIT, "a line of a list has at most 65,536 bytes"))
        elif lines.count > 1 or line not in graph6.HEADER_LINES:
            good.append((lines.count, line))
    return bad, good, False
