"""`python3 -m mcg census`: takes a census, and says on standard error how far it is."""
from __future__ import annotations

import sqlite3
import sys
import time

from .census_files import UNNAMED
from .censuses import census
from .errors import Error

# Where standard error is no terminal, a line of progress comes after so many seconds.
SECONDS = 10.0


class ProgressLine:
    """A line that says how many lines of a list are done; on a terminal it is written anew."""

    def __init__(self, name: str) -> None:
        self._name, self._is_terminal = name, sys.stderr.isatty()
        self._start = self._said = time.monotonic()
        self._first = -1

    def __call__(self, done: int) -> None:
        now = time.monotonic()
        if self._first < 0:
            self._first, self._start = done, now
        if not self._is_terminal and now - self._said < SECONDS:
            return
        self._said = now
        rate = (done - self._first) / (now - self._start) if now > self._start else 0
        text = f"{self._name}: {done:,} lines done" + (f", {rate:,.0f} a second" if rate else "")
        end = "\033[K\r" if self._is_terminal else "\n"
        print(text, end=end, file=sys.stderr, flush=True)


def take_census(name: str, output: str, edges: bool, processes: int, quiet: bool) -> None:
    """Takes the census of a list. What it raises is as for `census`, but `Error` for the file too."""
    if name == UNNAMED:
        what = "standard input cannot be resumed: if this is interrupted, begin again with a new file"
        print(f"python3 -m mcg census: {what}", file=sys.stderr)
    try:
        made = census(name, output, edges, processes, None if quiet else ProgressLine(name))
    except sqlite3.Error as why:
        raise Error(f"{output}: {why}") from why
    if not quiet:
        print(f"{name}: {made.lines:,} lines are in {output}, {made.new:,} of them new", file=sys.stderr)
