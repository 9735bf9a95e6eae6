"""The file of a census: an SQLite database with the tables `lists`, `graphs` and `leaves`."""
from __future__ import annotations

import sqlite3
from contextlib import contextmanager
from typing import Iterator, NamedTuple, Optional, Sequence

from .census_rows import COLUMNS, Row
from .errors import BadText, Error

TYPES = {"graph6": "TEXT", "reason": "TEXT", "kind": "TEXT", "error": "TEXT"}

TABLES = (
    """CREATE TABLE IF NOT EXISTS lists (
        list INTEGER PRIMARY KEY, name TEXT NOT NULL, lines INTEGER NOT NULL, sha256 TEXT NOT NULL,
        with_edges INTEGER NOT NULL)""",
    "CREATE UNIQUE INDEX IF NOT EXISTS lists_by_name ON lists (name) WHERE name <> '-'",
    "CREATE TABLE IF NOT EXISTS graphs (list INTEGER NOT NULL REFERENCES lists, line INTEGER NOT NULL, "
    + ", ".join(f"{name} {TYPES.get(name, 'INTEGER')}" for name in COLUMNS)
    + ", PRIMARY KEY (list, line))",
    "CREATE INDEX IF NOT EXISTS graphs_by_kind ON graphs (kind, vertices)",
    "CREATE INDEX IF NOT EXISTS graphs_by_graph6 ON graphs (graph6)",
    """CREATE TABLE IF NOT EXISTS leaves (
        list INTEGER NOT NULL REFERENCES lists, line INTEGER NOT NULL, graph6 TEXT NOT NULL,
        kind TEXT NOT NULL)""",
    "CREATE INDEX IF NOT EXISTS leaves_by_line ON leaves (list, line)",
    "CREATE INDEX IF NOT EXISTS leaves_by_graph6 ON leaves (graph6)",
)

# Standard input, which has no name, so that each one is a list of its own.
UNNAMED = "-"

# How many seconds another process may hold the file.
PATIENCE = 60.0


class Done(NamedTuple):
    """How far a list was taken: its number in the file, the lines that are done, their SHA-256 in
    hexadecimal, and whether the edges were counted."""

    list: int
    lines: int
    sha256: str
    with_edges: bool


class CensusFile:
    """A database with the censuses of some lists. Closing it keeps what was written.

    Raises `sqlite3.Error` for a file that cannot be one.
    """

    def __init__(self, path: str) -> None:
        self._database = sqlite3.connect(path, timeout=PATIENCE, isolation_level=None)
        with self._transaction():
            for table in TABLES:
                self._database.execute(table)

    @contextmanager
    def _transaction(self) -> Iterator[None]:
        """Writes all of what is done inside, or nothing of it."""
        self._database.execute("BEGIN IMMEDIATE")
        try:
            yield
        except BaseException:
            self._database.execute("ROLLBACK")
            raise
        self._database.execute("COMMIT")

    def done(self, name: str) -> Optional[Done]:
        """Returns how far the list with this name was taken, None if it is not there."""
        if name == UNNAMED:
            return None
        asked = "SELECT list, lines, sha256, with_edges FROM lists WHERE name = ?"
        row = self._database.execute(asked, (name,)).fetchone()
        if row is None:
            return None
        number, lines, sha256, with_edges = row
        return Done(number, lines, sha256, bool(with_edges))

    def begin(self, name: str, sha256: str, with_edges: bool) -> Done:
        """Adds a list of which no line is done; `sha256` is that of no lines."""
        with self._transaction():
            if self.done(name) is not None:
                raise BadText(f"another process has just begun the census of {name} in this file")
            added = "INSERT INTO lists (name, lines, sha256, with_edges) VALUES (?, 0, ?, ?)"
            number = self._database.execute(added, (name, sha256, int(with_edges))).lastrowid
        return Done(number or 0, 0, sha256, with_edges)

    def add(self, before: Done, rows: Sequence[Row], lines: int, sha256: str) -> Done:
        """Adds the rows of the next lines, and writes how far the list was taken, both or neither.
        Raises `Error` if another process did so before."""
        after = before._replace(lines=lines, sha256=sha256)
        with self._transaction():
            moved = "UPDATE lists SET lines = ?, sha256 = ? WHERE list = ? AND lines = ? AND sha256 = ?"
            values = (lines, sha256, before.list, before.lines, before.sha256)
            if self._database.execute(moved, values).rowcount != 1:
                raise Error("another process takes the census of the same list into this file")
            self._database.executemany(
                f"INSERT INTO graphs VALUES (?, ?{', ?' * len(COLUMNS)})",
                ((before.list, it.line, *(it.values[name] for name in COLUMNS)) for it in rows),
            )
            self._database.executemany(
                "INSERT INTO leaves VALUES (?, ?, ?, ?)",
                ((before.list, it.line, text, kind) for it in rows for text, kind in it.leaves),
            )
        return after

    def close(self) -> None:
        """Closes the file."""
        self._database.close()
