"""Sends a list of graphs through one process of mcg6 and takes its lines as they come."""
from __future__ import annotations

import os
import select
import subprocess
import time
from collections import deque
from typing import IO, Deque, Dict, Generator, Iterator, List, Optional, Sequence

from . import graph6
from .errors import LIMIT, BadGraph, ProgramFailed, TooLarge
from .memory_files import new_file
from .programs import BAD_INPUT, DONE, bad_lines, ended, started, status_of

CHUNK = 65_536

# Lines are written together, up to so many bytes, and as many as come in so many seconds.
PIECE, PATIENCE = 8_192, 0.001

# The last lines that were sent are kept up to so many bytes: more than the pipe and mcg6 hold unread.
KEPT = 400_000

# The words of mcg6 that write a line for each graph.
ONE_LINE_EACH = ("kinds", "matching")


class Stream:
    """A running `mcg6 WORDS..`: iterating yields the lines that it writes.

    Lines are taken from the iterator as far ahead as the pipe holds them, and in the caller's
    thread; no line waits for the end of the list, but it may wait for the line after it. If the
    iterator raises an exception, or a line is bad, the lines for what came before are yielded
    first. `sent` counts the lines that were taken, and `is_last` says whether the iterator has
    ended. Closing ends the process.

    If `skips`, the list goes on after bad lines: `bad` has the exception for each, by its number,
    when the list has ended. In exceptions a line is a graph of the caller's list, of which `before`
    were sent through other processes.
    """

    def __init__(
        self, words: Sequence[str], lines: Iterator[bytes], skips: bool = False, before: int = 0
    ) -> None:
        self.words, self.lines = [*words, *(["skip"] if skips else [])], lines
        self.skips, self.before = skips, before
        self.bad: Dict[int, BadGraph] = {}
        self.sent = 0
        self.yielded = 0
        self._unsent = b""
        self._unread = b""
        self.is_last = False
        self._is_open = True
        self._ended_early = False
        self._failure: Optional[Exception] = None
        self._kept: Deque[bytes] = deque()
        self._kept_bytes = 0

    def __iter__(self) -> Generator[bytes, None, None]:
        with new_file() as said:
            pipe = subprocess.PIPE
            process = started("mcg6", self.words, bufsize=0, stdin=pipe, stdout=pipe, stderr=said)
            try:
                for line in self._run(process):
                    self.yielded += 1
                    yield line
                self._end(status_of("mcg6", process), said)
            finally:
                stop(process)

    def _run(self, process: subprocess.Popen[bytes]) -> Iterator[bytes]:
        """Feeds the process and yields its lines until it closes its output."""
        assert process.stdin and process.stdout
        source, drain = process.stdout.fileno(), process.stdin.fileno()
        os.set_blocking(drain, False)
        poll = select.poll()
        poll.register(source, select.POLLIN)
        poll.register(drain, select.POLLOUT)
        while True:
            if self._is_open and not self._unsent:
                self._fill()
            if self._is_open and not self._unsent:
                self._close(process, poll)
            ready = dict(poll.poll())
            if drain in ready and self._is_open and not self._write(drain):
                self._close(process, poll)
            if source in ready:
                piece = os.read(source, CHUNK)
                yield from self._whole_lines(piece)
                if not piece:
                    self._ended_early = self._is_open
                    if self._is_open:
                        self._close(process, poll)
                    return

    def _fill(self) -> None:
        """Takes the next lines, as many as come in a moment."""
        taken: List[bytes] = []
        size, until = 0, time.monotonic() + PATIENCE
        while size < PIECE and (not taken or time.monotonic() < until):
            line = self._take()
            if line is None:
                break
            taken += [line, b"\n"]
            size += len(line) + 1
        self._unsent = b"".join(taken)

    def _take(self) -> Optional[bytes]:
        """The next line, if there is one."""
        if self.is_last:
            return None
        try:
            line = next(self.lines, None)
        except Exception as failure:
            self._failure, line = failure, None
        if line is None:
            self.is_last = True
            return None
        self.sent += 1
        self._kept.append(line)
        self._kept_bytes += len(line) + 1
        while self._kept_bytes > KEPT and len(self._kept) > 1:
            self._kept_bytes -= len(self._kept.popleft()) + 1
        return line

    def _write(self, drain: int) -> bool:
        """Writes what the pipe takes, and returns whether somebody reads it."""
        try:
            self._unsent = self._unsent[os.write(drain, self._unsent) :]
        except BlockingIOError:
            pass
        except BrokenPipeError:
            return False
        return True

    def _close(self, process: subprocess.Popen[bytes], poll: select.poll) -> None:
        assert process.stdin
        poll.unregister(process.stdin.fileno())
        process.stdin.close()
        self._is_open = False

    def _whole_lines(self, piece: bytes) -> List[bytes]:
        *whole, self._unread = (self._unread + piece).split(b"\n")
        return whole

    def _end(self, status: int, said: IO[bytes]) -> None:
        """Raises what ended the list early, if something did."""
        said.seek(0)
        words = said.read().decode("utf-8", "replace")
        if status == BAD_INPUT:
            self._take_bad_lines(words)
        elif status != DONE:
            raise ended("mcg6", status, words)
        if self._failure is not None:
            raise self._failure
        is_short = self.words[0] in ONE_LINE_EACH and self.yielded + len(self.bad) < self.sent
        if self._unread or self._unsent or self._ended_early or is_short:
            raise ProgramFailed("mcg6 ended before it had read the list", status)

    def _take_bad_lines(self, words: str) -> None:
        """Keeps the exceptions for the bad lines that mcg6 names, or raises that for the first. A
        silent program names none: then a bad line is known by the number of the lines before it."""
        found = bad_lines(words)
        if not all(1 <= line <= self.sent for line in found):
            raise ProgramFailed("mcg6 named a line that was not sent", BAD_INPUT)
        self.bad = {line: self._bad_line(line, kind, what) for line, (kind, what) in found.items()}
        if not self.skips:
            line = self.yielded + 1 if self.words[0] in ONE_LINE_EACH else None
            raise self.bad[min(self.bad)] if self.bad else self._bad_line(line, None, "")

    def _bad_line(self, line: Optional[int], kind: Optional[int], what: str) -> BadGraph:
        """The exception for a bad line. Where mcg6 names no kind, it is found in the text of the
        line, if that was kept."""
        place = -1 if line is None else line - 1 - (self.sent - len(self._kept))
        if kind is None and 0 <= place < len(self._kept):
            kind = graph6.fault_kind(self._kept[place])
        made = TooLarge if kind == LIMIT else BadGraph
        if line is None:
            return made("a graph of the list is not in graph6", None, kind)
        number = line + self.before
        return made(
            f"graph {number} of the list is not in graph6: {what}".rstrip(": "), number, kind
        )


def stop(process: subprocess.Popen[bytes]) -> None:
    """Ends the process if it still runs, and closes its pipes."""
    if process.poll() is None:
        process.kill()
    for pipe in (process.stdin, process.stdout):
        if pipe:
            try:
                pipe.close()
            except BrokenPipeError:
                pass
    process.wait()
