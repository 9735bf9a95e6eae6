"""Sends parts of a list of graphs through processes of mcg6 that run at the same time."""
from __future__ import annotations

import os
import resource
import select
import subprocess
import time
from collections import deque
from typing import IO, Any, Deque, Generator, Iterable, List, Optional, Sequence, cast

from .errors import BadInput
from .memory_files import file_of, new_file
from .programs import started, status_of
from .sessions import Session, without_header
from .streams import CHUNK, KEPT, Stream, stop

# A block takes at most so many lines and bytes, and as many lines as come in so many seconds.
MOST_LINES, MOST_BYTES, PATIENCE = 8_192, KEPT, 0.05

# The first blocks have so many lines. While a process takes less than so many seconds of processor
# time, the next blocks are twice as long; after one that takes more than so many, half as long.
FIRST_LINES, SHORT, LONG = 16, 0.05, 0.25


class Block(Stream):
    """A part of a list, sent through `mcg6 WORDS..` in whole.

    `start` takes lines from the iterator and starts the process, which reads them from a file in
    memory and writes to another, so that nobody has to feed it. Iterating waits for its end and
    yields its lines; what is raised then is as in `Stream`. `close` ends the process.
    """

    _process: Optional[subprocess.Popen[bytes]] = None
    _files: Sequence[IO[bytes]] = ()
    _size = 0
    _status: Optional[int] = None

    def start(self, most: int) -> None:
        """Takes at most so many lines, at least one if there is one, and starts the process."""
        text = b"".join(it + b"\n" for it in self._whole_block(most))
        source, drain, said = self._files = file_of(text), new_file(), new_file()
        self._process = started("mcg6", self.words, stdin=source, stdout=drain, stderr=said)

    def _whole_block(self, most: int) -> Sequence[bytes]:
        """The lines of the block; all are kept. What `_take` does for each is done here for all."""
        taken: List[bytes] = []
        size, until, clock = 0, time.monotonic() + PATIENCE, time.monotonic
        try:
            while len(taken) < most and size < MOST_BYTES and (not taken or clock() < until):
                line = next(self.lines, None)
                if line is None:
                    self.is_last = True
                    break
                taken.append(line)
                size += len(line) + 1
        except Exception as failure:
            self._failure, self.is_last = failure, True
        self._kept.extend(taken)
        self.sent, self._size = len(taken), size
        return taken

    def is_running(self) -> bool:
        """Returns whether the process still runs. Its exit status is left for `wait`."""
        if self._process is None or self._process.returncode is not None:
            return False
        try:
            return (
                os.waitid(os.P_PID, self._process.pid, os.WEXITED | os.WNOWAIT | os.WNOHANG) is None
            )
        except ChildProcessError:
            return False

    @property
    def pid(self) -> int:
        """The number of the process, which has been started."""
        assert self._process
        return self._process.pid

    def wait(self) -> float:
        """Waits until the process has ended, and returns the seconds of processor time that it took.
        If other threads wait for processes of theirs, those can be counted too."""
        assert self._process
        before = _children()
        self._status = status_of("mcg6", self._process)
        return _children() - before

    def __iter__(self) -> Generator[bytes, None, None]:
        if self._status is None:
            self.wait()
        assert self._status is not None
        source, drain, said = self._files
        self._is_open = False
        self._ended_early = os.lseek(source.fileno(), 0, os.SEEK_CUR) < self._size
        drain.seek(0)
        while piece := drain.read(CHUNK):
            for line in self._whole_lines(piece):
                self.yielded += 1
                yield line
        self._end(self._status, said)

    def close(self) -> None:
        """Ends the process if it still runs, and closes its files."""
        if self._process is not None:
            stop(self._process)
        for file in self._files:
            file.close()


class BlockSession(Session):
    """A session whose process runs while others do."""

    sends_by = Block

    @property
    def block(self) -> Block:
        """The part of the list that it sends."""
        return cast(Block, self.stream)


def at_once(
    words: Sequence[str], graphs: Iterable[Any], skipped: Optional[List[BadInput]], processes: int
) -> Generator[Session, None, None]:
    """Yields the sessions of a list, in order, of which so many run at a time. Each is to be used up
    before the next is taken.

    New ones are begun as long as the first one still runs. At most two for each process are begun
    and not yet yielded, so the memory used does not grow with the list. One in which the iterable
    raised an exception is the last.
    """
    rest, before = without_header(graphs), 0
    begun: Deque[BlockSession] = deque()
    is_last, most = False, FIRST_LINES
    try:
        while begun or not is_last:
            running = [it.block for it in begun if it.block.is_running()]
            has_room = not is_last and len(running) < processes and len(begun) < 2 * processes
            if has_room:
                begun.append(BlockSession(words, rest, skipped, before))
                begun[-1].block.start(most)
                before += begun[-1].count
                is_last = begun[-1].block.is_last
            elif begun[0].block in running:
                _wait_for_one(running)
            if not begun[0].block.is_running():
                most = _length(most, begun[0].count, begun[0].block.wait())
                yield begun[0]
                begun.popleft().block.close()
    finally:
        for it in begun:
            it.block.close()


def _wait_for_one(blocks: Sequence[Block]) -> None:
    """Waits until one of the processes has ended. Where the system cannot say so, until the first."""
    opened: List[int] = []
    poll = select.poll()
    try:
        for it in blocks:
            opened.append(os.pidfd_open(it.pid))
            poll.register(opened[-1], select.POLLIN)
        poll.poll()
    except (AttributeError, OSError):
        blocks[0].wait()
    finally:
        for descriptor in opened:
            os.close(descriptor)


def _children() -> float:
    """The seconds of processor time of all processes that were waited for."""
    used = resource.getrusage(resource.RUSAGE_CHILDREN)
    return used.ru_utime + used.ru_stime


def _length(most: int, sent: int, seconds: float) -> int:
    """How many lines the next block may have, after one with so many lines took so many seconds."""
    if seconds > LONG:
        return max(1, min(most, sent // 2))
    return min(2 * most, MOST_LINES) if seconds < SHORT and sent >= most else most
