"""Finds the programs, runs them, and turns their exit statuses into exceptions."""
from __future__ import annotations

import os
import re
import shutil
import signal
import subprocess
from contextlib import contextmanager
from typing import Any, Dict, Iterator, List, Mapping, Optional, Sequence, Tuple, Type

from .errors import (
    FAULTS,
    LIMIT,
    BadGraph,
    BadInput,
    BadText,
    OutOfMemory,
    ProgramFailed,
    ProgramMissing,
    TooLarge,
)
from .memory_files import files_of, path_of

DONE, NEGATIVE, BAD_INPUT, NO_MEMORY, NO_PROGRAM = 0, 1, 4, 6, 127


def program(name: str) -> str:
    """Returns the path of `mcg` or `mcg6`: what the variable `MCG` or `MCG6` says, or else the
    program that came with the package in a wheel, or else what is on the `PATH`. Raises
    `ProgramMissing`."""
    variable = name.upper()
    given = os.environ.get(variable)
    own = os.path.join(os.path.dirname(os.path.abspath(__file__)), "bin", name)
    found = shutil.which(given) if given else shutil.which(own) or shutil.which(name)
    if found:
        return os.path.abspath(found)
    if given:
        raise ProgramMissing(f"{variable} is {given}, which is not a program that can be run")
    raise ProgramMissing(f"{name} is not on the PATH; set {variable} to the program's path")


def environment() -> Mapping[str, str]:
    """Returns the environment in which the programs say in words what is wrong."""
    return {key: value for key, value in os.environ.items() if key != "MCG_QUIET"}


def started(name: str, words: Sequence[str], **how: Any) -> subprocess.Popen[bytes]:
    """Starts a program. Raises `ProgramMissing` if it cannot be run, and `ProgramFailed` if its
    exit status would be lost. What the caller's signal handlers raise, and an error of the system
    such as too many open files, is passed on."""
    path = program(name)
    if signal.getsignal(signal.SIGCHLD) is signal.SIG_IGN:
        advice = "call signal.signal(signal.SIGCHLD, signal.SIG_DFL) before"
        raise ProgramFailed(
            f"the signal SIGCHLD is ignored, so the exit status of {name} would be lost; {advice}"
        )
    try:
        return subprocess.Popen([path, *words], env=environment(), **how)
    except OSError as why:
        if why.filename != path:
            raise
        raise ProgramMissing(f"{path}: {why.strerror}") from None


def status_of(name: str, process: subprocess.Popen[bytes]) -> int:
    """Waits for the end of a program, and returns its exit status. Raises `ProgramFailed` if this
    was taken by somebody else, for which `subprocess` would return 0."""
    if process.returncode is not None:
        return process.returncode
    try:
        found = os.waitid(os.P_PID, process.pid, os.WEXITED | os.WNOWAIT)
    except ChildProcessError:
        found = None
    process.wait()  # (a handler of signals can have run in between, and have taken the status)
    if found is None:
        what = "something in this process waits for all children, such as os.wait() in a handler of SIGCHLD"
        raise ProgramFailed(f"the exit status of {name} was lost: {what}")
    return found.si_status if found.si_code == os.CLD_EXITED else -found.si_status


def ended(name: str, status: int, words: str) -> Exception:
    """Returns the exception for an exit status that is not explained by a report."""
    said = words.strip() or f"{name} ended with status {status}"
    if status == NO_MEMORY:
        return OutOfMemory(words.strip() or f"{name}: memory ran out")
    if status == NO_PROGRAM:
        return ProgramMissing(said)
    if status < 0:
        return ProgramFailed(words.strip() or f"{name} was ended by signal {-status}", status)
    return ProgramFailed(said, status)


def bad_lines(words: str) -> Dict[int, Tuple[int, str]]:
    """Returns for each bad line of a list, by its number, the kind of its error and what mcg6 says
    of it: the message begins `mcg6: line L kind K: `. Nothing else is read out of its words.

    >>> bad_lines("mcg6: line 2 kind 4: a byte is outside the range 63-126")
    {2: (4, 'a byte is outside the range 63-126')}
    """
    said: Dict[int, Tuple[int, str]] = {}
    for message in words.splitlines():
        found = re.match("mcg6: line ([0-9]+) kind ([0-9]+): (.*)", message)
        if found:
            said.setdefault(int(found[1]), (int(found[2]), found[3]))
    return said


def _bad_file(report: List[str], names: List[str]) -> BadInput:
    """The exception for a file outside its format, which was made of what the caller gave."""
    found = re.fullmatch("file ([0-9]+) line ([0-9]+) kind ([0-9]+)", report[0] if report else "")
    if not found or not 1 <= int(found[1]) <= len(names):
        return BadText("what was given is outside its format")
    place, line, kind = map(int, found.groups())
    made: Type[BadInput] = BadText
    if place == 1:
        made = TooLarge if kind == LIMIT else BadGraph
    return made(
        f"the {names[place - 1]} is outside its format: {FAULTS.get(kind, 'an error')}", line, kind
    )


@contextmanager
def understood(command: str) -> Iterator[None]:
    """Raises `BadText` if what is read inside is not a report of the command on the graph."""
    try:
        yield
    except (KeyError, IndexError, ValueError, StopIteration) as why:
        raise BadText(f"not a report of {command} on this graph: {why}") from None


@contextmanager
def reported(command: str, status: Optional[int] = None) -> Iterator[None]:
    """Raises `ProgramFailed` if what is read inside, which a program has just written, is not a
    report of the command. `status` is the program's exit status, if it has ended."""
    try:
        yield
    except (BadText, KeyError, IndexError, ValueError) as why:
        raise ProgramFailed(
            f"the program did not write a report of {command} on this graph", status
        ) from why


def run(command: str, words: List[str], files: Dict[str, str]) -> Tuple[int, List[str]]:
    """Runs `mcg COMMAND ARGUMENT...` and returns its status, 0 or 1, and the lines of the report.

    `files` has the text of each file that the words name. Raises `BadGraph`, `TooLarge` or
    `BadText` for a file outside its format, and `OutOfMemory`, `ProgramMissing` or
    `ProgramFailed`.
    """
    pipes: Dict[str, Any] = {
        "stdin": subprocess.DEVNULL,
        "stdout": subprocess.PIPE,
        "stderr": subprocess.PIPE,
    }
    with files_of(files) as open_files:
        paths = {name: path_of(descriptor) for name, descriptor in open_files.items()}
        pipes["pass_fds"] = list(open_files.values())
        with started("mcg", [command, *(paths.get(it, it) for it in words)], **pipes) as process:
            try:
                out, said = process.communicate()
            except BaseException:
                process.kill()
                raise
    status, text = process.returncode, out.decode("ascii", "replace")
    if status not in (DONE, NEGATIVE, BAD_INPUT):
        raise ended("mcg", status, said.decode("utf-8", "replace"))
    if text and not text.endswith("\n"):
        raise ProgramFailed(f"the program did not write the whole report of {command}", status)
    rows = text[:-1].split("\n") if text else []
    if status == BAD_INPUT:
        raise _bad_file(rows, list(files))
    return status, rows
