"""Files without a name, by which texts are handed to the programs and taken from them.

The programs open each of their files by a path. `/dev/fd/N` is one for a descriptor that the
process was given, and opening it begins at the first byte. So a text needs no folder and no name.
"""
from __future__ import annotations

import errno
import os
import tempfile
from contextlib import ExitStack, contextmanager
from typing import IO, Dict, Iterator, Mapping

from .errors import ProgramFailed


def new_file() -> IO[bytes]:
    """Returns an empty file, open for reading and writing: in memory if the system has such files,
    and else on disk. Its descriptor is not passed to other processes unless it is named. Raises
    `ProgramFailed` if there is no place for it."""
    try:
        return os.fdopen(os.memfd_create("mcg"), "w+b", buffering=0)
    except (AttributeError, OSError) as why:  # not Linux, or not allowed
        if getattr(why, "errno", None) in (errno.EMFILE, errno.ENFILE):
            raise
    try:
        return tempfile.TemporaryFile(buffering=0)
    except FileNotFoundError as why:
        raise ProgramFailed(
            f"no temporary file can be made: {why}; make its folder, or set tempfile.tempdir to one"
        ) from None


def file_of(content: bytes) -> IO[bytes]:
    """Returns such a file with this content, at its beginning."""
    file, rest = new_file(), memoryview(content)
    while rest:
        rest = rest[file.write(rest) :]
    file.seek(0)
    return file


@contextmanager
def files_of(texts: Mapping[str, str]) -> Iterator[Dict[str, int]]:
    """Gives, by name, the descriptor of a file with each text, in latin-1, and closes it at the end."""
    with ExitStack() as stack:
        files = {
            name: stack.enter_context(file_of(it.encode("latin-1"))) for name, it in texts.items()
        }
        yield {name: file.fileno() for name, file in files.items()}


def path_of(descriptor: int) -> str:
    """Returns the path by which a process opens a descriptor that it was given."""
    return f"/dev/fd/{descriptor}"
