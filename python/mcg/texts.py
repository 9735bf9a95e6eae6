"""What all text formats share: significant lines, words and numbers, by docs/FORMATS.md."""
from __future__ import annotations

import re
from typing import Iterable, List, Tuple, Type

from .errors import FAULTS, LIMIT, BadGraph, BadInput, BadText, TooLarge

HEADER, WORD, NUMBER, RANGE, LOOP, MISSING, EXTRA = 1, 2, 3, 4, 5, 7, 8
NOT_RISING, HAS_GREATEST, UNNAMED, SAME_NAME, BAD_NAME = 9, 10, 11, 12, 13
MOST_BYTES = 1_048_576

Line = Tuple[int, List[str]]


class Reader:
    """The significant lines of a text, one after the other, and the errors of its format."""

    def __init__(self, text: str, error: Type[BadInput] = BadText) -> None:
        self.error = error
        if len(text) > MOST_BYTES:
            raise self.fault(0, LIMIT)
        rows = text.split("\n")
        if not rows[-1]:
            rows.pop()
        found = ((k, re.findall(r"[^ \t\r]+", row)) for k, row in enumerate(rows, 1))
        self.lines: List[Line] = [(k, words) for k, words in found if words and words[0] != "c"]
        self.after = len(rows) + 1
        self.at = 0

    def fault(self, line: int, kind: int) -> BadInput:
        """Returns the exception for an error of that kind in that line."""
        words = f"line {line}: {FAULTS[kind]}"
        if self.error is BadGraph and kind == LIMIT:
            return TooLarge(words, line, kind)
        return self.error(words, line, kind)

    def numbers(self, line: int, words: Iterable[str]) -> List[int]:
        """Returns the words as numbers of 1 to 9 digits."""
        listed = list(words)
        if not all(re.fullmatch("[0-9]{1,9}", word) for word in listed):
            raise self.fault(line, NUMBER)
        return [int(word) for word in listed]

    def header(self, letter: str, name: str, count: int) -> Tuple[int, List[int]]:
        """Returns the number of the header's line, and its numbers."""
        if not self.lines:
            raise self.fault(self.after, HEADER)
        line, words = self.lines[0]
        if len(words) != 2 + count or words[:2] != [letter, name]:
            raise self.fault(line, HEADER)
        self.at = 1
        return line, self.numbers(line, words[2:])

    def is_done(self) -> bool:
        """Returns whether all lines were taken."""
        return self.at == len(self.lines)

    def take(self) -> Line:
        """Returns the next line."""
        if self.is_done():
            raise self.fault(self.after, MISSING)
        self.at += 1
        return self.lines[self.at - 1]

    def end(self) -> None:
        """Raises an exception if a line is left."""
        if not self.is_done():
            raise self.fault(self.lines[self.at][0], EXTRA)

    def vertices(self, line: int, words: Iterable[str], order: int) -> List[int]:
        """Returns the words as vertices in rising order."""
        found = self.numbers(line, words)
        if not all(1 <= v <= order for v in found):
            raise self.fault(line, RANGE)
        if any(b <= a for a, b in zip(found, found[1:])):
            raise self.fault(line, NOT_RISING)
        return found


def bounded(what: str, rows: List[str]) -> str:
    """Returns the lines as the text of a file. Raises `BadText` if it is longer than a file may be."""
    text = "\n".join(rows) + "\n"
    if len(text) > MOST_BYTES:
        raise BadText(f"{what} is too long: its text has {len(text):,} bytes, and {MOST_BYTES:,} is the most", kind=LIMIT)
    return text


def spaced(word: str, numbers: Iterable[int]) -> str:
    """Returns a line: the word, and one space before each number."""
    return " ".join([word, *map(str, numbers)])
