"""A line of a file with its words, and how it is shown with marks under the part that is wrong."""
from __future__ import annotations

import re
import unicodedata
from dataclasses import dataclass

# how many characters of a line are shown at most, and how many of them before the mark
WIDEST, BEFORE = 100, 60


@dataclass(frozen=True)
class Word:
    """A word of a line, or a part of one; columns count characters from 0."""

    text: str
    column: int

    @property
    def end(self) -> int:
        """The column after it."""
        return self.column + len(self.text)

    def part(self, start: int, end: int | None = None) -> Word:
        """A part of the word."""
        return Word(self.text[start:end], self.column + start)


def text_of(line: bytes) -> str:
    """A line as text; a byte that is no UTF-8 has the form \\xff."""
    return line.decode("utf-8", "backslashreplace")


def words_of(text: str) -> list[Word]:
    """The words of a line before its comment."""
    return [Word(found[0], found.start()) for found in re.finditer(r"[^ \t\r]+", text.split("#")[0])]


def shown(text: str, column: int, length: int) -> list[str]:
    """The line as it is in the file, and below it the marks; of a long line the part around them. Both lines have the same tabs."""
    text = text.rstrip(" \t\r")
    start = max(0, column - BEFORE) if len(text) > WIDEST else 0
    end = min(max(len(text), column), start + WIDEST)
    head, tail = (".. " if start else ""), (" .." if end < len(text) else "")
    before = head + "".join(map(seen, text[start:column].ljust(column - start)))
    marked = "".join(map(seen, text[column : min(column + length, end)]))
    blanks = "".join(it if it == "\t" else " " * _width(it) for it in before)
    line = before + marked + "".join(map(seen, text[column + length : end])) + tail
    return [line.rstrip(), blanks + "^" * max(1, sum(map(_width, marked.replace("\t", " "))))]


def seen(character: str) -> str:
    """A character as it is shown: what a terminal would obey has the form of an escape."""
    if character == "\r":
        return " "
    if character == "\t" or character.isprintable():
        return character
    return character.encode("unicode_escape", "surrogatepass").decode("ascii")


def _width(character: str) -> int:
    """How many columns of a terminal a character takes."""
    if unicodedata.category(character) in ("Mn", "Me"):
        return 0
    return 2 if unicodedata.east_asian_width(character) in "WF" else 1
