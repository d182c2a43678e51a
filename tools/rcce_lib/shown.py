"""How texts are shown: colour on a terminal alone, numbers with their words, text for JSON."""
from __future__ import annotations

import json
import os
import sys
from typing import TextIO

CODES = {"bad": "1;31", "good": "1;32", "strong": "1", "dim": "2"}


class Paint:
    """Colours, where the stream is a terminal and NO_COLOR is not set."""

    def __init__(self, stream: TextIO) -> None:
        self.on = stream.isatty() and not os.environ.get("NO_COLOR") and os.environ.get("TERM") != "dumb"

    def __call__(self, how: str, text: str) -> str:
        """The text in a colour."""
        return f"\x1b[{CODES[how]}m{text}\x1b[0m" if self.on else text


def counted(number: int, word: str, many: str = "") -> str:
    """A number with its word."""
    return f"{number:,} {word if number == 1 else many or word + 's'}"


def ues(ranks: list[int]) -> str:
    """The names of ranks."""
    return ", ".join(f"ue {rank}" for rank in ranks)


def say(text: str) -> None:
    """Writes a text with its line's end to standard output."""
    sys.stdout.write(text.encode("utf-8", "surrogateescape").decode("utf-8", "replace") + "\n")


def say_object(value: dict[str, object]) -> None:
    """Writes an object as one line of JSON."""
    say(json.dumps(value))
