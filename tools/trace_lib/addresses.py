"""Reads a map of addresses: where the buffers and the registers of a chip are among its physical addresses, and which cores have ranks."""
from __future__ import annotations

import bisect
import re
from dataclasses import dataclass, field
from typing import Callable

from rcce_lib.marks import Word, text_of, words_of
from rcce_lib.stops import Fault, Refused
from trace_lib.words import BITS, WORDS, Setup

CORES, LINES, LINE_BYTES, WORD_BYTES = 48, 256, 32, 8
FORMS = {
    "layout": "layout words|bits",
    "hosts": "hosts CORE,CORE,..",
    "comm": "comm COMM PARENT mod|div PARTS",
    "mpb": "mpb CORE ADDRESS",
    "lines": "lines CORE LINE COUNT ADDRESS",
    "tas": "tas CORE ADDRESS",
    "clock": "clock CORE OFFSET",
    "begin": "begin TIME",
}
WANTED_MAP = "one of " + " | ".join(FORMS.values())
NUMBER = re.compile(r"0[xX][0-9a-fA-F]{1,16}|[0-9]{1,20}")


class Wrong(Exception):
    """What is wrong with a word of a line."""

    def __init__(self, said: str, at: Word | None = None) -> None:
        super().__init__(said)
        self.said, self.at = said, at


def refuse(name: str, line: int, kind: str, wanted: str, text: str, wrong: Wrong, form: str | None = None) -> Refused:
    """The refusal of a line, with marks under the word that is wrong."""
    column, length, met = (wrong.at.column + 1, max(1, len(wrong.at.text)), wrong.at.text) if wrong.at else (None, None, None)
    return Refused(Fault(name, line, kind, wanted, wrong.said, text, column, length, met, form))


def number(word: Word, what: str, most: int = 2**64 - 1, least: int = 0) -> int:
    """A number in decimal, or in hex behind 0x."""
    if not NUMBER.fullmatch(word.text):
        raise Wrong(f"{word.text} is no number: {what} is wanted, in decimal or in hex with 0x", word)
    found = int(word.text, 16 if word.text[:2] in ("0x", "0X") else 10)
    if not least <= found <= most:
        raise Wrong(f"{word.text} is out of range: {what} is {least} to {most}", word)
    return found


@dataclass(frozen=True)
class Range:
    """Addresses that are lines of a buffer, or a register where there is no line."""

    first: int
    size: int
    core: int
    line: int | None


@dataclass
class Map:
    """The setup of the run, the ranges of addresses in their order, what is added to the times of each core, and when the run begins."""

    setup: Setup = field(default_factory=lambda: Setup(0, "", []))
    ranges: list[Range] = field(default_factory=list)
    clocks: dict[int, int] = field(default_factory=dict)
    begin: int | None = None

    def range_of(self, address: int) -> Range | None:
        """The range that has an address."""
        at = bisect.bisect_right(self.ranges, address, key=lambda it: it.first) - 1
        found = self.ranges[at] if at >= 0 else None
        return found if found and address < found.first + found.size else None

    def put(self, new: Range, word: Word) -> None:
        """Puts a range to those that are there."""
        at = bisect.bisect_right(self.ranges, new.first, key=lambda it: it.first)
        before, after = self.ranges[at - 1 : at] if at else [], self.ranges[at : at + 1]
        if new.first + new.size > 2**64:
            raise Wrong(f"{word.text} is too high: the last address has 64 bits", word)
        if any(it.first < new.first + new.size and new.first < it.first + it.size for it in before + after):
            raise Wrong(f"from {word.text} on there are addresses that a line before has", word)
        self.ranges.insert(at, new)

    # each line of the map, by its first word

    def layout(self, words: list[Word]) -> None:
        """The layout of the flags."""
        if words[0].text not in (WORDS, BITS):
            raise Wrong(f"{words[0].text} is not {WORDS} or {BITS}", words[0])
        self.setup.layout = words[0].text

    def hosts(self, words: list[Word]) -> None:
        """The core of each rank."""
        column = words[0].column
        for part in words[0].text.split(","):
            word = Word(part, column)
            core = number(word, "a core", CORES - 1)
            if core in self.setup.hosts:
                raise Wrong(f"core {core} is named twice", word)
            self.setup.hosts.append(core)
            column += len(part) + 1
        self.setup.ues = len(self.setup.hosts)

    def comm(self, words: list[Word]) -> None:
        """A communicator that is a split."""
        splits = self.setup.splits
        comm = number(words[0], "a communicator", 15, max(splits, default=0) + 1)
        parent = number(words[1], "the parent", 15)
        if parent and parent not in splits:
            raise Wrong(f"no line before splits the parent, {parent}", words[1])
        if words[2].text not in ("mod", "div"):
            raise Wrong(f"{words[2].text} is not mod or div", words[2])
        splits[comm] = parent, words[2].text, number(words[3], "PARTS", 48, 1)

    def mpb(self, words: list[Word]) -> None:
        """The buffer of a core, from its first byte."""
        self.put(Range(number(words[1], "an address"), LINES * LINE_BYTES, number(words[0], "a core", CORES - 1), 0), words[1])

    def lines(self, words: list[Word]) -> None:
        """Some lines of a core's buffer."""
        line = number(words[1], "a line", LINES - 1)
        count = number(words[2], "COUNT", LINES - line, 1)
        self.put(Range(number(words[3], "an address"), count * LINE_BYTES, number(words[0], "a core", CORES - 1), line), words[3])

    def tas(self, words: list[Word]) -> None:
        """The test-and-set register of a core."""
        self.put(Range(number(words[1], "an address"), 1, number(words[0], "a core", CORES - 1), None), words[1])

    def clock(self, words: list[Word]) -> None:
        """What is added to the times of a core; it may be negative."""
        digits = Word(words[1].text.removeprefix("-"), words[1].column)
        self.clocks[number(words[0], "a core", CORES - 1)] = number(digits, "an offset") * (-1 if digits.text != words[1].text else 1)

    def begins(self, words: list[Word]) -> None:
        """When the run begins."""
        self.begin = number(words[0], "a time")


def read_map(name: str, data: bytes) -> Map:
    """The map of a file."""
    found, lines = Map(), [text_of(line) for line in data.split(b"\n")]
    takers: dict[str, Callable[[list[Word]], None]] = {"layout": found.layout, "hosts": found.hosts, "comm": found.comm, "mpb": found.mpb}
    takers.update(lines=found.lines, tas=found.tas, clock=found.clock, begin=found.begins)
    seen: set[str] = set()
    for at, text in enumerate(lines, 1):
        if not (words := words_of(text)):
            continue
        verb, rest = words[0].text, words[1:]
        form = FORMS.get(verb)
        try:
            if form is None:
                raise Wrong(f"{verb} is no word of a map", words[0])
            if len(words) != len(form.split()):
                raise Wrong(f"the line has {len(words)} words, and its form {len(form.split())}", words[-1])
            if verb in seen and verb in ("layout", "hosts", "begin"):
                raise Wrong(f"{verb} is given twice", words[0])
            seen.add(verb)
            takers[verb](rest)
        except Wrong as wrong:
            raise refuse(name, at, "BadMap", WANTED_MAP, text, wrong, form) from wrong
    for verb in ("layout", "hosts"):
        if verb not in seen:
            raise refuse(name, len(lines), "BadMap", WANTED_MAP, "", Wrong(f"the map has no line {FORMS[verb]}"))
    return found
