"""Reads what rccelab prints of a lab, by docs/LAB.md: each step with its accesses, and what the cores hold behind it.

What a core holds is told by its steps: which line a read brings in, what a write changes in its copy and in its write-combining buffer."""
from __future__ import annotations

import re
from dataclasses import dataclass, field
from typing import NamedTuple

from rcce_lib.stops import Fault, Refused

FIRST_HEAP, CACHE_LINES = 225, 512
WANTED = "what rccelab prints of a lab: line N: STEP, and below it the accesses and answers of the step"
STEP = re.compile(r"line (\d+): (.*)", re.A | re.S)
LOAD_STORE = re.compile(r"(\d+) (load|store) (\d+)\.(\d+)\.([0-3]) ([0-9a-f]{16}) # heap", re.A)
REGISTER = re.compile(r"(\d+) (take|free) (\d+)\.register 0{15}([01]) # register", re.A)
ANSWER = re.compile(r"answer (?:(took|taken)|(\d+):(\d+)\.([0-3]) ([0-9a-f]{16}) from (cache|buffer line|words))", re.A)
EVICTED = re.compile(r"evicted (\d+):(\d+)", re.A)
HOLDS = re.compile(r"core (\d+) (caches|buffers) (?:(nothing)|(\d+):(\d+)((?: (?:[0-9a-f]{16}|-)){4}))", re.A)
STOP = re.compile(r"line (\d+): (?:\d+:\d+\.[0-3] is [0-9a-f]{16}, expected [0-9a-f]{16}|answer (?:took|taken), expected (?:took|taken)"
                  r"|core \d+ (?:holds|does not hold) register \d+)", re.A)
VERBS = ("write", "read", "flush", "invalidate", "put", "get", "load", "store", "take", "free", "print")
# a line of a buffer, by its core and its number on the heap
Line = tuple[int, int]
# the line in a write-combining buffer, with the words that were written
Buffer = tuple[Line, list["int | None"]]


class Fill(NamedTuple):
    """A change of a cache: a line is brought in, behind the others."""

    line: Line
    words: list[int]


class Write(NamedTuple):
    """A change of a cache: a word of a line that is there."""

    line: Line
    word: int
    value: int


class Drop(NamedTuple):
    """A change of a cache: a line leaves, or all of them."""

    line: Line | None


@dataclass
class Core:
    """What a core holds: its cached lines in the order in which they were brought in, and the line in its write-combining buffer.

    `changes` has what became of the cache since it was taken last."""

    cache: dict[Line, list[int]] = field(default_factory=dict)
    buffer: Buffer | None = None
    changes: list[Fill | Write | Drop] = field(default_factory=list)

    def copy(self, line: Line, word: int, value: int) -> None:
        """A word is written into a copy that is cached."""
        if line in self.cache:
            self.cache[line][word] = value
            self.changes.append(Write(line, word, value))

    def write(self, line: Line, word: int, value: int) -> None:
        """A word is written: into a copy that is cached, and into the write-combining buffer."""
        self.copy(line, word, value)
        if self.buffer is None or self.buffer[0] != line:
            self.buffer = line, [None] * 4
        self.buffer[1][word] = value

    def fill(self, line: Line, words: list[int]) -> None:
        """A line is brought in, behind the others; where the cache is full the oldest leaves."""
        self.cache[line] = words
        self.changes.append(Fill(line, list(words)))
        if len(self.cache) > CACHE_LINES:
            self.drop(next(iter(self.cache)))

    def drop(self, line: Line) -> None:
        """A line leaves the cache, if it is there."""
        if self.cache.pop(line, None) is not None:
            self.changes.append(Drop(line))

    def clear(self) -> None:
        """All lines leave the cache."""
        self.cache = {}
        self.changes.append(Drop(None))

    def take_changes(self) -> list[Fill | Write | Drop]:
        """What became of the cache since this was called last."""
        taken, self.changes = self.changes, []
        return taken


@dataclass
class Step:
    """A step: its line in the lab, the core, the verb, its accesses as lines, what it changed, and what its core's buffer has then."""

    line: int
    text: str
    core: int
    verb: str
    said: list[str] = field(default_factory=list)
    stored: list[tuple[Line, int, int]] = field(default_factory=list)
    loaded: list[tuple[Line, int]] = field(default_factory=list)
    registers: list[tuple[int, str]] = field(default_factory=list)
    changes: list[Fill | Write | Drop] = field(default_factory=list)
    buffer: Buffer | None = None


class Lab:
    """The steps of a lab's output, read line by line."""

    def __init__(self, name: str, data: bytes) -> None:
        self.name, self.at = name, 0
        self.steps: list[Step] = []
        self.words: dict[tuple[Line, int], int] = {}
        self.cores: dict[int, Core] = {}
        # a comment may have any byte; what is no UTF-8 is shown as a sign that stands for it
        lines = data.decode("utf-8", "replace").split("\n")
        if lines.pop():
            self.at = len(lines) + 1
            raise self.refuse()
        # where a lab stops, the line that says so stands behind its output, if both streams went to one file
        stop = STOP.fullmatch(lines[-1]) if lines else None
        for self.at, line in enumerate(lines[:-1] if stop else lines, 1):
            if (found := STEP.fullmatch(line)) is not None:
                self._close()
                self._begin(int(found[1]), found[2])
            elif self.steps:
                self._put(self.steps[-1], line)
            else:
                raise self.refuse()
        self._close()
        if not self.steps or (stop and int(stop[1]) != self.steps[-1].line):
            self.at = max(1, len(lines))
            raise self.refuse()
        if stop:
            self.steps[-1].said.append(f"stopped: {stop[0]}")

    def refuse(self) -> Refused:
        """The refusal of the line at which the reader stands."""
        return Refused(Fault(self.name, self.at, "BadOutput", WANTED))

    def _begin(self, number: int, text: str) -> None:
        """A step begins: what it does to what its core holds follows from its words, but for what a fill brings in."""
        words = text.split("#")[0].split()
        if len(words) < 3 or words[0] != "core" or not re.fullmatch(r"\d+", words[1], re.A) or words[2] not in VERBS:
            raise self.refuse()
        self.steps.append(Step(number, text, int(words[1]), words[2]))
        core = self.cores.setdefault(int(words[1]), Core())
        try:
            if words[2] == "write":
                line, word = self._place(words[3], int(words[1]))
                for at, value in enumerate(words[4:5] if word is not None else words[4:8]):
                    core.write(line, at if word is None else word, int(value, 16))
            elif words[2] in ("flush", "put", "get"):
                core.buffer = None
            if words[2] == "put":
                line, _ = self._place(words[3], int(words[1]))
                for at, value in enumerate(words[4:8]):
                    core.copy(line, at, int(value, 16))
            elif words[2] in ("invalidate", "get"):
                core.clear()
        except (ValueError, IndexError) as error:
            raise self.refuse() from error

    @staticmethod
    def _place(text: str, core: int) -> tuple[Line, int | None]:
        """The line of L, L.W, K:L or K:L.W, and its word if there is one."""
        owner, _, rest = text.rpartition(":")
        line, _, word = rest.partition(".")
        return (int(owner) if owner else core, int(line)), int(word) if word else None

    def _put(self, step: Step, line: str) -> None:
        """Puts a line to its step: an access, an answer, a line that left, or what a core holds."""
        step.said.append(line)
        if found := LOAD_STORE.fullmatch(line):
            self._access(step, found)
        elif (found := REGISTER.fullmatch(line)) and int(found[1]) == step.core:
            if found[2] == "free" or found[4] == "1":
                step.registers.append((int(found[3]), f"taken by core {found[1]}" if found[2] == "take" else "free"))
        elif found := ANSWER.fullmatch(line):
            place = None if found[1] else ((int(found[2]), int(found[3])), int(found[4]))
            # a load brings no line in
            if place and found[6] == "words" and step.verb != "load" and step.loaded[-4:] and place[0] == step.loaded[-1][0]:
                self.cores[step.core].fill(place[0], [self.words.get((place[0], word), 0) for word in range(4)])
        elif found := EVICTED.fullmatch(line):
            self.cores[step.core].drop((int(found[1]), int(found[2])))
        elif not HOLDS.fullmatch(line) or line not in self._holdings(step.core):
            raise self.refuse()

    def _access(self, step: Step, found: re.Match[str]) -> None:
        """A load, which answers the word as it is, or a store."""
        place, value = ((int(found[3]), int(found[4]) - FIRST_HEAP), int(found[5])), int(found[6], 16)
        if int(found[1]) != step.core or place[0][1] < 0:
            raise self.refuse()
        if found[2] == "store":
            step.stored.append((*place, value))
            self.words[place] = value
        elif self.words.get(place, 0) == value:
            step.loaded.append(place)
        else:
            raise self.refuse()

    def _holdings(self, core: int) -> list[str]:
        """What a print of a core says."""
        holds = self.cores[core]
        lines = [f"core {core} caches {line[0]}:{line[1]}" + "".join(f" {value:016x}" for value in words)
                 for line, words in holds.cache.items()]
        lines = lines or [f"core {core} caches nothing"]
        if not holds.buffer:
            return [*lines, f"core {core} buffers nothing"]
        (owner, at), words = holds.buffer
        return [*lines, f"core {core} buffers {owner}:{at}" + "".join(" -" if value is None else f" {value:016x}" for value in words)]

    def _close(self) -> None:
        """A step is over: what it changed is kept."""
        if self.steps:
            step = self.steps[-1]
            core = self.cores[step.core]
            step.changes = core.take_changes()
            step.buffer = core.buffer and (core.buffer[0], list(core.buffer[1]))
