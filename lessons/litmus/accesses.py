"""The litmus shapes by single accesses: every order of the loads and stores of two cores, where a lab has every order of their steps.

A model of its own, after docs/LAB.md. A line has two words here, since words 2 and 3 are 0 in each shape and nobody asks for them."""
from __future__ import annotations

from collections import Counter
from itertools import combinations
from typing import Iterator

# the line and the word of each word of the shapes
PLACES = {"x": (0, 0), "z": (0, 1), "y": (1, 0)}
WORDS = 2
Memory = dict[tuple[int, int], int]


class Core:
    """A core: its cached lines, the line in its write-combining buffer with the words that were written, and what its reads answered."""

    def __init__(self) -> None:
        self.cache: dict[int, list[int]] = {}
        self.buffer: tuple[int, dict[int, int]] | None = None
        self.answers: list[tuple[str, int]] = []

    def fill(self, line: int, memory: Memory) -> Iterator[None]:
        """A load of each word of a line, the lower one first."""
        words = []
        for word in range(WORDS):
            yield
            words.append(memory.get((line, word), 0))
        self.cache[line] = words

    def flush(self, memory: Memory) -> Iterator[None]:
        """A store of each word that was written, the higher one first."""
        line, words = self.buffer or (0, {})
        self.buffer = None
        for word in sorted(words, reverse=True):
            yield
            memory[line, word] = words[word]

    def write(self, line: int, word: int, value: int, memory: Memory) -> Iterator[None]:
        """A write, for which another line leaves the buffer."""
        if line in self.cache:
            self.cache[line][word] = value
        if self.buffer and self.buffer[0] != line:
            yield from self.flush(memory)
        self.buffer = self.buffer or (line, {})
        self.buffer[1][word] = value

    def step(self, text: str, memory: Memory) -> Iterator[None]:
        """A step of a shape, which stands still before each of its accesses. `get` brings in the line of x and z, and `put x` stores it with x as 1."""
        for part in text.split("|"):
            verb, *words = part.split()
            line, word = PLACES[words[0]] if words else (0, 0)
            if verb == "write":
                yield from self.write(line, word, int(words[1]), memory)
            elif verb == "flush":
                yield from self.flush(memory)
            elif verb in ("invalidate", "get"):
                self.cache = {}
                if verb == "get":
                    yield from self.fill(0, memory)
            elif verb == "put":
                for at in range(WORDS):
                    yield from self.write(line, at, 1 if at == word else self.cache[line][at], memory)
                yield from self.flush(memory)
            elif self.buffer and self.buffer[0] == line and word in self.buffer[1]:
                self.answers.append((words[0], self.buffer[1][word]))
            else:
                if line not in self.cache:
                    yield from self.fill(line, memory)
                self.answers.append((words[0], self.cache[line][word]))

    def steps(self, texts: list[str], memory: Memory) -> Iterator[None]:
        """Steps, one after the other."""
        for text in texts:
            yield from self.step(text, memory)


def _run(before: list[tuple[int, str]], both: list[list[str]], behind: list[tuple[int, str]], order: list[int]) -> tuple[list[Core], int]:
    """The cores behind a run in an order of accesses, by core, and how many accesses are left behind it."""
    memory: Memory = {}
    cores = [Core(), Core(), Core()]
    for core, text in before:
        list(cores[core].step(text, memory))
    running = [core.steps(texts, memory) for core, texts in zip(cores, both)]
    for core in (0, 1, *order):
        next(running[core], None)
    left = sum(1 for _ in running[0]) + sum(1 for _ in running[1])
    for core, text in behind:
        list(cores[core].step(text, memory))
    return cores, left


def _accesses(before: list[tuple[int, str]], texts: list[str], core: int) -> int:
    """How many accesses a core makes: as many in any order."""
    memory: Memory = {}
    alone = Core()
    list(alone.steps([text for at, text in before if at == core], memory))
    return sum(1 for _ in alone.steps(texts, memory))


def by_access(before: list[tuple[int, str]], both: list[list[str]], behind: list[tuple[int, str]], result: list[str]) -> Counter[str]:
    """In how many orders of accesses each outcome comes."""
    one, two = (_accesses(before, texts, core) for core, texts in enumerate(both))
    found: Counter[str] = Counter()
    for places in combinations(range(one + two), one):
        cores, left = _run(before, both, behind, [0 if at in places else 1 for at in range(one + two)])
        assert not left, "an order of accesses ends before the steps do"
        answers: dict[str, list[int]] = {}
        for core in cores:
            for word, value in core.answers:
                answers.setdefault(word, []).append(value)
        last = {word: iter(values[-result.count(word) :]) for word, values in answers.items()}
        found[" ".join(str(next(last[word])) for word in result)] += 1
    return found
