"""The steps of a lab as its text has them, and what rccelab prints of them: by core, with what is expected, and with the answers that came.

A form of step that is not known here is taken as one whose first word after its verb is a place, so what a step does is rccelab's alone."""
from __future__ import annotations

import re
from dataclasses import dataclass, field
from typing import Callable

from rcce_lib.programs import Programs

# the lines of the heap that all cores have: of each core so many
CORES, LINES = 48, 31
# what no other core sees: it is done together with the step after it
ALONE = ("invalidate", "print")
ORDERS, AFTER, AWAIT = "orders", "after", "await"
Line = tuple[int, int]


@dataclass(frozen=True)
class Step:
    """A step: its line in the file, its core, its words after the core without what is expected, and what is expected.

    `part` is 0 above a comment `# orders`, 1 below it, and 2 below a comment `# after`. `waits`: its comment begins with `await`."""

    at: int
    core: int
    words: tuple[str, ...]
    expect: tuple[str, ...] = ()
    part: int = 1
    waits: bool = False

    def text(self) -> str:
        """The step, without what is expected."""
        return " ".join(["core", str(self.core), *self.words])

    def whole(self) -> str:
        """The step, with what is expected."""
        return " ".join([self.text(), *(["expect", *self.expect] if self.expect else [])])

    def place(self, word: str) -> tuple[Line, str]:
        """The line of a place, and the word behind the line's dot with the dot."""
        core, colon, rest = word.rpartition(":")
        line, dot, number = rest.partition(".")
        return (int(core) if colon else self.core, int(line)), dot + number

    def _with(self, line: Callable[[int, str], str], register: Callable[[str], str]) -> list[str]:
        """Its words, with each place and each register as these make them."""
        words = list(self.words)
        if words[0] in ("take", "free"):
            words[1] = register(words[1])
        elif len(words) > 1:
            words[1] = line(1, words[1])
        if "evict" in words[2:]:
            at = words.index("evict", 2) + 1
            words[at] = line(at, words[at])
        return words

    def lines(self) -> list[Line]:
        """The lines that it names."""
        found: list[Line] = []
        self._with(lambda _, word: found.append(self.place(word)[0]) or word, str)
        return found

    def registers(self) -> list[int]:
        """The registers that it names."""
        found: list[int] = []
        self._with(lambda _, word: word, lambda word: found.append(int(word)) or word)
        return found

    def moved(self, lines: dict[Line, Line], registers: dict[int, int]) -> str:
        """The step, on other lines and registers."""

        def move(_: int, word: str) -> str:
            """A place on another line."""
            line, rest = self.place(word)
            return f"{lines[line][0]}:{lines[line][1]}{rest}"

        return " ".join(["core", str(self.core), *self._with(move, lambda word: str(registers[int(word)]))])


def steps_of(text: str) -> list[Step]:
    """The steps of a lab that rccelab takes."""
    lines = [(line.partition("#")[0].split(), line.partition("#")[2].split()) for line in text.split("\n")]
    marked = any(not words and remark == [ORDERS] for words, remark in lines)
    part, steps = 0 if marked else 1, []
    for at, (words, remark) in enumerate(lines, 1):
        if not words:
            part = {ORDERS: 1, AFTER: 2}.get(" ".join(remark), part)
        elif words[0] == "core":
            end = words.index("expect") if "expect" in words else len(words)
            waits = remark[:1] == [AWAIT] and end < len(words)
            steps.append(Step(at, int(words[1]), tuple(words[2:end]), tuple(words[end + 1 :]), part, waits))
    return steps


def units_of(steps: list[Step]) -> list[list[Step]]:
    """The steps that stay together: what no other core sees goes with the next step of its core."""
    units: list[list[Step]] = []
    held: dict[int, list[Step]] = {}
    for step in steps:
        unit = held.setdefault(step.core, [])
        unit.append(step)
        if step.words[0] not in ALONE:
            units.append(held.pop(step.core))
    for core, unit in held.items():
        own = [it for it in units if it[0].core == core]
        own[-1].extend(unit) if own else units.append(unit)
    return units


@dataclass
class Done:
    """What is printed of a step: its line in the file, its accesses, and its answers: values in hex without leading zeros, or took or taken."""

    at: int
    accesses: list[str] = field(default_factory=list)
    answers: list[str] = field(default_factory=list)


def run_lab(programs: Programs, path: str) -> tuple[list[Done], str]:
    """What rccelab prints of each step of a lab, and the line on its standard error, if it stopped."""
    ran = programs.run("rccelab", path)
    done: list[Done] = []
    for line in ran.out.split("\n"):
        if found := re.match(r"line (\d+): ", line):
            done.append(Done(int(found[1])))
        elif found := re.match(r"answer (?:\S+ ([0-9a-f]{16}) from |(took|taken)$)", line):
            done[-1].answers.append(found[2] or f"{int(found[1], 16):x}")
        elif re.match(r"\d+ (?:load|store|take|free) ", line):
            done[-1].accesses.append(line.partition(" #")[0])
    return done, "".join(ran.err)


def missed(step: Step, answers: list[str]) -> str:
    """What came in place of what is expected, or nothing."""
    wanted = [it if it in ("took", "taken") else f"{int(it, 16):x}" for it in step.expect]
    return "" if not wanted or wanted == answers else f"{','.join(answers)}, expected {','.join(wanted)}"
