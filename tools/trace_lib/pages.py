"""Makes a page that plays of a trace or of what a lab prints: the data of its steps, in a document that needs no network."""
from __future__ import annotations

import html
import json
import os
import re
import shlex
from typing import Any, Iterator

from rcce_lib.stops import Fault, Refused
from trace_lib.labs import ANSWER, FIRST_HEAP, HOLDS, LOAD_STORE, Drop, Fill, Lab, Line, Step, Write

MOST_STEPS = 20_000
HERE = os.path.dirname(os.path.realpath(__file__))
Object = dict[str, Any]
LAB_LETTERS = {"write": "w", "read": "r", "flush": "f", "invalidate": "i", "put": "p", "get": "g", "load": "l", "store": "s", "take": "t",
               "free": "F", "print": "h"}

# the page's own style and scripts, in their order
STYLE, SCRIPTS = "page.css", ("page_state.js", "page_tables.js", "page_lanes.js", "page_moves.js")


def page_of(name: str, about: str, data: Object) -> Iterator[str]:
    """The document of a page with its data."""
    lines = [line for line, _ in data["script"]]
    if not lines and data["is part"]:
        raise Refused(Fault(name, 1, "NoSteps", "no step is of these lines; without --from and --to the page has all"))
    if len(lines) > MOST_STEPS:
        # (a row of polls that is cut may be more steps than it was)
        part = f"page --from {lines[0]} --to {lines[MOST_STEPS - 500]}{'' if name == '-' else ' ' + shlex.quote(name)}"
        raise Refused(Fault(name, 1, "TooLong", f"at most {MOST_STEPS:,} steps, and here are {len(lines):,}; a page of a part: {part}"))
    # in a script's text only its end and comments could be read as more than data
    embedded = json.dumps(data, separators=(",", ":")).replace("<", "\\u003c")
    # a file's name may have bytes that are no UTF-8
    title = os.path.basename(name).encode("utf-8", "surrogateescape").decode("utf-8", "replace")
    parts = {"TITLE": html.escape(title), "ABOUT": html.escape(about), "DATA": embedded}
    parts |= {"STYLE": _own(STYLE), "SCRIPT": "\n".join(map(_own, SCRIPTS))}
    yield re.sub("@(TITLE|ABOUT|STYLE|SCRIPT|DATA)@", lambda found: parts[found[1]], _own("page.html"))


def _own(name: str) -> str:
    """The text of a file beside this one."""
    with open(f"{HERE}/{name}", encoding="utf-8") as file:
        return file.read()


def letters_of(letters: dict[str, str]) -> str:
    """What the letters of the lanes say."""
    return "A letter a step: " + ", ".join(f"{letter} {verb}" for verb, letter in letters.items()) + "."


def of_lab(lab: Lab, first: int = 0, last: int | None = None) -> Object:
    """The data of a lab, of its lines from one to another alone: a step a line, a lane a core.

    An arrow goes from the step that stored a word to the first one of another core that loads it."""
    before = [step for step in lab.steps if step.line < first]
    steps = [step for step in lab.steps if step.line >= first and (last is None or step.line <= last)]
    cores, start = sorted(lab.cores), _start(before)
    used = {line for step in steps for line, *_ in [*step.stored, *step.loaded]}
    used |= {line for step in [*before, *steps] for line in _held_lines(step)}
    return {
        "kind": "lab",
        "is part": len(steps) < len(lab.steps),
        "lanes": [{"name": f"core {core}", "core": core} for core in cores],
        "letters": letters_of(LAB_LETTERS),
        "lines": [[_name(line), f"line {line[1]} of the heap of core {line[0]}, line {FIRST_HEAP + line[1]} of its buffer"]
                  for line in sorted(used)],
        "registers": sorted({core for step in lab.steps for core, _ in step.registers}),
        "start": start,
        "script": [[step.line, step.text] for step in steps],
        "spans": [],
        "arrows": list(_arrows(steps, cores)),
        "steps": list(_lab_steps(steps, cores)),
    }


def _start(steps: list[Step]) -> Object:
    """What the words, the registers and the cores hold behind these steps."""
    words, registers, buffers = {}, {}, {}
    caches: dict[int, dict[Line, list[int]]] = {}
    for step in steps:
        words.update({f"{_name(line)}.{word}": f"{value:x}" for line, word, value in step.stored})
        registers.update(dict(step.registers))
        buffers[step.core] = _buffer(step)
        cache = caches.setdefault(step.core, {})
        for change in step.changes:
            if isinstance(change, Fill):
                cache[change.line] = list(change.words)
            elif isinstance(change, Write):
                cache[change.line][change.word] = change.value
            elif change.line:
                del cache[change.line]
            else:
                cache.clear()
    held = [[core, [_change(Fill(line, values)) for line, values in cache.items()]] for core, cache in caches.items()]
    return {"words": _pairs(words), "registers": _pairs(registers), "caches": held, "buffers": _pairs(buffers)}


def _pairs(told: dict[Any, Any]) -> list[list[Any]]:
    """The keys with their values."""
    return [[key, value] for key, value in told.items()]


def _name(line: Line) -> str:
    """How a lab names a line."""
    return f"{line[0]}:{line[1]}"


def _held_lines(step: Step) -> list[Line]:
    """The lines that come into the cache or the write-combining buffer of a step's core."""
    return [*(it.line for it in step.changes if isinstance(it, Fill)), *([step.buffer[0]] if step.buffer else [])]


def _change(it: Fill | Write | Drop) -> list[Any]:
    """A change of a cache: a line with four words is brought in, one with a word and a value is written, one alone leaves; none is all."""
    if isinstance(it, Fill):
        return [_name(it.line), [f"{value:x}" for value in it.words]]
    if isinstance(it, Write):
        return [_name(it.line), it.word, f"{it.value:x}"]
    return [_name(it.line)] if it.line else []


def _arrows(steps: list[Step], cores: list[int]) -> Iterator[list[int]]:
    """From the step that stored a word to the first step of each other core that loads it."""
    stored: dict[tuple[Line, int], int] = {}
    shown: set[tuple[int, int]] = set()
    for number, step in enumerate(steps):
        for line, word in step.loaded:
            source = stored.get((line, word))
            if source is not None and steps[source].core != step.core and (source, step.core) not in shown:
                shown.add((source, step.core))
                yield [cores.index(steps[source].core), source, cores.index(step.core), number]
        for line, word, _ in step.stored:
            stored[line, word] = number


def _buffer(step: Step) -> list[Any] | None:
    """What is in a core's write-combining buffer behind a step."""
    return [_name(step.buffer[0]), [None if value is None else f"{value:x}" for value in step.buffer[1]]] if step.buffer else None


def _lab_steps(steps: list[Step], cores: list[int]) -> Iterator[Object]:
    """The steps of lines of a lab, without the fields that say nothing. What they store and load, their accesses say."""
    buffers: dict[int, list[Any] | None] = {}
    for step in steps:
        buffer = _buffer(step)
        shown = {
            "who": cores.index(step.core),
            "letter": LAB_LETTERS[step.verb],
            "said": [_short(line) for line in step.said if not HOLDS.fullmatch(line)],
            "registers": step.registers,
            "caches": [[step.core, [_change(it) for it in step.changes]]] if step.changes else [],
            "buffers": [[step.core, buffer]] if step.core not in buffers or buffers[step.core] != buffer else [],
        }
        buffers[step.core] = buffer
        yield {name: value for name, value in shown.items() if value != []}


def _short(line: str) -> str:
    """An access or an answer in short, as page_state.js reads it; any other line as it is."""
    if found := LOAD_STORE.fullmatch(line):
        return f"{found[2][0]}{found[3]}.{found[4]}.{found[5]} {found[6].lstrip('0') or '0'}"
    if (found := ANSWER.fullmatch(line)) and found[2]:
        return f"a{found[2]}:{found[3]}.{found[4]} {found[5].lstrip('0') or '0'} {found[6][0]}"
    return line
