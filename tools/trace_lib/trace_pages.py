"""The data of a page of a trace: a step an event, or the equal polls of a rank in a row, and a lane a rank."""
from __future__ import annotations

from bisect import bisect_left, bisect_right
from typing import Any, Iterator

from trace_lib.calls import Span, calls_of
from trace_lib.pages import Object, letters_of
from trace_lib.polls import Group, grouped
from trace_lib.texts import Event, Trace
from trace_lib.viewers import chunks_of
from trace_lib.words import Role

TRACE_LETTERS = {"load": "l", "store": "s", "take": "t", "free": "f", "equal polls": "p"}


class Part:
    """The events of a trace from one number up to another, in steps."""

    def __init__(self, trace: Trace, begin: int, end: int) -> None:
        self.events, self.begin, self.end = trace.events, begin, end
        self.groups = grouped(trace.events, begin, end)
        self.step_of = {number: step for step, group in enumerate(self.groups) for number in group.events}
        self.of_rank: list[list[int]] = [[] for _ in range(trace.setup.ues)]
        for number in range(begin, end):
            self.of_rank[trace.events[number].rank].append(number)

    def spans(self, calls: list[list[Span]]) -> Iterator[list[Any]]:
        """The calls that are shown, each with its first and its last step."""
        for numbers, spans in zip(self.of_rank, calls):
            for span in spans:
                inside = numbers[bisect_left(numbers, span.first) : bisect_right(numbers, span.last)]
                if inside:
                    yield [span.rank, self.step_of[inside[0]], self.step_of[inside[-1]], str(span)]

    def arrows(self, calls: list[list[Span]]) -> Iterator[list[int]]:
        """The chunks that are told of and taken in steps that are shown."""
        for (sender, start), (receiver, end) in chunks_of(calls):
            if start in self.step_of and end in self.step_of:
                yield [sender, self.step_of[start], receiver, self.step_of[end]]

    def lines(self, trace: Trace) -> Iterator[list[str]]:
        """The lines that are in use, and what their words are for."""
        used = {(it.core, it.line) for it in self.events[self.begin : self.end] if it.line >= 0}
        for core, line in sorted(used):
            yield [f"{core}.{line}", _what([trace.setup.role(core, line, word) for word in range(4)])]


def of_trace(trace: Trace, first: int = 0, last: int | None = None) -> Object:
    """The data of a trace, of its lines from one to another alone: a lane a rank."""
    places = [event.at for event in trace.events]
    begin, end = bisect_left(places, first), len(places) if last is None else bisect_right(places, last)
    part, calls = Part(trace, begin, end), calls_of(trace)
    state = State()
    for event in trace.events[:begin]:
        state.go(event)
    words, registers = [[place, f"{value:x}"] for place, value in state.words.items()], list(map(list, state.registers.items()))
    start = {"words": words, "registers": registers, "caches": [], "buffers": []}
    return {
        "kind": "trace",
        "is part": end - begin < len(trace.events),
        "lanes": [{"name": f"rank {rank}, core {core}", "core": core} for rank, core in enumerate(trace.setup.hosts)],
        "letters": letters_of(TRACE_LETTERS),
        "lines": list(part.lines(trace)),
        "registers": sorted({event.core for event in trace.events[begin:end] if event.line < 0}),
        "start": start,
        "script": [[trace.events[group.events[0]].at, _text(trace.events, group)] for group in part.groups],
        "spans": list(part.spans(calls)),
        "arrows": list(part.arrows(calls)),
        "steps": [_step(trace.events, group, state) for group in part.groups],
    }


class State:
    """The words and the registers behind so many events."""

    def __init__(self) -> None:
        self.words: dict[str, int] = {}
        self.registers: dict[int, str] = {}

    def go(self, event: Event) -> None:
        """Goes over an event."""
        if event.access == "store":
            self.words[event.place] = event.value
        elif event.access == "free" or event.access == "take" and event.value:
            self.registers[event.core] = f"taken by rank {event.rank}" if event.value else "free"


def _what(roles: list[Role]) -> str:
    """What the words of a line are for, in short."""
    first = roles[0]
    if first.sort == "header":
        return f"header of {first.one}: kind, comm, length, posted"
    if first.sort == "chunk":
        return f"chunk words {first.other} to {first.other + 3} of {first.one}"
    return ", ".join(dict.fromkeys(str(role) for role in roles if role.sort != "nobody's")) or "nobody's"


def _text(events: list[Event], group: Group) -> str:
    """The line of a step: its event as the trace has it."""
    first, last = events[group.events[0]], events[group.events[-1]]
    return str(first) if group.looks == 1 else f"{first}; polls {group.looks} times, to line {last.at}"


def _step(events: list[Event], group: Group, state: State) -> Object:
    """A step, without the fields that say nothing."""
    event = events[group.events[0]]
    says, stored, registers = _says(events, group, state.words.get(event.place, 0)), [], []
    if event.access == "store":
        stored = [[event.place, f"{event.value:x}"]]
    elif event.line < 0 and not (event.access == "take" and not event.value):
        registers = [[event.core, f"taken by rank {event.rank}" if event.value else "free"]]
    state.go(event)
    step = {"who": event.rank, "letter": TRACE_LETTERS[event.access if group.looks == 1 else "equal polls"], "says": says, "words": stored,
            "loads": [events[number].place for number in group.of_one_look if events[number].access == "load"], "registers": registers}
    return {name: value for name, value in step.items() if value != []}


def _says(events: list[Event], group: Group, was: int) -> str:
    """What a step does, in words; of a word that is stored what it was."""
    event, rank = events[group.events[0]], f"rank {events[group.events[0]].rank}"
    times = "" if group.looks == 1 else f" {group.looks} times (lines {event.at} to {events[group.events[-1]].at})"
    if event.access == "store":
        return f"{rank} stores {event.value:x} at {event.place}, which was {was:x}: {event.role}."
    if event.access == "free":
        return f"{rank} frees the register of core {event.core}."
    if event.access == "take":
        register = f"the register of core {event.core}"
        return f"{rank} takes {register}." if event.value else f"{rank} finds {register} taken{times}."
    if group.looks == 1:
        return f"{rank} loads {event.place} and finds {event.value:x}: {event.role}."
    look = [events[number] for number in group.of_one_look]
    places = event.place if len(look) == 1 else f"{event.place} to {look[-1].place}"
    found = " ".join(f"{it.value:x}" for it in look)
    return f"{rank} polls {places} {times.strip()} and finds {found} each time: {_what([it.role for it in look])}."
