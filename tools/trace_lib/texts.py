"""Reads a trace, by the form that docs/TRACE.md tells; a text that is none is refused at its first fault."""
from __future__ import annotations

import re
from dataclasses import dataclass
from typing import NamedTuple

from rcce_lib.faults import Source, fault_of
from rcce_lib.kinds import TRACE
from rcce_lib.stops import Refused
from trace_lib.words import REGISTER, Role, Setup

LONGEST_LINE, MOST_LINES, MOST_BYTES = 255, 16_777_216, 1_073_741_824
NUMBER = r"(0|[1-9]\d{0,4})"
HEAD = re.compile(rf"rcce trace 1 nue {NUMBER} layout (words|bits) hosts ((?:{NUMBER},)*{NUMBER})")
COMM = re.compile(rf"comm {NUMBER} {NUMBER} (mod|div) {NUMBER}")
EVENT = re.compile(rf"{NUMBER} (load|store|take|free) {NUMBER}\.(?:(register)|{NUMBER}\.([0-3])) ([0-9a-f]{{16}})(?: #(.*))?", re.S)


class Event(NamedTuple):
    """An access: the line of the trace that has it, the rank, and what it did; of a register there is no line and no word of a buffer."""

    at: int
    rank: int
    access: str
    core: int
    line: int
    word: int
    value: int
    role: Role
    # what stands behind the sign # of its line, a character a byte; nothing where there is none
    written: str | None = None

    @property
    def comment(self) -> str:
        """What is said of the event: its comment as it is written, or what its word is for."""
        if self.written is None:
            return str(self.role)
        return self.written.strip().encode("latin-1").decode("utf-8", "replace")

    @property
    def place(self) -> str:
        """The place as the trace has it."""
        return f"{self.core}.register" if self.role is REGISTER else f"{self.core}.{self.line}.{self.word}"

    def __str__(self) -> str:
        return f"{self.rank} {self.access} {self.place} {self.value:016x} # {self.comment}"


@dataclass
class Trace:
    """A trace: its run and its events in their order."""

    name: str
    setup: Setup
    events: list[Event]


def read_trace(name: str, data: bytes) -> Trace:
    """The trace of a file."""
    # a byte is one character here, since a line's length is told in bytes
    lines = data.decode("latin-1").split("\n")
    whole = lines.pop() == ""

    def refuse(at: int, kind: str) -> Refused:
        """The refusal of a line."""
        return Refused(fault_of(Source(name, TRACE, data, 0), at, kind))

    if len(data) > MOST_BYTES or len(lines) > MOST_LINES:
        raise refuse(0, "TooLong")
    if not lines and whole:
        raise refuse(1, "BadHead")
    if not whole:
        # the rest behind the last line feed is no line of the form
        lines.append(data.decode("latin-1").rpartition("\n")[2])
    setup = None if len(lines) == 1 and not whole or len(lines[0]) > LONGEST_LINE else read_head(lines[0])
    if setup is None:
        raise refuse(1, "BadHead")
    trace, last = Trace(name, setup, []), len(lines)
    for at, line in enumerate(lines[1:], 2):
        broken = at == last and not whole or len(line) > LONGEST_LINE
        if line.startswith("comm"):
            if broken or trace.events or not read_comm(setup, line):
                raise refuse(at, "BadComm")
            continue
        event = None if broken else read_event(setup, at, line)
        if event is None:
            raise refuse(at, "BadEvent")
        trace.events.append(event)
    return trace


def read_head(line: str) -> Setup | None:
    """The run of a first line, if it is of its form."""
    if not (found := HEAD.fullmatch(line)):
        return None
    ues, hosts = int(found[1]), [int(core) for core in found[3].split(",")]
    fits = 1 <= ues <= 48 and len(hosts) == ues == len(set(hosts)) and max(hosts) < 48
    return Setup(ues, found[2], hosts) if fits else None


def read_comm(setup: Setup, line: str) -> bool:
    """Puts a communicator to its run, if it is of its form and in its place."""
    if not (found := COMM.fullmatch(line)):
        return False
    comm, parent, parts = int(found[1]), int(found[2]), int(found[4])
    fits = 1 <= comm <= 15 and comm > max(setup.splits, default=0) and (parent == 0 or parent in setup.splits) and 1 <= parts <= 48
    if fits:
        setup.splits[comm] = parent, found[3], parts
    return fits


def read_event(setup: Setup, at: int, line: str) -> Event | None:
    """The event of a line, if it is of its form."""
    if not (found := EVENT.fullmatch(line)):
        return None
    rank, access, core, value = int(found[1]), found[2], int(found[3]), int(found[7], 16)
    if rank >= setup.ues or core > 47 or (access in ("take", "free")) != bool(found[4]):
        return None
    if found[4]:
        return Event(at, rank, access, core, -1, -1, value, REGISTER, found[8]) if value <= (access == "take") else None
    place = int(found[5]), int(found[6])
    return Event(at, rank, access, core, *place, value, setup.role(core, *place), found[8]) if place[0] < 256 else None
