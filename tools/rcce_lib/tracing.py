"""rcce trace: where a trace stops being legal, with what stood there before. The verdict is rccetrace's; here its line is looked up."""
from __future__ import annotations

import re
from collections import Counter, deque
from dataclasses import dataclass, field
from typing import Any, Iterator

from rcce_lib.inputs import Given, Scratch
from rcce_lib.kinds import TRACE
from rcce_lib.programs import Programs
from rcce_lib.shown import Paint, counted
from rcce_lib.texts import strange
from trace_lib.calls import Rank
from trace_lib.texts import Event, read_comm, read_event, read_head
from trace_lib.words import REGISTER, Setup

VERDICT = re.compile(r"not legal: line (\d+): (.*)")
# after so many faults --keep-going ends
MOST_FAULTS = 100


@dataclass
class Note:
    """A line of the trace that helps, and why."""

    line: int
    text: str


@dataclass
class Refusal:
    """An event that rccetrace refuses: what it says, and what stood before."""

    event: Event
    said: str
    notes: list[Note] = field(default_factory=list)
    moves: list[Event] = field(default_factory=list)


class Lines:
    """The lines of a trace up to any one; events are read where they are wanted."""

    def __init__(self, data: bytes) -> None:
        self.lines = data.split(b"\n")
        setup = read_head(self._text(1))
        assert setup
        self.setup: Setup = setup
        for at in range(2, len(self.lines) + 1):
            if not read_comm(setup, self._text(at)):
                break

    def _text(self, at: int) -> str:
        """A line as text, a byte a character."""
        return self.lines[at - 1].decode("latin-1")

    def event(self, at: int) -> Event | None:
        """The event of a line, if it is one."""
        return read_event(self.setup, at, self._text(at))

    def of_rank(self, rank: int, before: int) -> Iterator[Event]:
        """The events of a rank before a line."""
        start = b"%d " % rank
        for at in range(2, before):
            if self.lines[at - 1].startswith(start) and (event := self.event(at)):
                yield event

    def last_change(self, event: Event) -> Event | None:
        """The last event before this one that changed its word or its register."""
        place = f" {event.place} ".encode()
        for at in range(event.at - 1, 1, -1):
            if place in self.lines[at - 1] and (found := self.event(at)) and found.place == event.place:
                if found.access in ("store", "free") or found.access == "take" and found.value:
                    return found
        return None


def judge(programs: Programs, scratch: Scratch, given: Given, keep_going: bool, moves: int) -> dict[str, Any]:
    """The verdict on a trace, and where it is not legal, the event with its context; with keep_going also what comes after it."""
    programs.files[given.path] = given.name, TRACE
    ran = programs.run("rccetrace", given.path)
    output, refusals, status = ran.out, list[Refusal](), ran.status
    lines = Lines(given.data) if VERDICT.match(output) else None
    kept = list(range(1, len(lines.lines) + 1)) if lines else []
    while lines and (said := VERDICT.match(ran.out)):
        at = int(said[1])
        event = lines.event(kept[at - 1]) if at <= len(kept) else None
        if event is None:
            raise strange("rccetrace", said[0])
        refusals.append(_refusal(lines, event, said[2], moves))
        del kept[at - 1]
        if not keep_going or len(refusals) == MOST_FAULTS:
            break
        ran = programs.run("rccetrace", scratch.put(b"\n".join(lines.lines[it - 1] for it in kept)))
    by_rank = sorted(Counter(it.event.rank for it in refusals).items())
    found: dict[str, Any] = {"command": "trace", "trace": given.name, "status": status, "legal": not refusals, "output": output}
    found["faults"] = [_object(it) for it in refusals]
    found["by_rank"] = [{"ue": rank, "faults": count} for rank, count in by_rank]
    return found


def _refusal(lines: Lines, event: Event, said: str, moves: int) -> Refusal:
    """The context of an event that is refused."""
    found = Refusal(event, said)
    what = "the register" if event.role is REGISTER else event.role
    last = lines.last_change(event)
    found.notes.append(Note(last.at, f"the last change of {what}: {_short(last)}") if last else Note(event.at, f"no change of {what} before: it is 0"))
    rank, made = _followed(lines, event.rank, event.at, max(1, moves))
    if made:
        found.notes.append(Note(made[-1].at, f"the last move of rank {event.rank}: {_named(made[-1])}"))
    else:
        found.notes.append(Note(event.at, f"rank {event.rank} has made no move before"))
    if rank.open and rank.stage != "idle":
        found.notes.append(Note(rank.open.first, f"since here rank {event.rank} {_doing(rank)}"))
    found.notes += [Note(at, f"since here rank {event.rank} holds the register of core {core}") for core, at in rank.taken_at.items() if core in rank.held]
    if moves:
        others = {it for it in (event.role.one, event.role.other) if event.role.sort in ("sent", "ready", "header", "chunk", "gather", "release")}
        others |= {last.rank} if last else set()
        found.moves = [*made]
        for other in sorted(it for it in others if 0 <= it < lines.setup.ues and it != event.rank):
            found.moves += _followed(lines, other, event.at, moves)[1]
        found.moves.sort(key=lambda it: it.at)
    return found


def _followed(lines: Lines, number: int, before: int, moves: int) -> tuple[Rank, deque[Event]]:
    """What a rank is in the midst of before a line, and its last moves: what it stored, and what it found that changed what it may do."""
    rank, made = Rank(lines.setup, number), deque[Event](maxlen=moves)
    state = _state(rank)
    for event in lines.of_rank(number, before):
        rank.go(event.at, event)
        after = _state(rank)
        if event.access in ("store", "free") or after != state:
            made.append(event)
        state = after
    return rank, made


def _state(rank: Rank) -> tuple[object, ...]:
    """What of a rank an event may change."""
    notes = tuple((sender, len(words)) for sender, words in rank.notes.items())
    held = tuple((core, tuple(words.items())) for core, words in rank.held.items())
    return rank.stage, len(rank.spans), rank.is_raised, rank.is_answered, tuple(rank.post or ()), tuple(rank.counts), len(rank.chunk), notes, held


def _doing(rank: Rank) -> str:
    """What a rank is in the midst of."""
    assert rank.open
    if rank.stage == "drafting":
        return "writes a message"
    if rank.stage == "barrier":
        return f"is in the barrier of communicator {rank.open.comm}"
    return f"{'sends to' if rank.stage == 'sending' else 'receives from'} rank {rank.open.peer}: {rank.open.head}"


def _short(event: Event) -> str:
    """An event without its comment."""
    return str(event).split(" #")[0]


def _named(event: Event) -> str:
    """An event with the name of its word."""
    return f"{_short(event)} ({event.role})"


def _object(it: Refusal) -> dict[str, Any]:
    """An event that is refused, as an object."""
    event = it.event
    found: dict[str, Any] = {"line": event.at, "ue": event.rank, "access": event.access, "place": event.place, "value": f"{event.value:016x}"}
    found.update(word=str(event.role), event=_named(event), said=it.said)
    found["notes"] = [{"line": note.line, "text": note.text} for note in it.notes]
    found["moves"] = [{"line": move.at, "ue": move.rank, "event": _named(move)} for move in it.moves]
    return found


def text_of(found: dict[str, Any], paint: Paint) -> str:
    """The verdict as text."""
    name, rest = found["trace"], found["output"].removesuffix("\n")
    if found["legal"]:
        return str(rest)
    lines: list[str] = []
    for it in found["faults"]:
        lines += [paint("bad", f"{name}:{it['line']}: not legal: {it['event']}"), f"  {it['said']}"]
        lines += [f"{name}:{note['line']}: note: {note['text']}" for note in it["notes"]]
        lines += _picture(it["moves"])
    # what the program says below its verdict
    lines += rest.split("\n")[1:]
    if len(found["faults"]) > 1:
        by_rank = ", ".join(f"rank {it['ue']} {it['faults']}" for it in found["by_rank"])
        more = ", and no more were looked for" if len(found["faults"]) == MOST_FAULTS else ""
        lines.append(f"{counted(len(found['faults']), 'fault')}{more}: {by_rank}")
    return "\n".join(lines)


def _picture(moves: list[dict[str, Any]]) -> list[str]:
    """The moves of ranks, a column a rank, time from top to bottom."""
    if not moves:
        return []
    ranks = sorted({it["ue"] for it in moves})
    texts = [it["event"].split(" ", 1)[1] for it in moves]
    widths = [max(len(f"rank {rank}"), *(len(text) for it, text in zip(moves, texts) if it["ue"] == rank)) for rank in ranks]
    lines = ["  line  " + "  ".join(f"rank {rank}".ljust(width) for rank, width in zip(ranks, widths))]
    for it, text in zip(moves, texts):
        cells = [(text if it["ue"] == rank else "").ljust(width) for rank, width in zip(ranks, widths)]
        lines.append(f"  {it['line']:>4}  " + "  ".join(cells))
    return [line.rstrip() for line in lines]
