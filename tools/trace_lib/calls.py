"""Which call each event of a trace belongs to: a rank's record is followed, and an event that no record permits belongs to none.

This is for showing alone, and judges nothing."""
from __future__ import annotations

from dataclasses import dataclass, field
from typing import NamedTuple

from trace_lib.texts import Event, Trace
from trace_lib.words import FIRST_CHUNK, FIRST_HEAP, Setup

KINDS = ("plain", "bcast", "reduce", "allup", "alldown")


class Head(NamedTuple):
    """The head of a message: its kind, its communicator and its length."""

    kind: int
    comm: int
    length: int

    def __str__(self) -> str:
        kind = KINDS[self.kind] if self.kind < len(KINDS) else f"kind {self.kind}"
        return f"{kind} {self.comm} {self.length}"


@dataclass
class Span:
    """A call of a rank, or what it has of one: the numbers of its events from the first to the last, counted from 0 in the trace."""

    rank: int
    first: int
    last: int
    verb: str = ""
    peer: int = -1
    head: Head | None = None
    comm: int = -1
    data: bytes = b""
    is_finished: bool = False
    # the events that raise `sent`, or lower it, in order: one a chunk
    chunks: list[int] = field(default_factory=list)

    def __str__(self) -> str:
        if self.verb in ("looks", "drafts"):
            return f"{self.verb}, in no call yet"
        left = "" if self.is_finished else ", not finished"
        return f"bar {self.comm}{left}" if self.verb == "bar" else f"{self.verb} {self.peer} {self.head}{left}"


class Rank:
    """What a rank is in the midst of: idle, drafting, sending, taking, between two chunks, or in a barrier."""

    def __init__(self, setup: Setup, rank: int) -> None:
        self.setup, self.rank = setup, rank
        self.size = 32 * (FIRST_HEAP - FIRST_CHUNK[setup.layout])
        self.stage = "idle"
        self.open: Span | None = None
        self.spans: list[Span] = []
        self.header: dict[int, int] = {}
        self.chunk: dict[int, int] = {}
        self.is_raised = self.is_answered = False
        # the posted message on its way: to whom, and whether it was seen that it is taken
        self.post: list[int | bool] | None = None
        # the header words that were loaded since a sender's flag was seen
        self.notes: dict[int, dict[int, int]] = {}
        self.flips: dict[int, int] = {}
        self.counts = [0, 0]
        # the registers that are held, with the words of bit flags that were loaded under them
        self.held: dict[int, dict[str, int]] = {}
        # the event that took each of them
        self.taken_at: dict[int, int] = {}
        # the place of the load before this event, of the line whose other words belong to the same look
        self.look: tuple[int, int, int] | None = None

    def go(self, number: int, event: Event) -> None:
        """Goes over an event of the rank."""
        if event.role.sort == "heap" and self.stage == "idle":
            return
        if self._belongs_to_last(event):
            self.spans[-1].last = number
        else:
            self.open = self.open or Span(self.rank, number, number)
            self.open.last = number
            getattr(self, f"_{event.access}")(number, event)
        self.look = (event.core, event.line, event.word) if event.access == "load" else None
        if event.access == "free":
            self.held.pop(event.core, None)

    def end(self) -> list[Span]:
        """The calls, and behind them what is open where the trace ends."""
        if self.open:
            self.open.verb = self.open.verb or ("drafts" if self.stage == "drafting" else "looks")
            self.spans.append(self.open)
            self.open = None
        return self.spans

    def _belongs_to_last(self, event: Event) -> bool:
        """Whether an event is the rest of the call that was finished: of its last look, or the free of a register."""
        if self.open or not self.spans:
            return False
        if event.access == "load":
            return self.look == (event.core, event.line, event.word - 1)
        return event.access == "free" and event.core in self.held

    def _finish(self) -> None:
        """The open call is finished."""
        assert self.open
        self.open.is_finished = True
        self.spans.append(self.open)
        self.open, self.stage, self.chunk = None, "idle", {}

    def _load(self, number: int, event: Event) -> None:
        """A load: a look at flags, a word of a header or of a chunk."""
        role, value, me = event.role, event.value, self.rank
        if role.sort in ("sent flags", "ready flags"):
            if event.core in self.held:
                self.held[event.core][role.sort] = value
            elif role.one == me:
                self._see(role.sort.split()[0], {j for j in range(self.setup.ues) if value >> j & 1})
        elif role.sort == "sent" and role.other == me:
            self._see("sent", {role.one} if value == 1 else set())
        elif role.sort == "ready" and role.other == me:
            self._see("ready", {role.one} if value == 1 else set())
        elif role.sort == "header" and role.one in self.notes:
            self.notes[role.one][role.other] = value
        elif role.sort == "chunk" and self.stage == "taking" and self.open and role.one == self.open.peer:
            self.chunk[role.other] = value
        elif role.sort in ("gather", "release") and self.stage == "barrier":
            self._look_in_barrier(event)

    def _see(self, flags: str, seen: set[int]) -> None:
        """Flags of messages were seen set."""
        if flags == "sent":
            self.notes.update({j: {} for j in seen})
            return
        if self.stage == "sending" and self.is_raised and self.open and self.open.peer in seen:
            self.is_answered = True
        if self.post and self.post[0] in seen:
            self.post[1] = True

    def _look_in_barrier(self, event: Event) -> None:
        """A look at a flag of a barrier: the root counts its members, a member is let go on."""
        assert self.open
        comm, owner = event.role.other, event.role.one
        group = self.setup.members(comm, self.rank)
        if comm != self.open.comm or owner not in group or event.value != self.flips[comm] % 2:
            return
        if event.role.sort == "gather" and group[0] == self.rank and group.index(owner) == self.counts[0] + 1:
            self.counts[0] += 1
        elif event.role.sort == "release" and owner == self.rank != group[0]:
            self._finish()

    def _store(self, number: int, event: Event) -> None:
        """A store: a word of a draft, a flag that is raised or lowered, a flag of a barrier."""
        role, me = event.role, self.rank
        if role.sort in ("header", "chunk") and role.one == me:
            self._draft(event)
        elif role.sort in ("sent", "ready"):
            to_me = role.other == me
            if event.value == (0 if to_me else 1) and (to_me or role.one == me):
                self._change(number, role.sort, role.one if to_me else role.other, bool(event.value))
        elif role.sort in ("sent flags", "ready flags"):
            self._change_bit(number, event)
        elif role.sort == "gather" and role.one == me and self.stage == "idle":
            self._enter(event)
        elif role.sort == "release" and self.stage == "barrier":
            self.counts[1] += 1
            if self.counts[1] == len(self.setup.members(role.other, me)) - 1:
                self._finish()

    def _draft(self, event: Event) -> None:
        """A word of the own header line or chunk buffer is stored."""
        if self.stage == "idle":
            self.stage, self.header, self.chunk = "drafting", {}, {}
        words = self.header if event.role.sort == "header" else self.chunk
        words[event.role.other] = event.value

    def _change_bit(self, number: int, event: Event) -> None:
        """A word of bit flags is stored under its register: one bit of it is raised or lowered."""
        old = self.held.get(event.core, {}).pop(event.role.sort, event.value)
        changed = old ^ event.value
        peer = changed.bit_length() - 1
        if changed and changed & changed - 1 == 0 and (peer == self.rank) == (event.role.one != self.rank):
            self._change(number, event.role.sort.split()[0], peer if event.role.one == self.rank else event.role.one, event.value > old)

    def _change(self, number: int, flags: str, peer: int, is_raise: bool) -> None:
        """A flag between this rank and another one is raised or lowered."""
        if flags == "sent":
            (self._raise_sent if is_raise else self._lower_sent)(number, peer)
        else:
            (self._raise_ready if is_raise else self._lower_ready)(peer)

    def _raise_sent(self, number: int, to: int) -> None:
        """A chunk is there: of a message that begins, or of the one that is sent."""
        assert self.open
        if self.stage == "drafting":
            self.open.verb, self.open.peer = "send", to
            self.open.head = Head(*(self.header.get(k, 0) for k in range(3)))
            self.stage = "sending"
        if self.stage == "sending":
            self.open.chunks.append(number)
            self.is_raised, self.is_answered = True, False
            if self.header.get(3) == 1:
                self.open.verb, self.post = "post", [to, False]
                self._chunk_through()
                self._finish()

    def _lower_ready(self, by: int) -> None:
        """The raised chunk is through."""
        if self.stage == "sending" and self.is_answered:
            self.is_raised = False
            if self._chunk_through():
                self._finish()
        elif self.post:
            self.post = None

    def _lower_sent(self, number: int, sender: int) -> None:
        """A chunk begins to be taken."""
        assert self.open
        header = self.notes.pop(sender, None)
        if self.stage == "idle" and header is not None:
            self.open.verb, self.open.peer = "recv", sender
            self.open.head = Head(*(header.get(k, 0) for k in range(3)))
            self.stage = "between"
        if self.stage == "between":
            self.open.chunks.append(number)
            self.stage, self.chunk = "taking", {}

    def _raise_ready(self, to: int) -> None:
        """A chunk is taken."""
        if self.stage == "taking":
            self.stage = "between"
            if self._chunk_through():
                self._finish()

    def _chunk_through(self) -> bool:
        """Puts the bytes of a chunk to the open call; whether it was the last one."""
        assert self.open and self.open.head
        count = min(self.size, self.open.head.length - len(self.open.data))
        self.open.data += b"".join(self.chunk.get(k, 0).to_bytes(8, "little") for k in range((count + 7) // 8))[:count]
        self.chunk = {}
        return len(self.open.data) >= self.open.head.length

    def _enter(self, event: Event) -> None:
        """A barrier is entered; in a group of one it is over."""
        assert self.open
        comm = event.role.other
        self.open.verb, self.open.comm = "bar", comm
        self.flips[comm] = self.flips.get(comm, 0) + 1
        self.stage, self.counts = "barrier", [0, 0]
        if len(self.setup.members(comm, self.rank)) == 1:
            self._finish()

    def _take(self, number: int, event: Event) -> None:
        """A register is tried."""
        if event.value == 1:
            self.held[event.core] = {}
            self.taken_at[event.core] = number

    def _free(self, number: int, event: Event) -> None:
        """A register is freed; where nothing of a call was done under it, it was a lock of the rank's own."""
        if self.stage == "idle" and self.open and self.open.first == self.taken_at.get(event.core):
            self.open = None


def calls_of(trace: Trace) -> list[list[Span]]:
    """The calls of each rank, in order."""
    ranks = [Rank(trace.setup, rank) for rank in range(trace.setup.ues)]
    for number, event in enumerate(trace.events):
        ranks[event.rank].go(number, event)
    return [rank.end() for rank in ranks]
