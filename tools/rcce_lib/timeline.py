"""What happens in a run, in an order that its waits allow: messages, posts and barriers by the log, and the calls that never end."""
from __future__ import annotations

from collections import defaultdict, deque
from dataclasses import dataclass, replace
from typing import Any, Iterator, Sequence

from rcce_lib.joined import Told
from rcce_lib.logs import Call, Log, differ
from rcce_lib.texts import Halt, Head, Message

# a round of repeated rows has at most so many rows
LONGEST_ROUND = 64


@dataclass(frozen=True)
class Arrow:
    """A message from one rank to another, and whether it was posted."""

    sender: int
    receiver: int
    posted: bool = False

    def span(self) -> tuple[int, int]:
        """The ranks that the arrow goes past, from the least to the greatest."""
        return min(self.sender, self.receiver), max(self.sender, self.receiver)


@dataclass(frozen=True)
class Row:
    """A row of the picture: `what` is message, post, barrier, or what never came: send, post, recv, refused, absent."""

    what: str
    place: str
    says: str
    arrows: tuple[Arrow, ...] = ()
    # of a barrier who met, or came to it
    members: tuple[int, ...] = ()
    absent: tuple[int, ...] = ()

    def begins(self) -> bool:
        """Whether it is a post that only begins here."""
        return self.what == "post" and ": " not in self.says


@dataclass(frozen=True)
class Repeat:
    """Rows that come several times, one round after the other."""

    times: int
    rows: tuple[Row | Repeat, ...]


@dataclass(frozen=True)
class Event:
    """What happens at one moment: its time is one more than that of all that it needs."""

    time: int
    row: Row


class Walk:
    """Goes through the calls of a log, and gives each message, post and barrier its time."""

    def __init__(self, log: Log, messages: Sequence[Message]) -> None:
        self.log = log
        self.next = [0] * log.ues
        self.time = [0] * log.ues
        # the post of a rank that was not taken yet with its time, and when the last one was taken
        self.slots: list[tuple[Call, int] | None] = [None] * log.ues
        self.freed = [0] * log.ues
        self.came: dict[tuple[int, int], deque[Message]] = defaultdict(deque)
        self.lines: dict[tuple[int, int], list[int]] = defaultdict(list)
        self.begun: dict[tuple[int, int], int] = defaultdict(int)
        for it in messages:
            self.came[it.sender, it.receiver].append(it)
            self.lines[it.sender, it.receiver].append(it.sent_at)
        self.events: list[Event] = []

    def call(self, rank: int) -> Call | None:
        """The next call of a rank."""
        calls = self.log.calls[rank]
        return calls[self.next[rank]] if self.next[rank] < len(calls) else None

    def go(self, rank: int) -> Sequence[int]:
        """Goes over the next call of a rank, if it can end now; the ranks whose next calls then may be able to."""
        call = self.call(rank)
        if call is None:
            return ()
        if call.verb == "bar":
            return self._meet(call, rank)
        if call.verb == "recv":
            return self._take(rank, call)
        if call.verb == "post" and self.slots[rank] is None:
            self._post(rank, call)
            return rank, call.peer
        # a send is gone over by its receive
        other = self.call(call.peer)
        return (call.peer,) if other is not None and other.verb == "recv" and other.peer == rank else ()

    def _post(self, rank: int, call: Call) -> None:
        """Puts a message into the slot of a rank."""
        self.time[rank] = 1 + max(self.time[rank], self.freed[rank])
        self.slots[rank] = call, self.time[rank]
        self.next[rank] += 1
        lines, begun = self.lines[rank, call.peer], self.begun[rank, call.peer]
        self.begun[rank, call.peer] += 1
        place = str(lines[begun]) if begun < len(lines) else ""
        self.events.append(Event(self.time[rank], Row("post", place, f"post {call.head}", (Arrow(rank, call.peer, True),))))

    def _take(self, rank: int, call: Call) -> Sequence[int]:
        """Takes a message out of a slot, or from a send that stands next."""
        sender = call.peer
        slot, send = self.slots[sender], self.call(sender)
        posted = slot is not None and slot[0].peer == rank
        if posted and slot is not None:
            time = 1 + max(self.time[rank], slot[1])
            self.slots[sender], self.freed[sender] = None, time
        elif slot is None and send is not None and send.verb == "send" and send.peer == rank:
            time = 1 + max(self.time[rank], self.time[sender], self.freed[sender])
            self.time[sender] = time
            self.next[sender] += 1
            self.begun[sender, rank] += 1
        else:
            return ()
        self.time[rank] = time
        self.next[rank] += 1
        it = self.came[sender, rank].popleft()
        self.events.append(Event(time, message_row(it, posted)))
        return rank, sender

    def _meet(self, call: Call, rank: int) -> Sequence[int]:
        """All members of a group go on from a barrier together."""
        group = self.log.members(call.comm, rank)
        stand = [self.call(member) for member in group]
        if any(it is None or it.verb != "bar" or it.comm != call.comm for it in stand):
            return ()
        time = 1 + max(self.time[member] for member in group)
        for member in group:
            self.next[member] += 1
            self.time[member] = time
        self.events.append(Event(time, Row("barrier", "", f"barrier {call.comm}", members=tuple(group))))
        return group


def message_row(it: Message, posted: bool = False) -> Row:
    """The row of one message that came."""
    return Row("message", f"{it.sent_at} > {it.taken_at}", str(it.head), (Arrow(it.sender, it.receiver, posted),))


def rows_of(told: Told, log: Log | None) -> list[Row]:
    """The rows of what came: by time and place, several arrows in one row where they do not cross."""
    if log is None:
        return merged([message_row(it) for it in told.messages])
    walk = Walk(log, told.messages)
    waiting = deque(range(log.ues))
    while waiting:
        waiting.extend(walk.go(waiting.popleft()))
    if any(walk.call(rank) for rank in range(log.ues)):
        raise differ("the calls of rcceaudit's log can't be gone through")
    events = sorted(walk.events, key=lambda it: (it.time, _number(it.row.place), it.row.what, it.row.place, it.row.says, [arrow.span() for arrow in it.row.arrows], it.row.members))
    return merged([it.row for it in events])


def _number(place: str) -> int:
    """The first line of a place."""
    return int(place.split()[0]) if place else 0


def merged(rows: Sequence[Row]) -> list[Row]:
    """The rows with their neighbours of the same lines and head: one to many, many to one, and arrows that stand apart."""
    made: list[Row] = []
    for row in rows:
        last = made[-1] if made else None
        if last and row.arrows and (last.what, last.place, last.says) == (row.what, row.place, row.says) and _fits(last, row.arrows[0]):
            made[-1] = replace(last, arrows=(*last.arrows, *row.arrows))
        else:
            made.append(row)
    return made


def _fits(row: Row, more: Arrow) -> bool:
    """Whether an arrow can be put into a row: it stands apart from each other, or all have one sender, or all one receiver."""
    if row.what == "post":
        return all(it.sender != more.sender for it in row.arrows)
    if row.what != "message":
        return False
    low, high = more.span()
    apart = all(high < it.span()[0] or it.span()[1] < low for it in row.arrows)
    others = all(it.posted == more.posted for it in row.arrows)
    fan_out = others and all(it.sender == more.sender and it.receiver != more.receiver for it in row.arrows)
    fan_in = others and all(it.receiver == more.receiver and it.sender != more.sender for it in row.arrows)
    return apart or fan_out or fan_in


def folded(rows: Sequence[Row | Repeat]) -> list[Row | Repeat]:
    """The rows with their repeats folded: rounds within rounds, too."""
    while True:
        made = _folded_once(rows)
        if len(made) == len(rows):
            return made
        rows = made


def _folded_once(rows: Sequence[Row | Repeat]) -> list[Row | Repeat]:
    """The rows with each repeat, the one that saves most at each place, as one."""
    made: list[Row | Repeat] = []
    numbers: dict[Row | Repeat, int] = {}
    keys = [numbers.setdefault(row, len(numbers)) for row in rows]
    at = 0
    while at < len(rows):
        best, times = 0, 1
        for size in range(1, min(LONGEST_ROUND, (len(rows) - at) // 2) + 1):
            same = at
            while same + size < len(rows) and keys[same] == keys[same + size]:
                same += 1
            rounds = (same - at) // size + 1
            if rounds > 1 and (rounds - 1) * size > (times - 1) * best:
                best, times = size, rounds
        if times > 1 and (times - 1) * best > 1:
            made.append(Repeat(times, tuple(rows[at : at + best])))
            at += best * times
        else:
            made.append(rows[at])
            at += 1
    return made


def count_of(rows: Sequence[Row | Repeat]) -> int:
    """How many messages rows stand for."""
    return sum(it.times * count_of(it.rows) if isinstance(it, Repeat) else len(it.arrows) * (it.what == "message") for it in rows)


def flat(rows: Sequence[Row | Repeat]) -> Iterator[Row]:
    """The rows, each once."""
    for it in rows:
        if isinstance(it, Repeat):
            yield from flat(it.rows)
        else:
            yield it


def never(told: Told, log: Log | None, halts: dict[int, Halt], absent: dict[int, Any]) -> list[Row]:
    """A row for each call that never ends, and for each post that was never taken; `absent` has by rank who is not at its barrier."""
    rows: list[Row] = []
    for rank, halt in sorted(halts.items()):
        place, head = str(halt.line), halt.head or Head("plain", 0, 0)
        if halt.verb in ("send", "post"):
            peer = halts.get(halt.peer or 0)
            refused = peer is not None and (peer.verb, peer.peer) == ("mismatch", rank)
            says = f"{head}: {'refused' if refused else 'not taken'}"
            rows.append(Row(halt.verb, place, says, (Arrow(rank, halt.peer or 0, halt.verb == "post"),)))
        elif halt.verb == "recv":
            rows.append(Row("recv", place, f"{head}: nothing came", (Arrow(halt.peer or 0, rank),)))
        elif halt.verb == "mismatch":
            rows.append(Row("refused", place, f"sent {halt.head}, asked {halt.asked}", (Arrow(halt.peer or 0, rank),)))
        else:
            rows.append(Row("absent", place, f"barrier {halt.comm}", members=(rank,), absent=tuple(absent.get(rank) or ())))
    for rank in range(told.ues if log else 0):
        held, stands = log.posted(rank) if log else None, halts.get(rank)
        same = held and stands and (stands.verb, stands.peer, stands.head) == ("post", held.peer, held.head)
        if held and not same:
            rows.append(Row("post", "", f"post {held.head}: in the slot, not taken", (Arrow(rank, held.peer, True),)))
    return _one_barrier(rows)


def _one_barrier(rows: Sequence[Row]) -> list[Row]:
    """The rows with those of one barrier as one."""
    made: dict[object, Row] = {}
    for number, row in enumerate(rows):
        key: object = (row.says, row.absent) if row.what == "absent" else number
        if key in made:
            old = made[key]
            places = old.place if old.place == row.place else f"{old.place.removesuffix(', ..')}, .."
            made[key] = replace(old, place=places, members=(*old.members, *row.members))
        else:
            made[key] = row
    return list(made.values())
