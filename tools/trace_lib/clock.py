"""When the calls of a log are made, in turns: a call begins where the one before it at its rank has ended, and takes one turn once all
that it waits for is there. An order of calls, and no measured time."""
from __future__ import annotations

from collections import deque
from dataclasses import dataclass, field

from rcce_lib.logs import Call, Log, differ


@dataclass
class Timed:
    """The calls of each rank with their begins and ends; and each message, as sender, time, receiver and time."""

    times: list[list[tuple[int, int]]]
    messages: list[tuple[int, int, int, int]] = field(default_factory=list)


class Clock:
    """Goes over the calls of a log in an order in which they can be made."""

    def __init__(self, log: Log) -> None:
        self.log = log
        self.timed = Timed([[] for _ in range(log.ues)])
        # the post of a rank that was not taken yet; when it was made, and when the last one was taken
        self.slots: list[Call | None] = [None] * log.ues
        self.made = [0] * log.ues
        self.freed = [0] * log.ues

    def call(self, rank: int) -> Call | None:
        """The next call of a rank."""
        calls, done = self.log.calls[rank], len(self.timed.times[rank])
        return calls[done] if done < len(calls) else None

    def begin(self, rank: int) -> int:
        """When the next call of a rank begins."""
        times = self.timed.times[rank]
        return times[-1][1] if times else 0

    def end(self, rank: int, time: int) -> None:
        """The next call of a rank ends."""
        self.timed.times[rank].append((self.begin(rank), time))

    def go(self, rank: int) -> list[int]:
        """Goes over the next call of a rank, if it can end now; the ranks whose next calls then may be able to."""
        call = self.call(rank)
        if call is None:
            return []
        if call.verb == "bar":
            return self._meet(call, rank)
        if call.verb == "recv":
            return self._take(rank, call)
        if call.verb == "post" and self.slots[rank] is None:
            time = 1 + max(self.begin(rank), self.freed[rank])
            self.slots[rank], self.made[rank] = call, time
            self.end(rank, time)
            return [rank, call.peer]
        # a send is gone over by its receive
        facing = self.call(call.peer)
        return [call.peer] if facing and facing.verb == "recv" and facing.peer == rank else []

    def _take(self, rank: int, call: Call) -> list[int]:
        """Takes a message out of a slot, or from a send that stands next; no other message than the receive has."""
        sender = call.peer
        post, send = self.slots[sender], self.call(sender)
        if post and post.peer == rank and _same(post, call):
            time = 1 + max(self.made[sender], self.begin(rank))
            self.slots[sender], self.freed[sender] = None, time
            self.timed.messages.append((sender, self.made[sender] - 1, rank, time - 1))
        elif post is None and send and send.verb == "send" and send.peer == rank and _same(send, call):
            time = 1 + max(self.begin(sender), self.freed[sender], self.begin(rank))
            self.timed.messages.append((sender, time - 1, rank, time - 1))
            self.end(sender, time)
        else:
            return []
        self.end(rank, time)
        return [rank, sender]

    def _meet(self, call: Call, rank: int) -> list[int]:
        """All members of a group go on from a barrier together."""
        group = self.log.members(call.comm, rank)
        stand = [self.call(member) for member in group]
        if any(it is None or it.verb != "bar" or it.comm != call.comm for it in stand):
            return []
        time = 1 + max(self.begin(member) for member in group)
        for member in group:
            self.end(member, time)
        return group


def _same(sent: Call, taken: Call) -> bool:
    """Whether a message is the one that a receive has."""
    return (sent.head, sent.data) == (taken.head, taken.data)


def times_of(log: Log) -> Timed:
    """The times of the calls of a legal log."""
    clock = Clock(log)
    waiting = deque(range(log.ues))
    while waiting:
        waiting.extend(clock.go(waiting.popleft()))
    if any(clock.call(rank) for rank in range(log.ues)):
        raise differ("the calls of a log that is legal can't be gone through")
    return clock.timed
