"""rcce sum: what a run comes to in numbers, by which algorithms are compared."""
from __future__ import annotations

from collections import Counter, deque
from typing import Any

from rcce_lib.joined import Told
from rcce_lib.logs import Call, Log, differ
from rcce_lib.shown import Paint, counted, ues


def count(told: Told) -> dict[str, object]:
    """The numbers of a run, as an object."""
    sent, taken, bytes_sent, bytes_taken = (Counter() for _ in range(4))
    kinds: Counter[str] = Counter()
    for message in told.messages:
        sent[message.sender] += 1
        taken[message.receiver] += 1
        bytes_sent[message.sender] += message.head.length
        bytes_taken[message.receiver] += message.head.length
        kinds[message.head.kind] += 1
    ranks = [
        {"ue": k, "sent": sent[k], "taken": taken[k], "bytes_sent": bytes_sent[k], "bytes_taken": bytes_taken[k]} for k in range(told.ues)
    ]
    busiest = max(ranks, key=lambda it: (it["sent"] + it["taken"], it["bytes_sent"] + it["bytes_taken"], -it["ue"]))
    found: dict[str, object] = {
        "command": "sum",
        "script": told.script.name,
        "ues": told.ues,
        "status": told.status,
        "unfinished": sorted(told.troubles),
        "messages": len(told.messages),
        "kinds": dict(sorted(kinds.items())),
        "bytes": sum(bytes_sent.values()),
        "busiest": busiest if told.messages else None,
        "by_ue": ranks,
        "logged": False,
        "posts": None,
        "barriers": None,
        "chain": None,
    }
    log = told.log()
    if log:
        chain, matched = longest_chain(log)
        if matched != len(told.messages):
            raise differ("rcceaudit and rccecheck on the number of messages")
        posts = sum(call.verb == "post" for calls in log.calls for call in calls)
        found.update(logged=True, posts=posts, barriers=_barriers(log), chain=chain)
    return found


def _barriers(log: Log) -> dict[str, int]:
    """How often groups of each communicator have met at a barrier: each meeting of a group counts once."""
    met: dict[str, int] = {}
    for comm in sorted({call.comm for calls in log.calls for call in calls if call.verb == "bar"}):
        entered = [sum(call.verb == "bar" and call.comm == comm for call in calls) for calls in log.calls]
        groups = {tuple(log.members(comm, rank)) for rank in range(log.ues)}
        for group in groups:
            if len({entered[rank] for rank in group}) != 1:
                raise differ(f"a barrier of communicator {comm} is not met by all its members")
        met[str(comm)] = sum(entered[group[0]] for group in groups)
    return met


class Chains:
    """The longest chain of messages that has ended at each rank, as the calls of a log are gone through."""

    def __init__(self, log: Log) -> None:
        self.log = log
        self.next = [0] * log.ues
        self.ended = [0] * log.ues
        # the post of a rank that was not taken yet, with the chain that stood behind it; and the chain of the last one that was taken
        self.slots: list[Call | None] = [None] * log.ues
        self.behind = [0] * log.ues
        self.freed = [0] * log.ues
        self.messages = 0

    def call(self, rank: int) -> Call | None:
        """The next call of a rank."""
        calls = self.log.calls[rank]
        return calls[self.next[rank]] if self.next[rank] < len(calls) else None

    def go(self, rank: int) -> list[int]:
        """Goes over the next call of a rank, if it can end now; the ranks whose next calls then may be able to."""
        call = self.call(rank)
        if call is None:
            return []
        if call.verb == "bar":
            return self._meet(call, rank)
        if call.verb == "recv":
            return self._take(rank, call)
        if call.verb == "post" and self.slots[rank] is None:
            self.slots[rank], self.behind[rank] = call, self._begun(rank)
            self.next[rank] += 1
            return [rank, call.peer]
        # a send is gone over by its receive
        return [call.peer] if self._receives(call.peer, rank) else []

    def _begun(self, rank: int) -> int:
        """The chain that stands behind the next send or post of a rank, which begins when its posted message was taken."""
        return max(self.ended[rank], self.freed[rank])

    def _receives(self, rank: int, sender: int) -> bool:
        """Whether a rank's next call is a receive from this sender."""
        call = self.call(rank)
        return call is not None and call.verb == "recv" and call.peer == sender

    def _take(self, rank: int, call: Call) -> list[int]:
        """Takes a message out of a slot, or from a send that stands next."""
        sender = call.peer
        post, send = self.slots[sender], self.call(sender)
        if post is not None and post.peer == rank:
            length = 1 + max(self.behind[sender], self.ended[rank])
            self.slots[sender], self.freed[sender] = None, length
        elif post is None and send is not None and send.verb == "send" and send.peer == rank:
            length = 1 + max(self._begun(sender), self.ended[rank])
            self.ended[sender] = length
            self.next[sender] += 1
        else:
            return []
        self.messages += 1
        self.next[rank] += 1
        self.ended[rank] = length
        return [rank, sender]

    def _meet(self, call: Call, rank: int) -> list[int]:
        """All members of a group go on from a barrier together."""
        group = self.log.members(call.comm, rank)
        stand = [self.call(member) for member in group]
        if any(it is None or it.verb != "bar" or it.comm != call.comm for it in stand):
            return []
        longest = max(self.ended[member] for member in group)
        for member in group:
            self.next[member] += 1
            self.ended[member] = longest
        return group


def longest_chain(log: Log) -> tuple[int, int]:
    """The length of the longest chain of messages, each of which begins at a UE where the one before has ended; and how many were gone over."""
    chains = Chains(log)
    waiting = deque(range(log.ues))
    while waiting:
        waiting.extend(chains.go(waiting.popleft()))
    if any(chains.call(rank) for rank in range(log.ues)):
        raise differ("the calls of rcceaudit's log can't be gone through")
    return max(chains.ended), chains.messages


def text_of(found: dict[str, Any], paint: Paint) -> str:
    """The numbers as text."""
    kinds = ", ".join(f"{name} {number:,}" for name, number in found["kinds"].items())
    rows = [("messages", f"{found['messages']:,}" + (f" ({kinds})" if kinds else "")), ("bytes", f"{found['bytes']:,}")]
    if found["logged"]:
        barriers: dict[str, int] = found["barriers"]
        each = ", ".join(f"{number:,} of communicator {comm}" for comm, number in barriers.items())
        rows += [("posts", f"{found['posts']:,}"), ("longest chain", counted(found["chain"], "message"))]
        rows += [("barriers", f"{sum(barriers.values()):,}" + (f" ({each})" if each else ""))]
    if busiest := found["busiest"]:
        told = [f"{way} {busiest[way]:,} ({counted(busiest['bytes_' + way], 'byte')})" for way in ("sent", "taken")]
        rows += [("busiest", f"ue {busiest['ue']}: {', '.join(told)}")]
    width = max(len(name) for name, _ in rows)
    lines = [paint("strong", f"{found['script']}, {counted(found['ues'], 'UE')}")]
    lines += [f"  {name:{width}}  {value}" for name, value in rows]
    if unfinished := found["unfinished"]:
        lines.append(f"  not finished: {ues(unfinished)} (rcce why tells why)")
    if not found["logged"]:
        lines.append("  the run is too long for a log, so posts, barriers and the longest chain are not told")
    return "\n".join(lines)
