"""Reads the log of a run, by the form that crates/rcce_audit tells."""
from __future__ import annotations

import re
from dataclasses import dataclass, field

from rcce_lib.stops import Failure
from rcce_lib.texts import Head, KINDS, lines_of, strange

TOP = re.compile(r"rcce log (\d+)")
COMM = re.compile(r"comm (\d+) (\d+) (mod|div) (\d+)")
CALL = re.compile(rf"(\d+) (send|recv|post) (\d+) ({KINDS}) (\d+) (\d+) ((?:[0-9a-f]{{2}})+|-)")
BARRIER = re.compile(r"(\d+) bar (\d+)")


@dataclass(frozen=True)
class Call:
    """A call of a rank, with the line of the log that has it."""

    line: int
    text: str
    verb: str
    peer: int = -1
    head: Head = Head("plain", 0, 0)
    data: str = "-"
    comm: int = 0


@dataclass
class Log:
    """A log: the number of ranks, the splits by number, and the calls of each rank."""

    ues: int
    splits: dict[int, tuple[int, str, int]] = field(default_factory=dict)
    calls: list[list[Call]] = field(default_factory=list)

    def members(self, comm: int, rank: int) -> list[int]:
        """The members of a rank's group of a communicator, in rank order."""
        if comm == 0:
            return list(range(self.ues))
        parent, how, parts = self.splits[comm]
        above = self.members(parent, rank)
        key = (lambda place: place % parts) if how == "mod" else (lambda place: place // parts)
        mine = key(above.index(rank))
        return [member for place, member in enumerate(above) if key(place) == mine]

    def posted(self, rank: int) -> Call | None:
        """The message that a rank has posted and that was not taken, when all calls of the log are done."""
        sends = [call for call in self.calls[rank] if call.verb in ("send", "post")]
        if not sends or sends[-1].verb != "post":
            return None
        peer = sends[-1].peer
        sent = sum(call.peer == peer for call in sends)
        taken = sum(call.verb == "recv" and call.peer == rank for call in self.calls[peer])
        return sends[-1] if taken < sent else None


def read_log(text: str, program: str = "rcceaudit") -> Log:
    """The log of a text that a program wrote, or has accepted."""
    lines = lines_of(program, text)
    found = TOP.fullmatch(lines[0]) if lines else None
    if not found:
        raise strange(program, lines[0] if lines else "")
    log = Log(int(found[1]), calls=[[] for _ in range(int(found[1]))])
    for number, line in enumerate(lines[1:], 2):
        try:
            _put(log, number, line)
        except (KeyError, IndexError) as error:
            raise strange(program, line) from error
    return log


def _put(log: Log, number: int, line: str) -> None:
    """Puts a line into its log."""
    if found := CALL.fullmatch(line):
        head = Head(found[4], int(found[5]), int(found[6]))
        if len(found[7].replace("-", "")) != 2 * head.length:
            raise strange("rcceaudit", line)
        log.calls[int(found[1])].append(Call(number, line, found[2], int(found[3]), head, found[7]))
    elif found := BARRIER.fullmatch(line):
        log.calls[int(found[1])].append(Call(number, line, "bar", comm=int(found[2])))
    elif found := COMM.fullmatch(line):
        log.splits[int(found[1])] = int(found[2]), found[3], int(found[4])
    else:
        raise strange("rcceaudit", line)


def differ(what: str) -> Failure:
    """The failure that two programs do not tell the same of one script."""
    return Failure(f"the programs do not agree: {what}")
