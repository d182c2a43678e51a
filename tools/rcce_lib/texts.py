"""Reads what the programs write, each line by its one form; a line of another form ends the command."""
from __future__ import annotations

import re
from dataclasses import dataclass
from functools import lru_cache
from typing import NamedTuple

from rcce_lib.stops import Failure

KINDS = "plain|bcast|reduce|allup|alldown"
HEAD = rf"({KINDS}) (\d+) (\d+)"
PRINTED = re.compile(r"ue (\d+) (\w+) (?:(int|long)((?: -?\d+)*)|((?:[0-9a-f]{2})+|-))")
WAITS = re.compile(rf"ue (\d+) waits at line (\d+): (?:(send to|recv from|post to) (\d+) {HEAD}|barrier (\d+))")
MISMATCH = re.compile(rf"ue (\d+) mismatch at line (\d+): from (\d+) sent {HEAD}, asked {HEAD}")
MESSAGE = re.compile(rf"(\d+):(\d+) -> (\d+):(\d+) {HEAD}")
TROUBLE = re.compile(r"ue (\d+) waits for (\d+), cause (cycle|finished|mismatch) (\d+)")
REFUSED = re.compile(r"ue (\d+) mismatch with (\d+)")
VERDICT = re.compile(r"not legal: ue (\d+) call (\d+)")
GENERATED = re.compile(r"gen (\d+) ues (\d+) sends (\d+) bytes (\d+) sum (\d+)")


class Head(NamedTuple):
    """The kind of a message, its communicator and its length in bytes."""

    kind: str
    comm: int
    length: int

    def __str__(self) -> str:
        return f"{self.kind} {self.comm} {self.length}"


@dataclass(frozen=True)
class Halt:
    """Where a rank of a run stands that has not finished (rccerun): at a send, recv, post or barrier, or with a mismatch."""

    rank: int
    line: int
    verb: str
    peer: int | None = None
    head: Head | None = None
    asked: Head | None = None
    comm: int | None = None


class Message(NamedTuple):
    """A message that came (rccecheck)."""

    sender: int
    sent_at: int
    receiver: int
    taken_at: int
    head: Head


@dataclass(frozen=True)
class Trouble:
    """Whom a rank waits for and the cause (rccecheck); or whose message it refused, where there is no cause."""

    rank: int
    other: int
    cause: str
    root: int


def strange(program: str, line: str) -> Failure:
    """The failure that a program writes what it never writes."""
    return Failure(f"{program} writes a line of no known form: {line!r:.200}")


def lines_of(program: str, text: str) -> list[str]:
    """The lines of a text, each of which ends with a line feed."""
    if text and not text.endswith("\n"):
        raise strange(program, text[-200:])
    return text.split("\n")[:-1]


@lru_cache(maxsize=4096)
def head_of(words: tuple[str, ...]) -> Head:
    """A head by its three words."""
    return Head(words[0], int(words[1]), int(words[2]))


def read_halts(lines: list[str]) -> dict[int, Halt]:
    """Where the ranks stand that have not finished, by what rccerun writes to standard error."""
    halts: dict[int, Halt] = {}
    for line in lines:
        if found := WAITS.fullmatch(line):
            rank, at, verb, peer, *head, comm = found.groups()
            if verb:
                halt = Halt(int(rank), int(at), verb.split()[0], int(peer), head_of(tuple(head)))
            else:
                halt = Halt(int(rank), int(at), "barrier", comm=int(comm))
        elif found := MISMATCH.fullmatch(line):
            words = found.groups()
            halt = Halt(int(words[0]), int(words[1]), "mismatch", int(words[2]), head_of(words[3:6]), head_of(words[6:9]))
        else:
            raise strange("rccerun", line)
        if halts and halt.rank <= max(halts):
            raise strange("rccerun", line)
        halts[halt.rank] = halt
    return halts


def read_check(text: str) -> tuple[list[Message], dict[int, Trouble]]:
    """The messages that came, and whom ranks wait for, by what rccecheck writes."""
    messages, troubles = [], {}
    for line in lines_of("rccecheck", text):
        if found := MESSAGE.fullmatch(line):
            words = found.groups()
            messages.append(Message(*map(int, words[:4]), head_of(words[4:])))
        elif found := TROUBLE.fullmatch(line):
            troubles[int(found[1])] = Trouble(int(found[1]), int(found[2]), found[3], int(found[4]))
        elif found := REFUSED.fullmatch(line):
            troubles[int(found[1])] = Trouble(int(found[1]), int(found[2]), "", int(found[1]))
        else:
            raise strange("rccecheck", line)
    return messages, troubles


def read_printed(text: str) -> list[dict[str, object]]:
    """What the ranks print, by what rccerun writes; or the one line of a generated run."""
    printed: list[dict[str, object]] = []
    for line in lines_of("rccerun", text):
        if found := PRINTED.fullmatch(line):
            item: dict[str, object] = {"ue": int(found[1]), "name": found[2]}
            if found[3]:
                item.update(type=found[3], values=[int(value) for value in found[4].split()])
            else:
                item["hex"] = found[5]
            printed.append(item)
        elif (found := GENERATED.fullmatch(line)) and text.count("\n") == 1:
            return [dict(zip(("gen", "ues", "sends", "bytes", "sum"), map(int, found.groups())))]
        else:
            raise strange("rccerun", line)
    return printed
