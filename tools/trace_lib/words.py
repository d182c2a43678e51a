"""What a run has besides its calls, and what each shared word of it is for, as docs/TRACE.md tells them."""
from __future__ import annotations

from dataclasses import dataclass, field
from typing import NamedTuple

from rcce_lib.logs import Log

HEADER_WORDS = ("kind", "comm", "length", "posted")
# the first lines of the barriers' flags and of the chunk buffer, with a word a flag and with a bit a flag
WORDS, BITS = "words", "bits"
FIRST_GATHER = {WORDS: 97, BITS: 2}
FIRST_RELEASE = {WORDS: 105, BITS: 10}
FIRST_CHUNK = {WORDS: 113, BITS: 18}
FIRST_READY, FIRST_HEAP = 49, 225


class Role(NamedTuple):
    """What a word is for: its sort, and of a flag or a word of a buffer the two numbers that name it."""

    sort: str
    one: int = -1
    other: int = -1

    def __str__(self) -> str:
        """The comment behind an event."""
        forms = {
            "header": f"header of {self.one}: {HEADER_WORDS[self.other] if self.sort == 'header' else ''}",
            "chunk": f"chunk word {self.other} of {self.one}",
            "sent": f"sent of {self.one} to {self.other}",
            "ready": f"ready of {self.one} to {self.other}",
            "sent flags": f"sent flags of {self.one}",
            "ready flags": f"ready flags of {self.one}",
            "gather": f"gather of {self.one} in comm {self.other}",
            "release": f"release of {self.one} in comm {self.other}",
        }
        return forms.get(self.sort, self.sort)


HEAP, NOBODYS, REGISTER = Role("heap"), Role("nobody's"), Role("register")


@dataclass
class Setup:
    """The number of ranks, the layout of the flags, the core of each rank, and the communicators that are splits."""

    ues: int
    layout: str
    hosts: list[int]
    splits: dict[int, tuple[int, str, int]] = field(default_factory=dict)
    groups: dict[tuple[int, int], list[int]] = field(default_factory=dict)
    roles: dict[tuple[int, int, int], Role] = field(default_factory=dict)

    def members(self, comm: int, rank: int) -> list[int]:
        """The members of a rank's group of a communicator, in rank order."""
        if (comm, rank) not in self.groups:
            self.groups[comm, rank] = Log(self.ues, self.splits).members(comm, rank)
        return self.groups[comm, rank]

    def role(self, core: int, line: int, word: int) -> Role:
        """What a word of a core's buffer is for."""
        place = core, line, word
        if place not in self.roles:
            self.roles[place] = self._role(self.hosts.index(core), line, word) if core in self.hosts else NOBODYS
        return self.roles[place]

    def _role(self, owner: int, line: int, word: int) -> Role:
        """What a word of the core of a rank is for."""
        if line == 0:
            return Role("header", owner, word)
        if line < FIRST_GATHER[self.layout]:
            return self._bits(owner, word) if self.layout == BITS else self._flag(owner, line, word)
        if line < FIRST_CHUNK[self.layout]:
            return self._barrier(owner, line, word)
        return Role("chunk", owner, 4 * (line - FIRST_CHUNK[self.layout]) + word) if line < FIRST_HEAP else HEAP

    def _flag(self, owner: int, line: int, word: int) -> Role:
        """A flag that is a word."""
        other = line - 1 if line < FIRST_READY else line - FIRST_READY
        if word or other == owner or other >= self.ues:
            return NOBODYS
        return Role("sent", other, owner) if line < FIRST_READY else Role("ready", other, owner)

    @staticmethod
    def _bits(owner: int, word: int) -> Role:
        """A word of flags that are bits."""
        return [Role("sent flags", owner), Role("ready flags", owner), NOBODYS, NOBODYS][word]

    def _barrier(self, owner: int, line: int, word: int) -> Role:
        """A flag of a barrier."""
        sort, first = ("release", FIRST_RELEASE) if line >= FIRST_RELEASE[self.layout] else ("gather", FIRST_GATHER)
        comm = 8 * word + line - first[self.layout]
        return Role(sort, owner, comm) if word < 2 and (comm == 0 or comm in self.splits) else NOBODYS
