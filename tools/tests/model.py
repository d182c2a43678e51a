"""Makes traces for tests: ranks that do the accesses of sends, receives, posts and barriers in an order that is drawn from a seed.

It stands for a program that writes traces, in tests alone, and nothing is proved of it."""
from __future__ import annotations

import random
from typing import Iterator

from trace_lib.calls import KINDS
from trace_lib.words import BITS, FIRST_CHUNK, FIRST_GATHER, FIRST_HEAP, FIRST_RELEASE, Setup

# a call as a log of calls has it, without the rank: send or recv or post, peer, kind, communicator, length, bytes; or bar, communicator
Call = tuple[object, ...]


class Model:
    """The words of a chip, and the lines of its trace."""

    def __init__(self, setup: Setup) -> None:
        self.setup = setup
        self.words: dict[tuple[int, int, int], int] = {}
        self.taken: set[int] = set()
        self.lines = [f"rcce trace 1 nue {setup.ues} layout {setup.layout} hosts {','.join(map(str, setup.hosts))}"]
        self.lines += [f"comm {comm} {parent} {how} {parts}" for comm, (parent, how, parts) in sorted(setup.splits.items())]
        self.slots: list[int | None] = [None] * setup.ues
        self.flips: dict[tuple[int, int], int] = {}

    def note(self, rank: int, access: str, core: int, place: tuple[int, int] | None, value: int) -> None:
        """Writes an event."""
        where = f"{core}.{place[0]}.{place[1]}" if place else f"{core}.register"
        role = self.setup.role(core, *place) if place else "register"
        self.lines.append(f"{rank} {access} {where} {value:016x} # {role}")

    def load(self, rank: int, core: int, line: int) -> list[int]:
        """Loads the four words of a line."""
        found = [self.words.get((core, line, word), 0) for word in range(4)]
        for word, value in enumerate(found):
            self.note(rank, "load", core, (line, word), value)
        return found

    def store(self, rank: int, core: int, line: int, word: int, value: int) -> None:
        """Stores a word."""
        self.words[core, line, word] = value
        self.note(rank, "store", core, (line, word), value)

    def take(self, rank: int, core: int) -> bool:
        """Tries a register."""
        is_free = core not in self.taken
        self.taken.add(core)
        self.note(rank, "take", core, None, int(is_free))
        return is_free

    def change(self, rank: int, owner: int, word: int, other: int, value: int) -> Iterator[None]:
        """Raises or lowers a flag of messages at the core of a rank: `sent` is word 0 of bit flags and `ready` word 1."""
        core = self.setup.hosts[owner]
        if self.setup.layout != BITS:
            self.store(rank, core, (1, 49)[word] + other, 0, value)
            return
        while not self.take(rank, core):
            yield
        old = self.load(rank, core, 1)[word]
        self.store(rank, core, 1, word, old ^ 1 << other)
        self.taken.discard(core)
        self.note(rank, "free", core, None, 0)

    def await_flag(self, rank: int, word: int, other: int) -> Iterator[None]:
        """Looks at a flag of messages at the own core until it is set."""
        core, bits = self.setup.hosts[rank], self.setup.layout == BITS
        while True:
            found = self.load(rank, core, 1 if bits else (1, 49)[word] + other)
            if found[word] >> other & 1 if bits else found[0]:
                return
            yield

    def empty_slot(self, rank: int) -> Iterator[None]:
        """Waits until the posted message is taken."""
        if (to := self.slots[rank]) is not None:
            yield from self.await_flag(rank, 1, to)
            yield from self.change(rank, rank, 1, to, 0)
            self.slots[rank] = None

    def message(self, rank: int, verb: str, to: int, head: list[int], data: bytes) -> Iterator[None]:
        """Sends or posts a message, chunk by chunk."""
        yield from self.empty_slot(rank)
        core, first = self.setup.hosts[rank], FIRST_CHUNK[self.setup.layout]
        size = 32 * (FIRST_HEAP - first)
        for start in range(0, max(1, len(data)), size):
            if start == 0:
                for word, value in enumerate([*head, int(verb == "post")]):
                    self.store(rank, core, 0, word, value)
            chunk = data[start : start + size]
            chunk += bytes(-len(chunk) % 32)
            for word in range(len(chunk) // 8):
                self.store(rank, core, first + word // 4, word % 4, int.from_bytes(chunk[8 * word : 8 * word + 8], "little"))
                yield
            yield from self.change(rank, to, 0, rank, 1)
            if verb == "post":
                self.slots[rank] = to
                return
            yield from self.await_flag(rank, 1, to)
            yield from self.change(rank, rank, 1, to, 0)

    def receive(self, rank: int, sender: int, length: int) -> Iterator[None]:
        """Receives a message, chunk by chunk."""
        core, first = self.setup.hosts[sender], FIRST_CHUNK[self.setup.layout]
        size = 32 * (FIRST_HEAP - first)
        for start in range(0, max(1, length), size):
            yield from self.await_flag(rank, 0, sender)
            if start == 0:
                self.load(rank, core, 0)
            yield from self.change(rank, rank, 0, sender, 0)
            for line in range((min(size, length - start) + 31) // 32):
                self.load(rank, core, first + line)
                yield
            yield from self.change(rank, sender, 1, rank, 1)

    def barrier(self, rank: int, comm: int) -> Iterator[None]:
        """Meets the group of a rank."""
        value = self.flips[rank, comm] = 1 - self.flips.get((rank, comm), 0)
        gather, release = FIRST_GATHER[self.setup.layout] + comm % 8, FIRST_RELEASE[self.setup.layout] + comm % 8
        hosts, word, group = self.setup.hosts, comm // 8, self.setup.members(comm, rank)
        self.store(rank, hosts[rank], gather, word, value)
        if rank != group[0]:
            while self.load(rank, hosts[rank], release)[word] != value:
                yield
            return
        for member in group[1:]:
            while self.load(rank, hosts[member], gather)[word] != value:
                yield
        for member in group[1:]:
            self.store(rank, hosts[member], release, word, value)
            yield

    def calls(self, rank: int, calls: list[Call]) -> Iterator[None]:
        """Makes the calls of a rank."""
        for call in calls:
            if call[0] == "bar":
                yield from self.barrier(rank, int(str(call[1])))
            else:
                verb, peer, kind, comm, length, data = str(call[0]), int(str(call[1])), str(call[2]), int(str(call[3])), int(str(call[4])), str(call[5])
                if verb == "recv":
                    yield from self.receive(rank, peer, length)
                else:
                    yield from self.message(rank, verb, peer, [KINDS.index(kind), comm, length], bytes.fromhex(data))
        yield from self.empty_slot(rank)


def trace_of(setup: Setup, calls: list[list[Call]], seed: int) -> str:
    """The trace of a run of these calls, by rank."""
    model, drawn = Model(setup), random.Random(seed)
    left = [model.calls(rank, of_rank) for rank, of_rank in enumerate(calls)]
    while left:
        going = drawn.choice(left)
        if next(going, going) is going:
            left.remove(going)
    return "".join(f"{line}\n" for line in model.lines)
