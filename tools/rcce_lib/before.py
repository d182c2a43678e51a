"""What the lines of a script before a refused one come to: a reading of lines that a proved program has accepted."""
from __future__ import annotations

from dataclasses import dataclass, field

from rcce_lib.marks import text_of, words_of

WIDTHS = {"int": 4, "long": 8}
# the places of the registers that a statement names, counted from its first word
REGISTERS = {"bytes": (1,), "ints": (1,), "longs": (1,), "fill": (1,), "rank": (1,), "apply": (3, 4), "print": (-1,), "send": (2,), "post": (2,), "recv": (2,),
             "bcast": (3,), "reduce": (5, 6), "allreduce": (4, 5)}


@dataclass
class Before:
    """The section, the open repeats, the splits and, by rank, lengths and counts. With each there is the line that has it."""

    ues: int
    # whether lengths, splits and counts are kept, which takes a while for a long script
    by_rank: bool = True
    version: int = 1
    opening: bool = True
    section: list[int] | None = None
    open: list[tuple[int, int]] = field(default_factory=list)
    closed: tuple[int, int] | None = None
    rules: dict[int, tuple[int, str, int, int]] = field(default_factory=dict)
    names: dict[str, int] = field(default_factory=dict)
    lengths: list[dict[str, tuple[int, int]]] = field(default_factory=list)
    splits: list[set[int]] = field(default_factory=list)
    operations: list[int] = field(default_factory=list)
    printed: list[int] = field(default_factory=list)

    def __post_init__(self) -> None:
        self.lengths = [{} for _ in range(self.ues)]
        self.splits = [set() for _ in range(self.ues)]
        self.operations, self.printed = [0] * self.ues, [0] * self.ues

    @property
    def turns(self) -> int:
        """How often a statement runs here."""
        turns = 1
        for _, times in self.open:
            turns *= times
        return turns

    def take(self, at: int, words: list[str]) -> None:
        """Takes one more line."""
        self.opening = False
        if words[0] == "rcce":
            self.version = int(words[1])
        elif words[0] in ("all", "even", "odd", "ue"):
            self.section = self._ranks(words)
        elif words[0] == "repeat":
            self.open.append((at, int(words[1])))
        else:
            for rank in (self.section or []) if self.by_rank else []:
                self._statement(at, rank, words)
            for place in REGISTERS.get(words[0], ()):
                self.names.setdefault(words[place], at)
            if words[0] == "split":
                parent = int(words[3]) if words[2] == "of" else 0
                self.rules.setdefault(int(words[1]), (parent, words[-2], int(words[-1]), at))
            if words[0] == "end":
                self.closed = self.open.pop()[0], at

    def _ranks(self, words: list[str]) -> list[int]:
        """The ranks of a section line."""
        if words[0] == "ue":
            first, _, last = words[1].partition("-")
            return list(range(int(first), int(last or first) + 1))
        return list(range(words[0] == "odd", self.ues, 1 if words[0] == "all" else 2))

    def _statement(self, at: int, rank: int, words: list[str]) -> None:
        """Counts a statement at a rank."""
        self.operations[rank] += self.turns * self.steps(rank, words)
        self.printed[rank] += self.turns * self.prints(rank, words)
        if words[0] == "split":
            self.splits[rank].add(int(words[1]))
        if setting := self.setting(rank, words):
            self.lengths[rank].setdefault(setting[0], (setting[1], at))

    def length(self, rank: int, name: str) -> int:
        """The length of a register that a rank has set, and 0 of another."""
        return self.lengths[rank].get(name, (0, 0))[0]

    def prints(self, rank: int, words: list[str]) -> int:
        """How many bytes a statement prints."""
        return self.length(rank, words[-1]) if words[0] == "print" else 0

    def setting(self, rank: int, words: list[str]) -> tuple[str, int] | None:
        """The register that a statement sets at a rank, and its length there."""
        verb = words[0]
        if verb in ("bytes", "ints", "longs"):
            return words[1], len(words[2].replace("-", "")) // 2 if verb == "bytes" else (len(words) - 2) * WIDTHS[verb[:-1]]
        if verb in ("rank", "fill"):
            return words[1], WIDTHS[words[2]] if verb == "rank" else int(words[2])
        if verb == "recv" or verb == "bcast" and not self.is_root(rank, words):
            return words[-2], int(words[-1])
        if verb == "allreduce" or verb == "reduce" and self.is_root(rank, words):
            return words[-2], self.length(rank, words[-1])
        return None

    def members(self, comm: int, rank: int) -> list[int]:
        """The members of a rank's group of a communicator, in rank order; of one that no line splits there are none."""
        if comm == 0:
            return list(range(self.ues))
        if comm not in self.rules:
            return []
        parent, how, parts, _ = self.rules[comm]
        above = self.members(parent, rank)
        places = [place % parts if how == "mod" else place // parts for place in range(len(above))]
        return [member for member, place in zip(above, places) if place == places[above.index(rank)]]

    def is_root(self, rank: int, words: list[str]) -> bool:
        """Whether a rank is the root of a collective call, which is member 0 in a reduction to all."""
        root = 0 if words[0] == "allreduce" else int(words[2])
        return self.members(int(words[1]), rank)[root : root + 1] == [rank]

    def steps(self, rank: int, words: list[str]) -> int:
        """How many operations a statement is at a rank."""
        if words[0] not in ("bcast", "reduce", "allreduce"):
            return 1
        others = len(self.members(int(words[1]), rank)) - 1
        at_root, elsewhere = {"bcast": (others, 2), "reduce": (2 * others + 2, 1), "allreduce": (3 * others + 2, 3)}[words[0]]
        return at_root if self.is_root(rank, words) else elsewhere


def before(lines: list[bytes], ues: int, by_rank: bool) -> Before:
    """What these lines come to."""
    made = Before(ues, by_rank)
    for at, line in enumerate(lines, 1):
        if words := [it.text for it in words_of(text_of(line))]:
            made.take(at, words)
    return made
