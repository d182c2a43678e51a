"""The scripts that are measured: the largest that the limits allow, the works that other programs do too, and turns of few kinds."""
from __future__ import annotations

import pathlib
import re
from dataclasses import dataclass
from typing import Callable

HELP = pathlib.Path(__file__).resolve().parents[2] / "scripts/help"


def readers() -> dict[str, bool]:
    """The programs that work a script out without a chip, by the form of their words, and whether they take the cores of the ranks."""
    form = re.compile(r"(?m)^usage: (\S+) -nue N( \[-at LIST\])? SCRIPT$")
    found = (form.search(path.read_text(encoding="utf-8")) for path in sorted(HELP.iterdir()))
    return {it[1]: bool(it[2]) for it in found if it}


def statements(size: int) -> bytes:
    """Sections of all 48 ranks in turn, of short statements, with as many bytes in all."""
    line = b"bytes x 00\n"
    each = size // 48 // len(line) * len(line)
    text = b"".join(b"ue %d\n" % rank + line * ((each - 6) // len(line)) for rank in range(48))
    return text + b"#" * (size - len(text) - 1) + b"\n"


def operations(count: int) -> bytes:
    """Statements in a repeat, whose end is an operation too."""
    return b"all\nrepeat %d\nbytes x 00\nend\n" % (count // 2)


def messages(count: int) -> bytes:
    """A ring in which even ranks send first; each turn of the repeat is three operations."""
    first, then = b"send +1 x\n", b"recv -1 y 8\n"
    ring = lambda ranks, one, other: ranks + b"\nfill x 8 1\nrepeat %d\n" % ((count - 1) // 3) + one + other + b"end\n"
    return ring(b"even", first, then) + ring(b"odd", then, first)


def long_messages(count: int) -> bytes:
    """The same with messages of the greatest length."""
    return messages(count).replace(b"fill x 8 1", b"fill x 65536 1").replace(b"y 8", b"y 65536")


def falling_ring(count: int) -> bytes:
    """A ring in which each message waits for the one of the rank above; each turn of the repeat is three operations."""
    send, receive = b"send -1 x\n", b"recv +1 x 8\n"
    ring = lambda ranks, one, other: ranks + b"\nfill x 8 1\nrepeat %d\n" % ((count - 1) // 3) + one + other + b"end\n"
    return ring(b"ue 47", send, receive) + ring(b"ue 0-46", receive, send)


def falling_broadcasts(count: int) -> bytes:
    """Broadcasts of each rank in turn, the last one first: a root sends 47 messages, and each other rank receives one and puts
    it into its register, so a rank has 142 operations in each turn of the repeat."""
    turn = b"".join(b"bcast 0 %d x 8\n" % rank for rank in range(47, -1, -1))
    return b"all\nfill x 8 1\nrepeat %d\n" % ((count - 1) // 142) + turn + b"end\n"


def registers(count: int) -> bytes:
    """As many registers of the greatest length."""
    return b"all\n" + b"".join(b"fill r%d 65536 0\n" % number for number in range(count))


def prints(count: int) -> bytes:
    """As many prints of the greatest register."""
    return b"all\nfill x 65536 0\nrepeat %d\nprint x\nend\n" % count


def int_prints(count: int) -> bytes:
    """The same as ints."""
    return b"all\nfill x 65536 0\nrepeat %d\nprint int x\nend\n" % count


def empty_prints(count: int) -> bytes:
    """As many prints of nothing."""
    return b"all\nbytes x -\n" + b"print x\n" * (count - 1)


def short_int_prints(count: int) -> bytes:
    """As many prints of one int."""
    return b"all\nints x -1000000000\n" + b"print int x\n" * (count - 1)


@dataclass(frozen=True)
class Largest:
    """A script of a size that the limits allow: what is counted, how it is made, the size, the most MiB that a run may take, and a small
    size for counts of instructions. Six MiB are the UEs and the chip, the rest is the script, its registers or what is printed."""

    what: str
    make: Callable[[int], bytes]
    size: int
    most: int
    small: int

    @property
    def falls(self) -> bool:
        """Whether one message is under way at a time, so that nearly all turns are vain."""
        return self.make in (falling_ring, falling_broadcasts)


LARGEST = [
    Largest("bytes of statements", statements, 4194304, 48, 200000),
    Largest("operations a rank", operations, 100000, 10, 5000),
    Largest("operations a rank, in a ring of messages", messages, 100000, 10, 400),
    Largest("operations a rank, in a ring of 65536 bytes", long_messages, 300, 20, 10),
    Largest("operations a rank, in a ring that falls", falling_ring, 100000, 10, 100),
    Largest("operations a rank, in broadcasts that fall", falling_broadcasts, 100000, 10, 300),
    Largest("registers of 65536 bytes a rank", registers, 64, 208, 8),
    Largest("prints of 65536 bytes a rank", prints, 16, 64, 4),
    Largest("prints of 65536 bytes a rank, as ints", int_prints, 16, 64, 4),
    Largest("operations a rank, nearly all prints", empty_prints, 100000, 144, 4000),
    Largest("operations a rank, nearly all prints of an int", short_int_prints, 100000, 160, 4000),
]


def halo(repeats: int) -> str:
    """A halo exchange with an allreduce and a barrier of eight, of 48 UEs."""
    turn = lambda ranks, one, other: f"{ranks}\nrepeat {repeats}\n{one}{other}allreduce 0 sum long total mine\nbarrier 1\nend\n"
    send, receive = "send +1 edge\n", "recv -1 left 256\n"
    return "all\nfill edge 256 17\nrank mine long\nlongs total 0\nsplit 1 div 8\n" + (
        turn("even", send, receive) + turn("odd", receive, send) if repeats else "")


def pair(length: int) -> Callable[[int], str]:
    """Messages of one length from one UE to another."""
    return lambda repeats: f"all\nfill x {length} 1\n" + (
        f"ue 0\nrepeat {repeats}\nsend 1 x\nend\nue 1\nrepeat {repeats}\nrecv 0 y {length}\nend\n" if repeats else "")


def ring(repeats: int) -> str:
    """A ring with messages of 64 KiB."""
    turn = lambda ranks, one, other: f"{ranks}\nrepeat {repeats}\n{one}{other}end\n"
    send, receive = "send +1 x\n", "recv -1 y 65536\n"
    return "all\nfill x 65536 1\n" + (turn("even", send, receive) + turn("odd", receive, send) if repeats else "")


@dataclass(frozen=True)
class Work:
    """A work that an emulator, plain threads and MPI do too: its name there, what it is, how its script is made, how often it is done, of
    how many UEs, the most times of the emulator's time in threads and on one thread; and for counts of instructions, how often it is done
    and what one of it is, of which it has so many."""

    name: str
    what: str
    make: Callable[[int], str]
    repeats: int
    nue: int
    threads: float
    serial: float
    counted: int
    unit: str
    units: int


WORKS = [
    Work("halo", "halo exchange with allreduce and barriers, 20 times, 48 UEs", halo, 20, 48, 1.3, 1.5, 5, "a round of the halo exchange", 1),
    Work("small", "40,000 messages of 8 bytes between 2", pair(8), 40000, 2, 1.3, 1.8, 1000, "a message of 8 bytes", 1),
    Work("large", "100 messages of 64 KiB between 2", pair(65536), 100, 2, 1.3, 1.5, 20, "a byte of messages of 64 KiB", 65536),
    Work("ring", "a ring of 8 with 64 KiB, 50 times", ring, 50, 8, 1.3, 1.5, 5, "a byte of a ring of 8 with 64 KiB", 8 * 65536),
]

PASSES = 9_900  # of 10 operations: a rank may have 100,000, and `end` is one too, each time, but no turn
STATEMENTS = PASSES * 9
_OWN = f"repeat {PASSES}\n" + "bytes x 01\n" * 9 + "end\n"

# each rank has statements of its own alone
ALONE = "all\n" + _OWN
# rank 0 has statements of its own, and the others wait for its messages
WAITING = "ue 0\n" + _OWN + "".join(f"send {rank} x\n" for rank in range(1, 48)) + "ue 1-47\nrecv 0 y 1\n"
# rank 0 has statements of its own, and the others have finished from the start
DONE = "ue 0\n" + _OWN
