"""rcce run: a script over the chip, as rccerun runs it."""
from __future__ import annotations

import sys

from rcce_lib.inputs import Given
from rcce_lib.programs import Programs
from rcce_lib.shown import counted
from rcce_lib.texts import Halt, Head, read_halts, read_printed


def halt_object(halt: Halt) -> dict[str, object]:
    """Where a rank stands, as an object."""
    found: dict[str, object] = {"ue": halt.rank, "line": halt.line, "at": halt.verb, "peer": halt.peer, "communicator": halt.comm}
    found["message"] = halt.head._asdict() if halt.head else None
    found["asked"] = halt.asked._asdict() if halt.asked else None
    return found


def run(programs: Programs, words: list[str], script: Given | None) -> int:
    """Runs rccerun; both its texts go on as they are, but for a message that was refused, which is told by its place in the script."""
    ran = programs.run("rccerun", *words, stream=True)
    for line, halt in zip(ran.err, read_halts(ran.err).values()):
        print(refused(script, halt) if script and halt.verb == "mismatch" else line, file=sys.stderr)
    if ran.status == 3:
        print("rcce: not all UEs finish; rcce why tells why", file=sys.stderr)
    return ran.status


def refused(script: Given, halt: Halt) -> str:
    """The line of a UE that met another message than it asked for."""
    assert halt.head and halt.asked
    if halt.head[:2] == halt.asked[:2]:
        what = f"it has {counted(halt.head.length, 'byte')}, and {halt.asked.length:,} are asked for"
    else:
        what = f"it has {_in_words(halt.head)}, and {_in_words(halt.asked)} are asked for"
    return f"{script.place(halt.line)}: ue {halt.rank} refused a message of ue {halt.peer}: {script.statement(halt.line)}: {what}"


def _in_words(head: Head) -> str:
    """A message by its kind, communicator and length."""
    return f"{counted(head.length, 'byte')} of the kind {head.kind} in communicator {head.comm}"


def run_object(programs: Programs, words: list[str], script: str | None, ues: int) -> dict[str, object]:
    """The same, as an object."""
    ran = programs.run("rccerun", *words)
    halts = read_halts(ran.err)
    return {
        "command": "run",
        "script": script,
        "ues": ues,
        "status": ran.status,
        "printed": read_printed(ran.out),
        "unfinished": [halt_object(halt) for halt in halts.values()],
    }
