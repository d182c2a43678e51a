"""Joins what several programs tell of one run of a script, and checks that they agree."""
from __future__ import annotations

from collections import defaultdict
from dataclasses import dataclass

from rcce_lib.inputs import Given
from rcce_lib.kinds import SCRIPT
from rcce_lib.logs import Log, differ, read_log
from rcce_lib.programs import Programs
from rcce_lib.stops import Refused
from rcce_lib.texts import Halt, Head, Message, Trouble, read_check, read_halts


@dataclass
class Told:
    """A script with its number of UEs, and what rccecheck tells of it; more programs are asked as need comes."""

    programs: Programs
    script: Given
    ues: int
    messages: list[Message]
    troubles: dict[int, Trouble]
    status: int

    def halts(self) -> dict[int, Halt]:
        """Where ranks stand, by rccerun on one thread, which is to agree with rccecheck."""
        ran = self.programs.run("rccerun", "-nue", str(self.ues), "-serial", "1", self.script.path)
        halts = read_halts(ran.err)
        if ran.status != self.status or sorted(halts) != sorted(self.troubles):
            raise differ("rccerun and rccecheck name other UEs that have not finished")
        for rank, halt in halts.items():
            trouble = self.troubles[rank]
            same = (halt.verb == "mismatch") == (not trouble.cause)
            if halt.verb in ("recv", "mismatch"):
                same = same and halt.peer == trouble.other
            if not same:
                raise differ(f"rccerun and rccecheck on ue {rank}")
        return halts

    def log(self) -> Log | None:
        """The log of the calls, by rcceaudit, which is to agree with rccecheck; none where the run is too long for one."""
        try:
            ran = self.programs.run("rcceaudit", "-log", "-nue", str(self.ues), self.script.path)
        except Refused as refused:
            if (refused.fault.line, refused.fault.kind) == (0, "TooLong"):
                return None
            raise
        log = read_log(ran.out)
        if ran.status != self.status or log.ues != self.ues:
            raise differ("rcceaudit and rccecheck on how the run ends")
        check_messages(log, self.messages)
        return log


def ask(programs: Programs, script: Given, ues: int) -> Told:
    """Asks rccecheck of a script."""
    programs.files[script.path] = script.name, SCRIPT
    ran = programs.run("rccecheck", "-nue", str(ues), script.path)
    messages, troubles = read_check(ran.out)
    if (ran.status == 3) != bool(troubles):
        raise differ("rccecheck's status and its lines")
    return Told(programs, script, ues, messages, troubles, ran.status)


def check_messages(log: Log, messages: list[Message]) -> None:
    """The messages of each pair are those that the log has as received, in order."""
    told: dict[tuple[int, int], list[Head]] = defaultdict(list)
    logged: dict[tuple[int, int], list[Head]] = defaultdict(list)
    for message in messages:
        told[message.sender, message.receiver].append(message.head)
    for rank, calls in enumerate(log.calls):
        for call in calls:
            if call.verb == "recv":
                logged[call.peer, rank].append(call.head)
    if told != logged:
        pair = next(it for it in sorted({*told, *logged}) if told.get(it) != logged.get(it))
        raise differ(f"rcceaudit and rccecheck on the messages from ue {pair[0]} to ue {pair[1]}")
