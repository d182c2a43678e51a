"""rcce why: the verdict on a script that does not finish, and what stands behind it."""
from __future__ import annotations

from typing import Any

from rcce_lib.joined import Told
from rcce_lib.logs import Log, differ
from rcce_lib.shown import Paint, counted, ues
from rcce_lib.texts import Halt

HELP = {
    "ring of sends": "let one of the ring receive before it sends, or let it post instead of sending",
    "ring of receives": "let one of the ring send before it receives",
    "ring": "change the order of the calls of one of the ring",
    "send": "add the receive that is missing at ue {root}, or leave out what is sent to it",
    "recv": "add the send that is missing at ue {root}, or leave out the receive",
    "barrier": "add the barrier that is missing at ue {root}, or leave it out at the others",
    "mismatch": "receive what is sent, by the same kind of call and with the same length",
}


def explain(told: Told) -> dict[str, object]:
    """The verdict and its causes, as an object."""
    found: dict[str, object] = {
        "command": "why",
        "script": told.script.name,
        "ues": told.ues,
        "status": told.status,
        "messages": len(told.messages),
        "verdict": f"all {told.ues} UEs finish" if told.ues > 1 else "the one UE finishes",
        "causes": [],
        "logged": True,
    }
    if not told.troubles:
        return found
    halts, log = told.halts(), told.log()
    found["logged"] = log is not None
    roots = sorted({(it.cause or "mismatch", it.root) for it in told.troubles.values()}, key=lambda it: (it[1], it[0]))
    causes = [_cause(told, halts, log, *root) for root in roots]
    found["causes"] = causes
    number = len(told.troubles)
    stay = f"{number} of {counted(told.ues, 'UE')} {'does' if number == 1 else 'do'} not finish"
    found["verdict"] = f"{stay}: {causes[0]['says']}" if len(causes) == 1 else f"{stay}, for {len(causes)} causes"
    return found


def _cause(told: Told, halts: dict[int, Halt], log: Log | None, cause: str, root: int) -> dict[str, object]:
    """A cause, with the ranks that it stops: those of the ring first, else by rank."""
    ranks = [it.rank for it in told.troubles.values() if (it.cause or "mismatch", it.root) == (cause, root)]
    ring = _ring(told, root) if cause == "cycle" else []
    first = ring or [rank for rank in ranks if not told.troubles[rank].cause]
    order = first + [rank for rank in ranks if rank not in first]
    if cause == "cycle":
        says = "a ring, " + " -> ".join(map(str, ring + ring[:1])) + ", in which each waits for the next"
    elif cause == "finished":
        says = f"ue {root} has finished, and is waited for"
    else:
        says = f"ue {root} refused a message of ue {told.troubles[root].other}"
    return {
        "cause": cause,
        "root": root,
        "ring": ring,
        "says": says,
        "waiting": [_rank(told, halts, log, rank) for rank in order],
        "help": HELP[_remedy(told, halts, cause, root, ring)].format(root=root),
    }


def _ring(told: Told, root: int) -> list[int]:
    """The ranks of a ring, from its least one on."""
    ring, rank = [root], told.troubles[root].other
    while rank != root:
        if rank in ring or rank not in told.troubles or (told.troubles[rank].cause, told.troubles[rank].root) != ("cycle", root):
            raise differ(f"rccecheck's lines tell no ring of ue {root}")
        ring.append(rank)
        rank = told.troubles[rank].other
    if root != min(ring):
        raise differ(f"rccecheck's lines tell no ring of ue {root}")
    return ring


def _remedy(told: Told, halts: dict[int, Halt], cause: str, root: int, ring: list[int]) -> str:
    """Which line of help a cause has."""
    if cause == "mismatch":
        return cause
    if cause == "cycle":
        verbs = {halts[rank].verb for rank in ring}
        return "ring of sends" if verbs == {"send"} else "ring of receives" if verbs == {"recv"} else "ring"
    nearest = [rank for rank, it in sorted(told.troubles.items()) if it.other == root]
    if not nearest:
        raise differ(f"nobody waits for ue {root}, which has finished")
    verb = halts[nearest[0]].verb
    return "send" if verb == "post" else verb


def _rank(told: Told, halts: dict[int, Halt], log: Log | None, rank: int) -> dict[str, object]:
    """A rank that has not finished: its place, its statement and whom it waits for."""
    halt, trouble = halts[rank], told.troubles[rank]
    found: dict[str, object] = {
        "ue": rank,
        "file": told.script.name,
        "line": halt.line,
        "statement": told.script.statement(halt.line),
        "at": halt.verb,
        "waits_for": trouble.other if trouble.cause else None,
        "communicator": halt.comm,
        "absent": None,
        "slot": None,
        "sent": str(halt.head) if halt.verb == "mismatch" else None,
        "asked": str(halt.asked) if halt.verb == "mismatch" else None,
    }
    if halt.verb == "barrier":
        found["absent"] = _absent(told, halts, log, halt, trouble.other)
    elif halt.verb in ("send", "post"):
        found["slot"] = _slot(log, halt, trouble.other)
    return found


def _absent(told: Told, halts: dict[int, Halt], log: Log | None, halt: Halt, lowest: int) -> list[int] | None:
    """The members of a rank's group that have not come to its barrier; none are told where the log is wanting."""
    if halt.comm and log is None:
        return None
    members = log.members(halt.comm, halt.rank) if log and halt.comm else list(range(told.ues))
    absent = [k for k in members if k not in halts or (halts[k].verb, halts[k].comm) != ("barrier", halt.comm)]
    if not absent or absent[0] != lowest:
        raise differ(f"rccerun, rcceaudit and rccecheck on who is not at the barrier of ue {halt.rank}")
    return absent


def _slot(log: Log | None, halt: Halt, other: int) -> dict[str, object] | None:
    """The posted message that a rank's slot holds."""
    if log is None:
        return None
    held = log.posted(halt.rank)
    if other != (held.peer if held else halt.peer) or (halt.verb == "post" and not held):
        raise differ(f"rccerun, rcceaudit and rccecheck on the posted message of ue {halt.rank}")
    return {"to": held.peer, "bytes": held.head.length, "hex": held.data} if held else None


def text_of(found: dict[str, Any], paint: Paint) -> str:
    """The explanation as text."""
    causes = found["causes"]
    lines = [paint("bad" if causes else "good", f"{found['script']}: {found['verdict']}")]
    for number, cause in enumerate(causes, 1):
        if len(causes) > 1:
            lines.append(paint("strong", f"cause {number}: {cause['says']}"))
        for rank in cause["waiting"]:
            lines += _lines_of(rank, cause["ring"])
        lines.append(f"  help: {cause['help']}")
    if not found["logged"]:
        lines.append("the run is too long for a log, so posts in slots and members of groups are not told")
    return "\n".join(lines)


def _lines_of(rank: dict[str, Any], ring: list[int]) -> list[str]:
    """The lines of a rank that has not finished."""
    where = f"  {rank['file']}:{rank['line']}: ue {rank['ue']}"
    if rank["at"] == "mismatch":
        return [f"{where} refused a message: {rank['statement']}", f"      sent {rank['sent']}, asked {rank['asked']}"]
    leads = "" if not ring or rank["ue"] in ring else ", outside the ring"
    lines = [f"{where} waits for ue {rank['waits_for']}{leads}: {rank['statement']}"]
    if rank["absent"]:
        lines.append(f"      not at barrier {rank['communicator']}: {ues(rank['absent'])}")
    if slot := rank["slot"]:
        lines.append(f"      its slot holds a post to ue {slot['to']} of {counted(slot['bytes'], 'byte')} that was not taken")
    return lines
