"""rcce log and rcce audit: the log of a run, and why a log is not legal."""
from __future__ import annotations

from typing import Any

from rcce_lib.inputs import Given, Scratch
from rcce_lib.kinds import LOG
from rcce_lib.logs import Call, Log, differ, read_log
from rcce_lib.programs import Programs
from rcce_lib.shown import Paint, ues
from rcce_lib.texts import VERDICT, strange


def log_object(script: str, text: str, status: int) -> dict[str, Any]:
    """A log as an object."""
    log = read_log(text)
    splits = [{"communicator": comm, "parent": it[0], "by": it[1], "parts": it[2]} for comm, it in sorted(log.splits.items())]
    calls = [[_object(call) for call in of_rank] for of_rank in log.calls]
    return {"command": "log", "script": script, "ues": log.ues, "status": status, "splits": splits, "calls": calls}


def _object(call: Call) -> dict[str, Any]:
    """A call as an object."""
    if call.verb == "bar":
        return {"call": "bar", "line": call.line, "communicator": call.comm}
    head = call.head
    found = {"call": call.verb, "line": call.line, "peer": call.peer, "kind": head.kind, "communicator": head.comm}
    return {**found, "length": head.length, "hex": call.data}


def audit(programs: Programs, scratch: Scratch, given: Given) -> dict[str, Any]:
    """The verdict on a log; where it is not legal, the call and its counterpart."""
    programs.files[given.path] = given.name, LOG
    said = verdict_of(programs, given.path)
    found: dict[str, Any] = {"command": "audit", "log": given.name, "status": 0 if said is None else 3, "legal": said is None, "verdict": "legal"}
    found.update(ue=None, call=None, line=None, text=None, reason=None, counterpart=None, standing=[])
    if said is None:
        return found
    log = read_log(given.data.decode("ascii"))
    standing = _standing(programs, scratch, given, log, said)
    rank, number = said
    call = log.calls[rank][number - 1]
    reason, others = _reason(log, standing, rank, number)
    found.update(verdict=f"not legal: ue {rank} call {number}", ue=rank, call=number, line=call.line, text=call.text, reason=reason)
    found["counterpart"] = [{"line": it.line, "text": it.text} for it in others]
    stand = [(k, at, log.calls[k][at - 1]) for k, at in sorted(standing.items())]
    found["standing"] = [{"ue": k, "call": at, "line": it.line, "text": it.text} for k, at, it in stand]
    return found


def verdict_of(programs: Programs, path: str) -> tuple[int, int] | None:
    """What rcceaudit says of a log: the rank and the number of its call, where it is not legal."""
    ran = programs.run("rcceaudit", path)
    line = ran.out.removesuffix("\n")
    if (line, ran.status) == ("legal", 0):
        return None
    if not (said := VERDICT.fullmatch(line)) or ran.status != 3:
        raise strange("rcceaudit", line)
    return int(said[1]), int(said[2])


def _standing(programs: Programs, scratch: Scratch, given: Given, log: Log, said: tuple[int, int] | None) -> dict[int, int]:
    """Where each rank stands that has calls left: rcceaudit names the lowest, and is asked again without that one's calls left."""
    lines = given.data.split(b"\n")
    standing: dict[int, int] = {}
    while said:
        rank, number = said
        if rank in standing or rank >= log.ues or not 1 <= number <= len(log.calls[rank]):
            raise differ("rcceaudit's verdicts on parts of one log")
        standing[rank] = number
        left = {call.line - 1 for k, at in standing.items() for call in log.calls[k][at - 1 :]}
        said = verdict_of(programs, scratch.put(b"\n".join(line for k, line in enumerate(lines) if k not in left)))
    return standing


def _reason(log: Log, standing: dict[int, int], rank: int, number: int) -> tuple[str, list[Call]]:
    """Why a rank does not get over its call, and the calls that it does not meet."""
    call = log.calls[rank][number - 1]
    if call.verb == "bar":
        return _barrier_reason(log, standing, rank, call)
    if call.verb != "recv" and (held := _held(log, standing, rank, call)):
        taker = _counterpart(log, rank, held)
        where = f"which ue {held.peer} has not taken" if taker else f"for which ue {held.peer} has no receive"
        return f"the slot of ue {rank} holds the post of line {held.line}, {where}", [taker] if taker else []
    other = _counterpart(log, rank, call)
    verb, way = ("send or post", "to") if call.verb == "recv" else ("receive", "from")
    if other is None:
        return f"ue {call.peer} has no {verb} {way} ue {rank} for it", []
    if other.head != call.head:
        return f"the {verb} of ue {call.peer} that is its counterpart has {other.head}, and not {call.head}", [other]
    if other.data != call.data:
        at = next(k for k in range(0, len(call.data), 2) if call.data[k : k + 2] != other.data[k : k + 2]) // 2
        return f"the {verb} of ue {call.peer} that is its counterpart has other bytes, from byte {at} on", [other]
    return _order_reason(log, standing, call, other)


def _order_reason(log: Log, standing: dict[int, int], call: Call, other: Call) -> tuple[str, list[Call]]:
    """Why a call does not meet its counterpart, which is as it should be: the peer has not come to it, or not got over it."""
    peer = call.peer
    if _passed(log, standing, peer, other):
        raise differ(f"rcceaudit's verdict and the call of line {call.line}")
    stands = log.calls[peer][standing[peer] - 1]
    if stands != other:
        return f"its counterpart is line {other.line}, but ue {peer} stands before it, at line {stands.line}", [other, stands]
    held = _held(log, standing, peer, other) if call.verb == "recv" else None
    if held is None:
        raise differ(f"rcceaudit's verdict and the call of line {call.line}")
    return f"its counterpart is line {other.line}, but the slot of ue {peer} holds the post of line {held.line}", [other, held]


def _held(log: Log, standing: dict[int, int], rank: int, call: Call) -> Call | None:
    """The post in a rank's slot when it stands at a call: its last message before, if that is a post that was not taken."""
    before = [it for it in log.calls[rank] if it.verb in ("send", "post") and it.line < call.line]
    if not before or before[-1].verb != "post":
        return None
    taker = _counterpart(log, rank, before[-1])
    taken = taker is not None and _passed(log, standing, before[-1].peer, taker)
    return None if taken else before[-1]


def _counterpart(log: Log, rank: int, call: Call) -> Call | None:
    """The call of the peer that has the same place among the messages from one rank to the other."""
    ways = (("recv",), ("send", "post"))
    here, there = ways if call.verb == "recv" else ways[::-1]
    place = sum(it.verb in here and it.peer == call.peer and it.line < call.line for it in log.calls[rank])
    facing = [it for it in log.calls[call.peer] if it.verb in there and it.peer == rank]
    return facing[place] if place < len(facing) else None


def _passed(log: Log, standing: dict[int, int], rank: int, call: Call) -> bool:
    """Whether a rank has got over a call."""
    return rank not in standing or call.line < log.calls[rank][standing[rank] - 1].line


def _barrier_reason(log: Log, standing: dict[int, int], rank: int, call: Call) -> tuple[str, list[Call]]:
    """Which members of a group do not stand at its barrier, and where they stand."""
    stand = {k: log.calls[k][standing[k] - 1] if k in standing else None for k in log.members(call.comm, rank)}
    away = {k: it for k, it in stand.items() if it is None or (it.verb, it.comm) != ("bar", call.comm)}
    if not away:
        raise differ(f"rcceaudit's verdict and the barrier of line {call.line}")
    ended, elsewhere = [k for k, it in away.items() if it is None], [k for k, it in away.items() if it]
    parts = [f"{ues(ended)} {'has' if len(ended) == 1 else 'have'} no call left"] * bool(ended)
    parts += [f"{ues(elsewhere)} {'stands' if len(elsewhere) == 1 else 'stand'} at another call"] * bool(elsewhere)
    return f"not at this barrier: {', and '.join(parts)}", [it for it in away.values() if it]


def text_of(found: dict[str, Any], paint: Paint) -> str:
    """The verdict as text."""
    if found["legal"]:
        return paint("good", f"{found['log']}: legal")
    lines = [paint("bad", f"{found['log']}:{found['line']}: {found['verdict']}: {_short(found['text'])}"), f"  {found['reason']}"]
    lines += [f"  {found['log']}:{it['line']}: {_short(it['text'])}" for it in found["counterpart"]]
    others = [it for it in found["standing"] if it["ue"] != found["ue"]]
    if others:
        lines.append("others with calls left:")
        lines += [f"  {found['log']}:{it['line']}: ue {it['ue']} call {it['call']}: {_short(it['text'])}" for it in others]
    return "\n".join(lines)


def _short(text: str) -> str:
    """A line of a log without most of its bytes."""
    return text if len(text) <= 72 else f"{text[:68]}..."
