"""Checks the command trace: its output keeps the rules of the format of trace events, and has the calls of the run, whole and in order."""
from __future__ import annotations

import json
import subprocess
import tempfile
from collections import Counter, defaultdict
from typing import Any

from rcce_lib.logs import Log, read_log
from tests.model import trace_of
from trace_lib.words import BITS, WORDS, Setup

# the fields of each phase, and those that an event may have besides
FIELDS = {
    "M": {"name", "ph", "pid", "args"},
    "X": {"name", "cat", "ph", "pid", "tid", "ts", "dur", "args"},
    "s": {"name", "cat", "ph", "pid", "tid", "ts", "id"},
    "f": {"name", "cat", "ph", "pid", "tid", "ts", "id", "bp"},
}
METADATA = {"process_name": "name", "thread_name": "name", "thread_sort_index": "sort_index"}
# whole runs, each with its splits, its hosts and the calls of its ranks, as a log of calls has them
RUNS: list[tuple[dict[int, tuple[int, str, int]], list[int], str]] = [
    ({}, [0, 1], "0 send 1 plain 0 4 01020304|1 recv 0 plain 0 4 01020304"),
    ({}, [3, 47], "0 send 1 plain 0 0 -|0 recv 1 plain 0 1 ff|1 recv 0 plain 0 0 -|1 send 0 plain 0 1 ff"),
    ({}, [5], "0 bar 0|0 bar 0"),
    ({}, [2, 1, 0], "0 bar 0|0 send 2 bcast 0 2 aabb|0 bar 0|1 bar 0|1 bar 0|2 bar 0|2 recv 0 bcast 0 2 aabb|2 bar 0"),
    ({1: (0, "mod", 2), 9: (1, "div", 1)}, [0, 1, 2, 3],
     "0 bar 0|0 bar 1|0 bar 9|0 bar 1|1 bar 0|1 bar 1|1 bar 1|2 bar 0|2 bar 1|2 bar 1|3 bar 0|3 bar 1|3 bar 9|3 bar 1"),
    ({}, [0, 1, 2], "0 post 1 plain 0 2 0102|0 bar 0|0 send 2 plain 0 1 03|1 bar 0|1 recv 0 plain 0 2 0102|2 bar 0|2 recv 0 plain 0 1 03"),
    ({}, [0, 1], f"0 post 1 plain 0 9 {'07' * 9}|0 post 1 plain 0 1 08|1 recv 0 plain 0 9 {'07' * 9}|1 recv 0 plain 0 1 08"),
    ({}, [0, 1], f"0 send 1 plain 0 7200 {'5a' * 7200}|0 recv 1 plain 0 3584 {'a5' * 3584}|1 recv 0 plain 0 7200 {'5a' * 7200}|1 send 0 plain 0 3584 {'a5' * 3584}"),
]
Object = dict[str, Any]


def format_faults(text: str) -> list[str]:
    """What of a file for viewers is against the rules of its format."""
    found = json.loads(text, parse_constant=lambda word: word)
    events = found.get("traceEvents")
    if not isinstance(events, list) or found.get("displayTimeUnit") not in ("ms", "ns"):
        return ["no list traceEvents, or no unit of time"]
    wrong = [fault for event in events for fault in _event_faults(event)]
    return wrong or _track_faults(events) + _flow_faults(events)


def _event_faults(event: Object) -> list[str]:
    """What is wrong with an event by itself."""
    phase = event.get("ph")
    fields = FIELDS.get(str(phase), set())
    if phase == "M" and event.get("name") != "process_name":
        fields = fields | {"tid"}
    wrong = [] if set(event) == fields else [f"the fields of {event}"]
    numbers = [it for it in ("pid", "tid", "ts", "dur", "id") if it in event and not (type(event[it]) in (int, float) and event[it] >= (it == "dur"))]
    wrong += [f"{it} of {event}" for it in numbers]
    wrong += [f"{it} of {event}" for it in ("name", "cat") if not isinstance(event.get(it, ""), str) or event.get(it) == ""]
    if phase == "M" and not wrong and list(event["args"]) != [METADATA.get(event["name"])]:
        wrong.append(f"the arguments of {event}")
    return wrong + (["the end of an arrow is not in its span"] if event.get("bp", "e") != "e" else [])


def _track_faults(events: list[Object]) -> list[str]:
    """Tracks without one name, and spans of a track that overlap without one being in the other."""
    names = Counter((it["pid"], it["tid"]) for it in events if it["name"] == "thread_name" and it["ph"] == "M")
    wrong = [f"{count} names of track {track}" for track, count in names.items() if count != 1]
    wrong += [f"no track of {it}" for it in events if "tid" in it and (it["pid"], it["tid"]) not in names]
    tracks: dict[tuple[int, int], list[tuple[int, int]]] = defaultdict(list)
    for it in events:
        if it["ph"] == "X":
            tracks[it["pid"], it["tid"]].append((it["ts"], -it["dur"]))
    for track, spans in tracks.items():
        open_until: list[int] = []
        for begin, length in sorted(spans):
            while open_until and open_until[-1] <= begin:
                open_until.pop()
            if open_until and begin - length > open_until[-1]:
                wrong.append(f"spans of track {track} overlap at {begin}")
            open_until.append(begin - length)
    return wrong


def _flow_faults(events: list[Object]) -> list[str]:
    """Arrows that have not one start and one end, of one name, in this order, each within a span of a call."""
    starts, ends = ({it["id"]: it for it in events if it["ph"] == phase} for phase in ("s", "f"))
    wrong = [] if len(starts) + len(ends) == sum(it["ph"] in ("s", "f") for it in events) else ["an arrow has two starts or ends"]
    wrong += [f"half an arrow: {number}" for number in starts.keys() ^ ends.keys()]
    ticks = {(it["tid"], it["ts"]): it["name"] for it in events if it["ph"] == "X" and it["cat"] == "event"}
    calls = [it for it in events if it["ph"] == "X" and it["cat"] == "call"]
    for number in starts.keys() & ends.keys():
        one, two = starts[number], ends[number]
        if one["ts"] > two["ts"] or (one["name"], one["cat"]) != (two["name"], two["cat"]):
            wrong.append(f"an arrow that goes back: {number}")
        for it in (one, two):
            if not any(call["tid"] == it["tid"] and call["ts"] <= it["ts"] < call["ts"] + call["dur"] for call in calls):
                wrong.append(f"an arrow in no call: {it}")
            if ticks and not ticks.get((it["tid"], it["ts"] - 0.5), "").startswith("store sent "):
                wrong.append(f"an arrow that is not at the store of a flag: {it}")
    return wrong


def check_viewers(called: Any, write: bool) -> tuple[int, list[str]]:
    """Each run, with both layouts and by some seeds, as a trace and as a log: the format's rules, the calls and the arrows."""
    checked, wrong = 0, []
    with tempfile.TemporaryDirectory() as folder:
        for at, (splits, hosts, told) in enumerate(RUNS):
            lines = told.split("|")
            log = f"rcce log {len(hosts)}\n" + "".join(f"comm {comm} {' '.join(map(str, it))}\n" for comm, it in splits.items())
            inputs = {"log": log + "".join(f"{line}\n" for line in lines)}
            for layout in (WORDS, BITS):
                for seed in range(2):
                    inputs[f"{layout} {seed}"] = _modelled(Setup(len(hosts), layout, hosts, splits), lines, seed)
            for name, text in inputs.items():
                with open(f"{folder}/given", "w", encoding="ascii") as file:
                    file.write(text)
                ran: subprocess.CompletedProcess[bytes] = called(["trace", "given"], folder)
                faults = [f"status {ran.returncode}: {ran.stderr!r:.300}"] if ran.returncode else format_faults(ran.stdout.decode())
                faults = faults or _call_faults(ran.stdout.decode(), read_log(inputs["log"]), name)
                checked, wrong = checked + 1, wrong + [f"run {at} of tools/tests/viewers.py, {name}: {it}" for it in faults]
    return checked, wrong


def _modelled(setup: Setup, lines: list[str], seed: int) -> str:
    """The trace of a run that the model makes."""
    calls = [[tuple(line.split()[1:]) for line in lines if line.startswith(f"{rank} ")] for rank in range(setup.ues)]
    return trace_of(setup, [[(*call[:-1], call[-1].replace("-", "")) for call in of_rank] for of_rank in calls], seed)


def _call_faults(text: str, log: Log, name: str) -> list[str]:
    """Where the spans of the calls are not those of the log, whole and in order, or an arrow is missing."""
    events = json.loads(text)["traceEvents"]
    wrong, size = [], 10**9 if name == "log" else 32 * (112 if name.startswith(WORDS) else 207)
    for rank, calls in enumerate(log.calls):
        wanted = [call.text.split(" ", 1)[1] for call in calls]
        spans = sorted((it for it in events if it["ph"] == "X" and it["cat"] == "call" and it["tid"] == rank), key=lambda it: it["ts"])
        made = [f"{it['name']} {it['args']['bytes']}" if "bytes" in it["args"] else it["name"] for it in spans]
        # the wait for a posted message at the end of a script is of no call
        made = made[: len(wanted)] if made[len(wanted) :] == ["looks, in no call yet"] else made
        wrong += [] if made == wanted else [f"the calls of rank {rank} are {made!r:.300}"]
    taken = sum(max(1, -(-call.head.length // size)) for calls in log.calls for call in calls if call.verb == "recv")
    arrows = sum(it["ph"] == "f" for it in events)
    return wrong + ([] if arrows == taken else [f"{arrows} arrows for {taken} chunks"])
