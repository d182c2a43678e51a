"""Turns a trace, or a log of calls, into the trace events that Chrome's and Perfetto's viewers open."""
from __future__ import annotations

import json
from collections import defaultdict
from typing import Any, Iterator

from rcce_lib.logs import Call, Log
from trace_lib.calls import Span, calls_of
from trace_lib.clock import times_of
from trace_lib.texts import Trace

TRACE_TIME = "the time is the number of the event in the trace, one microsecond each; nothing was measured"
LOG_TIME = "the time is a count of turns, one microsecond each; nothing was measured"
Object = dict[str, Any]


def _tracks(name: str, time: str, ues: int) -> Iterator[Object]:
    """The names of the run and of its tracks, one a rank."""
    yield {"name": "process_name", "ph": "M", "pid": 0, "args": {"name": f"{name}: {time}"}}
    for rank in range(ues):
        yield {"name": "thread_name", "ph": "M", "pid": 0, "tid": rank, "args": {"name": f"rank {rank}"}}
        yield {"name": "thread_sort_index", "ph": "M", "pid": 0, "tid": rank, "args": {"sort_index": rank}}


def _span(name: str, sort: str, rank: int, begin: int, end: int, args: Object) -> Object:
    """A span of a track, from a time up to another."""
    return {"name": name, "cat": sort, "ph": "X", "pid": 0, "tid": rank, "ts": begin, "dur": end - begin, "args": args}


def _flow(number: int, start: tuple[int, int], end: tuple[int, int]) -> Iterator[Object]:
    """An arrow from a rank's span at a time to another rank's: from the middle of a unit of time, which is in one span of an event."""
    both: Object = {"name": "message", "cat": "message", "pid": 0, "id": number}
    yield {**both, "ph": "s", "tid": start[0], "ts": start[1] + 0.5}
    yield {**both, "ph": "f", "bp": "e", "tid": end[0], "ts": end[1] + 0.5}


def of_trace(trace: Trace, with_events: bool) -> Iterator[Object]:
    """A trace as trace events: a track a rank, a span a call, arrows from each chunk's raise to its take; and the events within."""
    yield from _tracks(trace.name, TRACE_TIME, trace.setup.ues)
    calls = calls_of(trace)
    for spans in calls:
        for number, span in enumerate(spans, 1):
            yield _span(str(span), "call", span.rank, span.first, span.last + 1, _call_args(trace, span, number))
    if with_events:
        for number, event in enumerate(trace.events):
            args: Object = {"line": event.at, "place": event.place, "value": f"{event.value:016x}"}
            yield _span(f"{event.access} {event.role}", "event", event.rank, number, number + 1, args)
    for number, (start, end) in enumerate(chunks_of(calls)):
        yield from _flow(number, start, end)


def _call_args(trace: Trace, span: Span, number: int) -> Object:
    """What a viewer tells of a call beside its name."""
    lines: Object = {"call": number, "first line": trace.events[span.first].at, "last line": trace.events[span.last].at}
    return {**lines, "bytes": span.data.hex() or "-"} if span.head else lines


def chunks_of(calls: list[list[Span]]) -> Iterator[tuple[tuple[int, int], tuple[int, int]]]:
    """Each chunk that was taken: the sender and the event that raised its flag, the receiver and the event that lowered it."""
    raised: dict[tuple[int, int], list[int]] = defaultdict(list)
    lowered: dict[tuple[int, int], list[int]] = defaultdict(list)
    for rank, spans in enumerate(calls):
        for span in spans:
            pair, ends = ((span.peer, rank), lowered) if span.verb == "recv" else ((rank, span.peer), raised)
            ends[pair] += span.chunks
    for (sender, receiver), numbers in sorted(raised.items()):
        for start, end in zip(numbers, lowered[sender, receiver]):
            # in a trace that is not legal a chunk may be taken before it is there
            if start < end:
                yield (sender, start), (receiver, end)


def of_log(name: str, log: Log) -> Iterator[Object]:
    """A log of calls as trace events: a track a rank, a span a call, arrows from sends to receives."""
    yield from _tracks(name, LOG_TIME, log.ues)
    timed = times_of(log)
    for rank, times in enumerate(timed.times):
        for number, (call, (begin, end)) in enumerate(zip(log.calls[rank], times), 1):
            yield _span(_name(call), "call", rank, begin, end, _log_args(call, number))
    for number, (sender, start, receiver, end) in enumerate(timed.messages):
        yield from _flow(number, (sender, start), (receiver, end))


def _name(call: Call) -> str:
    """The name of a call's span."""
    return f"bar {call.comm}" if call.verb == "bar" else f"{call.verb} {call.peer} {call.head}"


def _log_args(call: Call, number: int) -> Object:
    """What a viewer tells of a call of a log beside its name."""
    place: Object = {"call": number, "line": call.line}
    return place if call.verb == "bar" else {**place, "bytes": call.data}


def text_of(source: str, time: str, events: Iterator[Object]) -> Iterator[str]:
    """The text of a file for the viewers, an event a line."""
    other = json.dumps({"source": source, "time": time})
    yield f'{{"displayTimeUnit": "ns", "otherData": {other}, "traceEvents": [\n'
    before = ""
    for event in events:
        yield f"{before}{json.dumps(event)}"
        before = ",\n"
    yield "\n]}\n"
