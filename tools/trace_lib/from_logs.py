"""Makes a trace of logs of physical accesses: each is read by a map of addresses, and the accesses of all cores are put into one order."""
from __future__ import annotations

import argparse
import os
import sys
import traceback
from collections import deque
from itertools import groupby
from typing import Iterator, NamedTuple

from rcce_lib.inputs import Scratch, read
from rcce_lib.marks import Word, text_of, words_of
from rcce_lib.programs import version
from rcce_lib.shown import counted
from rcce_lib.stops import OWN_FAILURE, Stop
from rcce_lib.words import Parser
from trace_lib.addresses import WORD_BYTES, LINE_BYTES, Map, Range, Wrong, number, read_map, refuse
from trace_lib.commands import write_text
from trace_lib.texts import Event
from trace_lib.words import REGISTER

FORM = "TIME CORE ADDRESS SIZE VALUE r|w"
# so many places without a known order are told one by one
MOST_TOLD = 20
UNKNOWN = 3
ABOUT = """Makes a trace of shared accesses (docs/TRACE.md) of logs of physical ones, for rccetrace to judge. A line of a log is TIME CORE ADDRESS SIZE
VALUE r|w: numbers in decimal, or in hex with 0x; SIZE in bytes; VALUE in hex, word by word of 8 bytes with commas between; r or w, or read or
write. MAP has the lines layout words|bits, hosts CORE,CORE,.. (the core of each rank), mpb CORE ADDRESS (where the 8 KiB of a core's buffer begin)
and tas CORE ADDRESS (its test-and-set register), and may have comm COMM PARENT mod|div PARTS, lines CORE LINE COUNT ADDRESS (lines of a buffer that
are elsewhere), clock CORE OFFSET (added to the times of a core) and begin TIME (what is before is left out). Blank lines and what follows a # are
skipped. Accesses at other addresses are left out, and counted."""
ORDER = """The accesses of all logs are put in the order of their times, and those of one core with one time in the order of the logs. Where accesses of
several cores have one time, one that answers what is there comes first, then a store or a free, each time of the core that the logs have first. If
two such accesses are at one word and one of them changes it, the order is not known: both lines are told. An access of several words becomes an
event a word; one that is smaller than a word, or not at its start, is refused, as FILE:LINE: BadAccess. Of a register a read is a take, by bit 0 of its
value, and a write is a free. The comment of an event has the name of its word and the line of its log. All is held in memory. Status: 0 the order
is known; 2 a file is refused, or wrong words; 3 the trace is written, and its order is not known everywhere; 5 a file is absent or can't be read; 6
a write failed; 70 the command itself failed; 127 python3 is missing; 130 it was interrupted."""


class Access(NamedTuple):
    """An event with its time, and the place of its line in a log."""

    time: int
    event: Event
    log: str

    @property
    def place(self) -> str:
        """LOG:LINE."""
        return f"{self.log}:{self.event.at}"

    @property
    def is_change(self) -> bool:
        """Whether it may change its word or its register."""
        return self.event.access != "load"

    def does(self, cores: list[int]) -> str:
        """What it does, as a sentence has it."""
        return f"core {cores[self.event.rank]} {self.event.access}s {self.event.value:x}"


class Logs:
    """The accesses of logs, line by line."""

    def __init__(self, map_: Map) -> None:
        self.map, self.accesses = map_, list[Access]()
        self.strange = 0
        self.first_strange = ""

    def read(self, name: str, data: bytes) -> None:
        """Reads a log."""
        for at, line in enumerate(data.split(b"\n"), 1):
            if not line or line.isspace():
                continue
            text = text_of(line)
            try:
                if words := words_of(text):
                    self._line(name, at, words)
            except Wrong as wrong:
                raise refuse(name, at, "BadAccess", FORM, text, wrong, FORM) from wrong

    def _line(self, name: str, at: int, words: list[Word]) -> None:
        """Reads a line that has words."""
        if len(words) != 6:
            raise Wrong(f"the line has {counted(len(words), 'word')}, and its form 6", words[-1])
        time, core, address = number(words[0], "a time"), number(words[1], "a core"), number(words[2], "an address")
        if words[5].text not in ("r", "w", "read", "write"):
            raise Wrong(f"{words[5].text} is not r or w", words[5])
        time += self.map.clocks.get(core, 0)
        there = self.map.range_of(address)
        if there is None:
            self.strange, self.first_strange = self.strange + 1, self.first_strange or f"{name}:{at}"
        elif self.map.begin is None or time >= self.map.begin:
            if core not in self.map.setup.hosts:
                raise Wrong(f"core {core} has no rank by the map", words[1])
            rank, is_write = self.map.setup.hosts.index(core), words[5].text[0] == "w"
            events = self._word_events if there.line is not None else self._register_events
            self.accesses += [Access(time, event, name) for event in events(at, rank, there, words, address, is_write)]

    def _register_events(self, at: int, rank: int, there: Range, words: list[Word], address: int, is_write: bool) -> Iterator[Event]:
        """The event of an access to a register."""
        value = self._values(words[4], 1)[0]
        yield Event(at, rank, "free" if is_write else "take", there.core, -1, -1, 0 if is_write else value & 1, REGISTER)

    def _word_events(self, at: int, rank: int, there: Range, words: list[Word], address: int, is_write: bool) -> Iterator[Event]:
        """The events of an access to words."""
        size, offset = number(words[3], "a size", LINE_BYTES * 256, 1), address - there.first
        if size % WORD_BYTES:
            what = f"smaller than a word of {WORD_BYTES}" if size < WORD_BYTES else f"no multiple of a word's {WORD_BYTES}"
            raise Wrong(f"an access of {counted(size, 'byte')} is {what}", words[3])
        if offset % WORD_BYTES:
            raise Wrong(f"{words[2].text} is not the start of a word: {offset % WORD_BYTES} bytes after one", words[2])
        if offset + size > there.size:
            raise Wrong(f"{counted(size, 'byte')} from {words[2].text} on go past the lines of core {there.core}", words[3])
        assert there.line is not None
        for k, value in enumerate(self._values(words[4], size // WORD_BYTES), offset // WORD_BYTES):
            line, word = there.line + k // 4, k % 4
            role = self.map.setup.role(there.core, line, word)
            yield Event(at, rank, "store" if is_write else "load", there.core, line, word, value, role)

    @staticmethod
    def _values(word: Word, count: int) -> list[int]:
        """The values of words, as hex digits."""
        parts = word.text.split(",")
        if len(parts) != count:
            raise Wrong(f"{counted(len(parts), 'value')} for {counted(count, 'word')}", word)
        digits = [part[2:] if part[:2] in ("0x", "0X") else part for part in parts]
        if wrong := next((it for it in digits if not 1 <= len(it) <= 16 or not set(it) <= set("0123456789abcdefABCDEF")), None):
            raise Wrong(f"{wrong} is no value of a word: 1 to 16 hex digits are", word)
        if "" in digits:
            raise Wrong("a value has no digits", word)
        return [int(it, 16) for it in digits]


class Merger:
    """Puts accesses into one order, and keeps where that is not known."""

    def __init__(self) -> None:
        self.words: dict[tuple[int, int, int], int] = {}
        self.unknown: list[tuple[Access, Access]] = []

    def merge(self, accesses: list[Access]) -> Iterator[Access]:
        """The accesses in the order of their times."""
        for _, together in groupby(sorted(accesses, key=lambda it: it.time), key=lambda it: it.time):
            group = list(together)
            if any(it.event.rank != group[0].event.rank for it in group):
                group = self._ordered(group)
                self._note_unknown(group)
            else:
                for access in group:
                    self._go(access)
            yield from group

    def _ordered(self, group: list[Access]) -> list[Access]:
        """Accesses of one time: each core's in their order, first what answers what is there, then what changes it."""
        queues: dict[int, deque[Access]] = {}
        for access in group:
            queues.setdefault(access.event.rank, deque()).append(access)
        ordered: list[Access] = []
        while queues:
            heads = [(rank, queue[0]) for rank, queue in queues.items()]
            fitting = [it for it in heads if it[1].event.access in ("load", "take") and self._fits(it[1].event)]
            changing = [it for it in heads if it[1].event.access in ("store", "free")]
            rank, access = (fitting or changing or heads)[0]
            self._go(access)
            ordered.append(queues[rank].popleft())
            if not queues[rank]:
                del queues[rank]
        return ordered

    def _fits(self, event: Event) -> bool:
        """Whether a load or a take answers what is there."""
        there = self.words.get((event.core, event.line, event.word), 0)
        return event.value == (1 - there if event.access == "take" else there)

    def _go(self, access: Access) -> None:
        """The words after an access."""
        event = access.event
        if event.access in ("store", "free") or event.access == "take" and event.value == 1:
            self.words[event.core, event.line, event.word] = event.value

    def _note_unknown(self, group: list[Access]) -> None:
        """Notes the accesses of two cores at one word, one behind the other, of which one changes it."""
        before: dict[tuple[int, int, int], Access] = {}
        for access in group:
            event = access.event
            place = event.core, event.line, event.word
            last = before.get(place)
            if last and last.event.rank != event.rank and (last.is_change or access.is_change):
                self.unknown.append((last, access))
            before[place] = access


def _lines(map_: Map, accesses: Iterator[Access]) -> Iterator[str]:
    """The lines of the trace."""
    setup = map_.setup
    yield f"rcce trace 1 nue {setup.ues} layout {setup.layout} hosts {','.join(map(str, setup.hosts))}\n"
    yield from (f"comm {comm} {parent} {how} {parts}\n" for comm, (parent, how, parts) in setup.splits.items())
    for access in accesses:
        log = "".join(it if " " < it <= "~" else "?" for it in os.path.basename(access.log))[-80:]
        yield f"{access.event}, {log}:{access.event.at}\n"


def _tell(cores: list[int], logs: Logs, unknown: list[tuple[Access, Access]]) -> None:
    """Tells on standard error what is left out, and where the order is not known."""
    if logs.strange:
        left_out = counted(logs.strange, "access", "accesses")
        print(f"trace_from: {left_out} left out, at addresses that the map has not; the first: {logs.first_strange}", file=sys.stderr)
    for first, second in unknown[:MOST_TOLD]:
        event = second.event
        print(f"{second.place}: OrderUnknown: {second.does(cores)} at {event.place} ({event.role}) at time {second.time}", file=sys.stderr)
        print(f"{first.place}: note: {first.does(cores)} there at the same time, and is put before it", file=sys.stderr)
    if len(unknown) > MOST_TOLD:
        print(f"trace_from: and {counted(len(unknown) - MOST_TOLD, 'place')} more where the order is not known", file=sys.stderr)


def trace_from(argv: list[str]) -> int:
    """The command trace_from."""
    called = os.path.basename(sys.argv[0])
    name = called if called == "rcce-trace-from" else "trace_from"
    parser = Parser(name, description=ABOUT, epilog=ORDER, allow_abbrev=False)
    parser.add_argument("--version", action="version", version=f"{name} {version()}")
    parser.add_argument("-o", metavar="FILE", help="the file that is written, if not standard output")
    parser.add_argument("map", metavar="MAP", help="the map of addresses")
    parser.add_argument("logs", metavar="LOG", nargs="+", help="the logs: one of all cores, or one a core; - for standard input")
    words, scratch = parser.parse_args(argv), Scratch()
    try:
        return _make(words, scratch)
    except Stop as stop:
        if stop.line:
            print("\n".join([stop.line, *stop.below]), file=sys.stderr)
        return stop.status
    except KeyboardInterrupt:
        return 130
    except Exception:
        traceback.print_exc()
        return OWN_FAILURE
    finally:
        scratch.close()


def _make(words: argparse.Namespace, scratch: Scratch) -> int:
    """Reads the files, and writes the trace."""
    given = read(words.map, scratch)
    map_ = read_map(given.name, given.data)
    logs, merger = Logs(map_), Merger()
    for log in words.logs:
        it = read(log, scratch)
        logs.read(it.name, it.data)
    write_text(words.o, _lines(map_, merger.merge(logs.accesses)))
    _tell(map_.setup.hosts, logs, merger.unknown)
    return UNKNOWN if merger.unknown else 0
