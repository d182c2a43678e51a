"""The words of the commands trace and page, and how they end."""
from __future__ import annotations

import argparse
import os
import re
import sys
import traceback
from typing import Callable, Iterator

from rcce_lib.auditing import verdict_of
from rcce_lib.inputs import Given, Scratch, read
from rcce_lib.kinds import LOG
from rcce_lib.logs import read_log
from rcce_lib.progress import Progress
from rcce_lib.programs import Programs, version
from rcce_lib.stops import OWN_FAILURE, Fault, Refused, Stop
from rcce_lib.words import Parser
from trace_lib import pages, trace_pages, viewers
from trace_lib.labs import Lab
from trace_lib.texts import read_trace

ENDS = """FILE - is standard input. A fault is told as FILE:LINE: KIND: what is wrong. Status: 0 all is well; 2 the file is refused, or
wrong words; 3 a log is not legal; 5 the file is absent or can't be read; 6 a write failed; 70 the command itself failed, or a program
that it asks is not there; 127 python3, or rt where a program is not built, is missing; 130 it was interrupted."""
TRACE = """Writes a trace of accesses (docs/TRACE.md), or a log of calls (docs/LOGS.md), as the JSON of trace events that chrome://tracing and
ui.perfetto.dev open: a track a rank, a span a call from its first event to its last, an arrow from each chunk's raise to its take, and
in the spans of a trace its events. The time is a count, one microsecond each, and no measured time: in a trace the number of the event,
in a log the turn in which a call can be made. That a log is legal, rcceaudit tells; a trace is not judged, and what no record permits
belongs to no call."""

PAGE = """Writes a page that plays a trace (docs/TRACE.md), or what rccelab prints of a lab (docs/LAB.md), step by step: the words of the buffers
in use, what each core holds, the mesh, and a lane a rank with an arrow for each message. The page is one file and needs no network, and
goes by keys, by its slider or by its buttons; behind its name #last or a number names the step at which it opens. A trace tells the
shared words alone; of a lab old copies and words that wait in a write-combining buffer are marked."""
TRACE_PAGE = "A trace of accesses to shared words, an event a step."
LAB_PAGE = "A lab of raw accesses, a line a step."
# a lab itself: below comments its first line names a core, or the version
LAB = re.compile(rb"(?:[ \t\r]*(?:#[^\n]*)?\n)*[ \t\r]*(?:core|rcce[ \t]+lab)[ \t]")
NOT_RUN = "what rccelab prints of this lab: rccelab LAB > OUT 2>&1, and then page OUT"
NEITHER = ("a trace, whose first line begins with rcce trace, or what rccelab prints of a lab: line N: STEP, "
           "and below it its accesses and answers")


def trace(argv: list[str]) -> int:
    """The command trace."""
    parser = _parser("trace", TRACE, "the trace or the log")
    parser.add_argument("--calls", action="store_true", help="of a trace the calls alone, without their events")
    return _command(parser.parse_args(argv), _viewer_text)


def _viewer_text(words: argparse.Namespace, given: Given, programs: Programs) -> Iterator[str]:
    """The text for the viewers."""
    if not given.data.startswith(b"rcce log"):
        events = viewers.of_trace(read_trace(given.name, given.data), not words.calls)
        return viewers.text_of(given.name, viewers.TRACE_TIME, events)
    programs.files[given.path] = given.name, LOG
    if said := verdict_of(programs, given.path):
        raise Stop(f"{given.name}: not legal: ue {said[0]} call {said[1]} (rcce audit tells why)", 3)
    return viewers.text_of(given.name, viewers.LOG_TIME, viewers.of_log(given.name, read_log(given.data.decode("ascii"))))


def page(argv: list[str]) -> int:
    """The command page."""
    parser = _parser("page", PAGE, "the trace, or the output of a lab")
    parser.add_argument("--from", metavar="LINE", dest="first", type=int, default=0,
                        help="the first line of the trace, or of the lab, that is shown")
    parser.add_argument("--to", metavar="LINE", dest="last", type=int, help="and the last one")
    return _command(parser.parse_args(argv), _page_text)


def _page_text(words: argparse.Namespace, given: Given, programs: Programs) -> Iterator[str]:
    """The text of a page."""
    if given.data.startswith(b"line "):
        return pages.page_of(given.name, LAB_PAGE, pages.of_lab(Lab(given.name, given.data), words.first, words.last))
    if not given.data.startswith(b"rcce trace"):
        is_lab = LAB.match(given.data) is not None
        raise Refused(Fault(given.name, 1, "NotRun" if is_lab else "Neither", NOT_RUN if is_lab else NEITHER))
    return pages.page_of(given.name, TRACE_PAGE, trace_pages.of_trace(read_trace(given.name, given.data), words.first, words.last))


def _parser(name: str, about: str, what: str) -> Parser:
    """The parser of a command, with the words that both have."""
    called = os.path.basename(sys.argv[0])
    # installed they have longer names
    name = called if called == f"rcce-{name}" else name
    parser = Parser(name, description=about, epilog=ENDS, allow_abbrev=False)
    parser.add_argument("--version", action="version", version=f"{name} {version()}")
    parser.add_argument("-o", metavar="FILE", help="the file that is written, if not standard output")
    parser.add_argument("file", metavar="FILE", help=f"{what}, or - for standard input")
    return parser


def _command(words: argparse.Namespace, text_of: Callable[[argparse.Namespace, Given, Programs], Iterator[str]]) -> int:
    """Reads the file and writes what is made of it, and gives the status."""
    scratch = Scratch()
    try:
        text = text_of(words, read(words.file, scratch), Programs(Progress(True)))
        write_text(words.o, text)
        return 0
    except Stop as stop:
        if stop.line:
            print("\n".join([stop.line, *stop.below]), file=sys.stderr)
        return stop.status
    except KeyboardInterrupt:
        return 130
    except Exception:
        traceback.print_exc()
        return OWN_FAILURE
    finally:
        scratch.close()


def write_text(name: str | None, text: Iterator[str]) -> None:
    """Writes a text to the file of that name, or to standard output."""
    pieces = iter(text)
    # what may refuse the file does so before anything is written
    first = next(pieces)
    try:
        with open(name, "w", encoding="utf-8") if name else sys.stdout as file:
            file.write(first)
            file.writelines(pieces)
    except OSError as error:
        # what is still held back would fail again when the interpreter ends
        os.dup2(os.open(os.devnull, os.O_WRONLY), 1)
        told = "" if isinstance(error, BrokenPipeError) else f"{name or 'standard output'}: {error.strerror}"
        raise Stop(told, 6) from error
