"""What is wrong with the line that a program refuses. The program names the file, the line and the kind; here the line is only explained."""
from __future__ import annotations

from dataclasses import dataclass

from rcce_lib.before import before
from rcce_lib.kinds import HOSTS, LAB, LOG, SCRIPT, TRACE, wanted
from rcce_lib.marks import text_of, words_of
from rcce_lib.rules import LIMITS
from rcce_lib.script_faults import SCRIPT_FAULTS, Case, Found
from rcce_lib.stops import Fault
from rcce_lib.text_faults import TEXT_FAULTS, Lines, not_text

MOST_BYTES = {source: LIMITS[f"most_{name}_bytes"] for source, name in ((SCRIPT, "script"), (HOSTS, "host"), (LOG, "log"), (LAB, "lab"), (TRACE, "trace"))}
# the kinds of a script for which the lines before are counted for each rank
BY_RANK = ("RankRange", "NotSplit", "Unset", "Shape", "TooManyOps", "TooLong")


@dataclass(frozen=True)
class Source:
    """A file that is refused: its name, what kind of file it is, its bytes, and for how many UEs it was read."""

    name: str
    kind: str
    data: bytes
    ues: int


def fault_of(source: Source, line: int, kind: str, general: str | None = None) -> Fault:
    """The fault of a line, with what is wrong there; where that is not found out, what is wanted in general."""
    lines = source.data.split(b"\n")
    there = 1 <= line < len(lines) or line == len(lines) and lines[-1] != b""
    text = text_of(lines[line - 1]) if there else None
    try:
        found = _found(source, lines, line, kind)
    except (ValueError, IndexError, KeyError):
        # a line of a form that is not known here: the program's word is told, and no more
        found = None
    if found is None or general:
        return Fault(source.name, line, kind, general or wanted(kind, source.kind), text=text)
    column, length = (found.at.column + 1, max(1, len(found.at.text))) if found.at and text is not None else (None, None)
    met = found.at.text if found.at and found.at.text else None
    return Fault(source.name, line, kind, wanted(kind, source.kind), found.said, text, column, length, met, found.form)


def _found(source: Source, lines: list[bytes], line: int, kind: str) -> Found | None:
    """What is wrong with a line, by the function of its kind."""
    if line == 0:
        return _whole(source, len(lines))
    raw = lines[line - 1] if line <= len(lines) else b""
    if kind == "NotText":
        return not_text(raw)
    if source.kind == SCRIPT:
        text = text_of(raw)
        return SCRIPT_FAULTS[kind](Case(text, words_of(text), before(lines[: line - 1], source.ues, kind in BY_RANK)))
    return TEXT_FAULTS[source.kind, kind](Lines(lines[: line - 1], raw, line < len(lines), source.ues))


def _whole(source: Source, lines: int) -> Found | None:
    """TooLong of a file: its bytes, or its lines."""
    size, most = len(source.data), MOST_BYTES[source.kind]
    if size > most:
        return Found(f"the file has {size:,} bytes, and {most:,} is the most")
    return Found(f"the file has more than {LIMITS['most_trace_lines']:,} lines: {lines - 1:,}") if source.kind == TRACE else None
