"""Every kind of fault: its rule (of the page), what is wanted in its place, and a small file that has it beside one that has not."""
from __future__ import annotations

from dataclasses import dataclass, field
from typing import Any

from rcce_lib.rules import LIMITS, RULES

SCRIPT, HOSTS, LOG, LAB, TRACE, RUN = "script", "host file", "log", "lab", "trace", "run"
# the forms of the lines of logs and of traces
LOG_HEAD, TRACE_HEAD, COMM = "rcce log N", "rcce trace 1 nue N layout words|bits hosts CORE,CORE,..", "comm NUMBER PARENT mod|div PARTS"
CALL, POST, BARRIER = "R send|recv J KIND C LEN HEX", "R post J plain 0 LEN HEX", "R bar C"
ACCESS, REGISTER = "RANK load|store CORE.LINE.WORD VALUE", "RANK take|free CORE.register VALUE"


@dataclass(frozen=True)
class Kind:
    """A kind of fault of a source. The fault is at the last line of `wrong`, or `behind` lines further; or at line 0."""

    name: str
    source: str
    rule: str
    wanted: str
    wrong: list[str]
    right: list[str]
    before: list[str] = field(default_factory=list)
    after: list[str] = field(default_factory=list)
    behind: int = 0
    whole: bool = False
    # so many dashes are the last line of a file that is too long
    dashes: int = 0

    @property
    def line(self) -> int:
        """The line at which the program finds the fault."""
        return 0 if self.whole else len(self.before) + len(self.wrong) + self.behind

    @property
    def wrong_text(self) -> str:
        """The file that has the fault."""
        return "".join(f"{line}\n" for line in self.before + self.wrong) + "-" * self.dashes

    @property
    def right_text(self) -> str:
        """The file that has it not."""
        return "".join(f"{line}\n" for line in self.before + self.right + self.after)


def _lines(wanted: str, before: str, wrong: str, right: str, after: str = "") -> dict[str, Any]:
    """What is wanted, and the files of a kind, with the lines of each part between bars."""
    parts = {"before": before, "wrong": wrong, "right": right, "after": after}
    return {"wanted": wanted, **{name: part.split("|") if part else [] for name, part in parts.items()}}


def _kinds(source: str, cases: dict[str, dict[str, Any]]) -> list[Kind]:
    """The kinds of a source in the order of its page, with their rules there; what is wanted and the files are said here, in any order."""
    assert set(cases) == {name for name, _ in RULES[source]}, f"the kinds of a {source} are not those of its page"
    return [Kind(name, source, rule, **cases[name]) for name, rule in RULES[source]]


MOST_MESSAGE, MOST_NAMES, MOST_OPEN, MOST_OPERATIONS, MOST_PRINTED, MOST_SCRIPT_BYTES = (
    LIMITS[f"most_{name}"] for name in ("message", "names", "open", "operations", "printed", "script_bytes")
)
LAST_COMM, LAST_COMM_TWO = LIMITS["last_comm_one"], LIMITS["last_comm_two"]

SCRIPT_KINDS = _kinds(SCRIPT, {
    "NotText": _lines("blanks and the printable characters of ASCII alone, outside comments", "ue 0", "ints x \u22125", "ints x -5"),
    "UnknownStatement": _lines("a statement of docs/SCRIPTS.md, with its fixed words", "ue 0", "receive 1 y 4", "recv 1 y 4"),
    "WrongCount": _lines("as many words as the statement has", "ue 0", "recv 1 y", "recv 1 y 4"),
    "BadNumber": _lines("a number of its form and within its range", "ue 0", "recv 1 y four", "recv 1 y 4"),
    "BadHex": _lines("two hex digits for each byte, or - for no bytes", "ue 0", "bytes x 012", "bytes x 0102"),
    "BadName": _lines("a name of 1 to 16 letters, digits or underscores that begins with a letter", "ue 0", "bytes 2x 00", "bytes x2 00"),
    "RankRange": _lines("ranks below the number of UEs, A not above B, ROOT below the size of the group", "", "ue 2", "ue 1"),
    "SelfMessage": _lines("another UE than the one that has the statement", "ue 0|bytes x 00", "send 0 x", "send 1 x"),
    "UnknownComm": _lines(f"a communicator from 1 to {LAST_COMM} ({LAST_COMM_TWO} in version 2) with one rule, and its parent below it", "all",
                          f"split {LAST_COMM + 1} mod 2", f"split {LAST_COMM} mod 2"),
    "NotSplit": _lines("an earlier split of the communicator at each UE of the section", "all", "barrier 1", "split 1 mod 2|barrier 1"),
    "Unset": _lines("a register that an earlier line sets at each UE of the section", "ue 0", "print y", "bytes y 00|print y"),
    "Shape": _lines("the length that the register has, equal lengths, whole values", "ue 0|bytes x 00", "bytes x 0000", "bytes z 0000"),
    "NoSection": _lines("a section line (all, even, odd, ue A, ue A-B) before the first statement", "", "bytes x 00", "all|bytes x 00"),
    "UnclosedRepeat": _lines("an end for each repeat, within its section", "all|repeat 2|barrier", "ue 0", "end|ue 0"),
    "StrayEnd": _lines("a repeat before each end", "all", "barrier|end", "repeat 2|barrier|end"),
    "TooDeep": _lines(f"at most {MOST_OPEN} open repeats", "all" + "|repeat 2" * MOST_OPEN, "repeat 2", "barrier", "|".join(["end"] * MOST_OPEN)),
    "TooManyOps": _lines(f"at most {MOST_OPERATIONS:,} operations at a UE, each end counted", "all",
                         f"repeat {MOST_OPERATIONS}|bytes x 00|end", f"repeat {MOST_OPERATIONS // 2}|bytes x 00|end"),
    "TooLong": _lines(f"lengths up to {MOST_MESSAGE:,}, posts up to 3,584 bytes, {MOST_PRINTED:,} printed bytes at a UE, files up to {MOST_SCRIPT_BYTES:,} bytes",
                      "ue 0", f"recv 1 y {MOST_MESSAGE + 1}", f"recv 1 y {MOST_MESSAGE}"),
    "TooManyNames": _lines(f"at most {MOST_NAMES} names in a file", "|".join(["all"] + [f"bytes n{i} 00" for i in range(MOST_NAMES)]),
                           f"bytes n{MOST_NAMES} 00", "bytes n0 00"),
})

MOST_HOST_BYTES, MOST_LAB_BYTES, MOST_TRACE_BYTES, MOST_TRACE_LINES = (LIMITS[f"most_{name}"] for name in ("host_bytes", "lab_bytes", "trace_bytes", "trace_lines"))

HOST_KINDS = _kinds(HOSTS, {
    "TooLong": {"wanted": f"a host file of at most {MOST_HOST_BYTES:,} bytes", "wrong": ["5", "6", f"# and {MOST_HOST_BYTES:,} dashes"], "right": ["5", "6"],
                "whole": True, "dashes": MOST_HOST_BYTES},
    "NotText": {"wanted": "blanks and the printable characters of ASCII alone, outside comments", "wrong": ["\u2460"], "right": ["1"], "after": ["2"]},
    "BadCore": {"wanted": "one core number from 0 to 47, with rck before it or not", "wrong": ["rck48"], "right": ["rck47"], "after": ["2"]},
    "TwiceCore": {"wanted": "a core that no earlier line has", "wrong": ["rck05"], "right": ["rck06"], "before": ["rck05"]},
    "TooFew": {"wanted": "a core for each of the N ranks", "wrong": ["rck05"], "right": ["rck05", "rck06"], "behind": 1},
})

# (docs/LOGS.md has no table of kinds)
LOG_KINDS = [
    Kind("TooLong", LOG, "the log has more than 67,108,864 bytes; reported at line 0", "a log of at most 67,108,864 bytes",
         ["rcce log 2", "# and 67,108,864 dashes"], ["rcce log 2"], whole=True, dashes=67108864),
    Kind("BadHead", LOG, "the first line is not `rcce log N` with N from 1 to 48",
         f"{LOG_HEAD}, with N from 1 to 48, single blanks and no leading zero",
         ["rcce log 02"], ["rcce log 2"]),
    Kind("BadComm", LOG, "a line that begins with comm does not have its form, or is not in its place",
         f"{COMM} before all calls, with rising numbers and a parent that is there",
         ["comm 2 0 rest 2"], ["comm 2 0 mod 2"], before=["rcce log 4"]),
    Kind("BadCall", LOG, "a line that does not begin with comm is not a call, or is not in its place",
         f"{CALL}, {POST} or {BARRIER}, by rank, with single blanks and lower-case hex",
         ["0 send 1 plain 0 2 01"], ["0 send 1 plain 0 1 01"], before=["rcce log 2"]),
]

LAB_KINDS = _kinds(LAB, {
    "TooLong": {"wanted": f"a lab of at most {MOST_LAB_BYTES:,} bytes", "wrong": ["core 0 print", f"# and {MOST_LAB_BYTES:,} dashes"], "right": ["core 0 print"],
                "whole": True, "dashes": MOST_LAB_BYTES},
    "NotText": {"wanted": "blanks and the printable characters of ASCII alone, outside comments", "wrong": ["core 0 print \u2460"], "right": ["core 0 print"]},
    "BadCore": {"wanted": "core C first, with C from 0 to 47", "wrong": ["core 48 print"], "right": ["core 47 print"]},
    "BadStep": {"wanted": "a step of docs/LAB.md", "wrong": ["core 0 writes 0.0 2a"], "right": ["core 0 write 0.0 2a"]},
})

# (a trace that is too long is none that a test writes)
TRACE_KINDS = _kinds(TRACE, {
    "TooLong": {"wanted": f"a trace of at most {MOST_TRACE_BYTES:,} bytes and {MOST_TRACE_LINES:,} lines",
                "wrong": ["rcce trace 1 nue 1 layout words hosts 0", f"# and {MOST_TRACE_BYTES:,} dashes"], "right": ["rcce trace 1 nue 1 layout words hosts 0"],
                "whole": True, "dashes": MOST_TRACE_BYTES},
    "BadHead": {"wanted": f"{TRACE_HEAD} with N from 1 to 48 and as many different cores below 48",
                "wrong": ["rcce trace 1 nue 2 layout words hosts 0"], "right": ["rcce trace 1 nue 2 layout words hosts 0,1"]},
    "BadComm": {"wanted": f"{COMM} before all events, with rising numbers and a parent that is there",
                "wrong": ["comm 2 0 rest 2"], "right": ["comm 2 0 mod 2"], "before": ["rcce trace 1 nue 4 layout words hosts 0,1,2,3"]},
    "BadEvent": {"wanted": f"{ACCESS} or {REGISTER}, with 16 hex digits and any comment after a #, 255 bytes at most",
                 "wrong": ["0 load 0.225.0 0"], "right": ["0 load 0.225.0 0000000000000000"], "before": ["rcce trace 1 nue 1 layout words hosts 0"]},
})

# no faults of a file: why ranks of a run cannot end, as `rcce why` says it
RUN_CAUSES = [
    Kind("cycle", RUN, "UEs wait for each other in a ring: a send ends only when its message was taken, and none of them takes one",
         "one of the ring that receives before it sends, or a post instead of a send", ["ue 1", "send 0 x", "recv 0 y 1"],
         ["ue 1", "recv 0 y 1", "send 0 x"], before=["all", "bytes x 00", "ue 0", "send 1 x", "recv 1 y 1"]),
    Kind("finished", RUN, "a UE that has finished is still waited for",
         "the receive, send or barrier that is missing there", ["ue 0", "barrier"], ["all", "barrier"]),
    Kind("mismatch", RUN, "a UE met a message of another kind, communicator or length than it asked for, and took nothing",
         "a receive of the kind and length that is sent", ["recv 0 y 4"], ["recv 0 y 2"], before=["ue 0", "bytes x 0001", "send 1 x", "ue 1"]),
]

KINDS = SCRIPT_KINDS + HOST_KINDS + LOG_KINDS + LAB_KINDS + TRACE_KINDS + RUN_CAUSES
# in a script that is too long for a log, a TooLong of line 0
NO_LOG = "at most 10,000 calls and 262,144 message bytes at a UE, and a script of at most 4,194,304 bytes"


def wanted(name: str, source: str) -> str:
    """What is wanted in the place of a fault."""
    for kind in KINDS:
        if (kind.name, kind.source) == (name, source):
            return kind.wanted
    return f"see docs/SCRIPTS.md for {name}"
