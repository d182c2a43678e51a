"""Checks the page of the rules of a trace: each definition that it names is in the file that it names, and each row is one of rows/."""
from __future__ import annotations

import pathlib
import re
from typing import Any

TOP = pathlib.Path(__file__).resolve().parents[2]
PAGE = TOP / "docs/PROTOCOL.md"
SPECS = TOP / "crates/scc_proto/specs"


def titles(name: str) -> set[str]:
    """The titles of a file of rows."""
    return set(re.findall(r"(?m)^# (.*)$", (TOP / f"rows/{name}.rows").read_text(encoding="utf-8")))


def check_rules(called: Any, write: bool) -> tuple[int, list[str]]:
    """The cells of the page's tables, and whether a row of protocol.rows is on no line of the page."""
    text = PAGE.read_text(encoding="utf-8")
    own = titles("protocol")
    known, wrong, checked = own | titles("rccetrace"), [], 0
    for line in re.findall(r"(?m)^\|(.*)\|$", text):
        *_, definition, row = (cell.strip() for cell in line.split("|"))
        if row.strip("-") and row != "Row" and row not in known:
            wrong.append(f"docs/PROTOCOL.md: no row has the title {row}")
        if found := re.fullmatch(r"`(\w+)`, (\w+)", definition):
            specs = (SPECS / f"{found[2]}.antt").read_text(encoding="utf-8")
            if not re.search(rf"(?m)^(?:\w+ )*pub (?:record |data )?{found[1]}\b", specs):
                wrong.append(f"docs/PROTOCOL.md: no definition {found[1]} in {found[2]}")
        checked += 1
    wrong += [f"rows/protocol.rows: docs/PROTOCOL.md does not name the row {title}" for title in sorted(own) if title not in text]
    return checked + len(own), wrong
