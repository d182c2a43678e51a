"""rcce explain: a kind of fault, with its rule, a wrong line and the right one."""
from __future__ import annotations

from typing import Any

from rcce_lib.kinds import KINDS, RUN
from rcce_lib.shown import Paint


def explain(name: str | None) -> dict[str, Any]:
    """The kinds of a name, in any case; or the names of all."""
    if name is None:
        return {"command": "explain", "status": 0, "kinds": [{"kind": it.name, "source": it.source, "rule": it.rule} for it in KINDS]}
    found = [
        {
            "kind": it.name,
            "source": it.source,
            "rule": it.rule,
            "wanted": it.wanted,
            "line": it.line,
            "before": it.before,
            "wrong": it.wrong,
            "right": it.right,
        }
        for it in KINDS
        if it.name.lower() == name.lower()
    ]
    return {"command": "explain", "status": 0, "kinds": found}


def text_of(found: dict[str, Any], paint: Paint) -> str:
    """The kinds as text."""
    kinds = found["kinds"]
    if kinds and "wrong" not in kinds[0]:
        width = max(len(kind["kind"]) for kind in kinds)
        return "\n".join(f"{kind['kind']:{width}}  {kind['source']:9}  {kind['rule']}" for kind in kinds)
    return "\n\n".join("\n".join(_lines_of(kind, paint)) for kind in kinds)


def _lines_of(kind: dict[str, Any], paint: Paint) -> list[str]:
    """The lines of one kind."""
    of = "why a run does not finish" if kind["source"] == RUN else f"a {kind['source']} is refused"
    lines = [f"{paint('strong', kind['kind'])} ({of}): {kind['rule']}", f"  wanted: {kind['wanted']}"]
    before = kind["before"]
    if len(before) > 9:
        before = before[:2] + [f"... {len(before) - 3} more"] + before[-1:]
    for part, text in (("after", before), ("wrong", kind["wrong"]), ("right", kind["right"])):
        lines += [f"  {part + ':' if number == 0 else '':7}{line}" for number, line in enumerate(text)]
    return lines
