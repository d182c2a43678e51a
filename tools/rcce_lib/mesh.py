"""rcce mesh: what the links of the chip's mesh carry, as a map and in sums."""
from __future__ import annotations

import re
from dataclasses import dataclass
from typing import Any

from rcce_lib.inputs import Given
from rcce_lib.joined import Told
from rcce_lib.logs import differ
from rcce_lib.programs import Programs
from rcce_lib.shown import Paint, counted
from rcce_lib.stops import Failure
from rcce_lib.texts import lines_of, strange

# six columns and four rows of tiles, with two cores each
COLUMNS, ROWS = 6, 4
LINK = re.compile(r"(\d),(\d) -> (\d),(\d) (\d+)")
PROGRAM = "rccemesh"
NOT_FINISHED = f"{PROGRAM}: not finished"


@dataclass(frozen=True)
class Link:
    """A link between two tiles, by column and row, and the lines that it carries (rccemesh)."""

    start: tuple[int, int]
    end: tuple[int, int]
    lines: int


def read_links(text: str) -> list[Link]:
    """The links that carry lines, by what rccemesh writes."""
    links = []
    for line in lines_of(PROGRAM, text):
        if not (found := LINK.fullmatch(line)):
            raise strange(PROGRAM, line)
        x, y, to_x, to_y, count = map(int, found.groups())
        if abs(x - to_x) + abs(y - to_y) != 1:
            raise strange(PROGRAM, line)
        links.append(Link((x, y), (to_x, to_y), count))
    return links


def tile(core: int) -> tuple[int, int]:
    """The column and row of a core's tile."""
    return core // 2 % COLUMNS, core // 2 // COLUMNS


def cores_of(programs: Programs, hosts: Given, empty: Given, ues: int) -> list[int]:
    """The cores of a host file that rccerun accepts."""
    programs.files[hosts.path] = hosts.name, "host file"
    programs.run("rccerun", "-nue", str(ues), "-f", hosts.path, empty.path)
    named = [re.sub(rb"#.*", b"", line).strip().removeprefix(b"rck") for line in hosts.data.split(b"\n")]
    cores = [int(word) for word in named if word]
    if len(cores) < ues:
        raise Failure("rccerun accepts a host file that rcce can't read")
    return cores[:ues]


def load(told: Told, cores: list[int] | None) -> dict[str, Any]:
    """What each link carries, by rccemesh, and its sums, which are to agree with the messages that rccecheck tells."""
    at = ["-at", ",".join(map(str, cores))] if cores else []
    ran = told.programs.run(PROGRAM, "-nue", str(told.ues), *at, told.script.path, tells=NOT_FINISHED)
    links = read_links(ran.out)
    tiles = [tile(core) for core in cores or range(told.ues)]
    total, inside = 0, 0
    for message in told.messages:
        (x, y), (to_x, to_y) = tiles[message.sender], tiles[message.receiver]
        hops = abs(x - to_x) + abs(y - to_y)
        total += hops * (1 + -(-message.head.length // 32))
        inside += hops == 0
    if total != sum(link.lines for link in links) or ran.status != told.status:
        raise differ(f"{PROGRAM} and rccecheck on the lines that the messages move")
    heaviest = max(links, key=lambda link: link.lines, default=None)
    return {
        "command": "mesh",
        "script": told.script.name,
        "ues": told.ues,
        "status": ran.status,
        "cores": list(cores or range(told.ues)),
        "links": [_object(link) for link in links],
        "total": total,
        "heaviest": _object(heaviest) if heaviest else None,
        "messages": len(told.messages),
        "inside_a_tile": inside,
    }


def _object(link: Link) -> dict[str, Any]:
    """A link as an object."""
    return {"from": list(link.start), "to": list(link.end), "lines": link.lines}


def ranks_on(found: dict[str, Any]) -> dict[tuple[int, int], list[int]]:
    """The ranks on each tile that has any."""
    on: dict[tuple[int, int], list[int]] = {}
    for rank, core in enumerate(found["cores"]):
        on.setdefault(tile(core), []).append(rank)
    return on


def draw_map(found: dict[str, Any]) -> list[str]:
    """The map in characters: ranks on their tiles, and on each link its lines and its direction."""
    on = {(tuple(it["from"]), tuple(it["to"])): str(it["lines"]) for it in found["links"]}
    names = {place: "[" + ",".join(map(str, ranks)) + "]" for place, ranks in ranks_on(found).items()}
    digits = max([len(text) for text in on.values()], default=1)
    wide = max([len(name) for name in names.values()] + [digits + 1])
    lines: list[str] = []
    for y in reversed(range(ROWS)):
        rows = ["", "", "", ""]
        for x in range(COLUMNS):
            here, right, below = (x, y), (x + 1, y), (x, y - 1)
            east, west = on.get((here, right)), on.get((right, here))
            down, up = on.get((here, below)), on.get((below, here))
            rows[0] += names.get(here, "+").center(wide) + (f" {east:->{digits + 1}}-> " if east else " " * (digits + 5))
            rows[1] += " " * wide + (f" <-{west:-<{digits + 1}} " if west else " " * (digits + 5))
            rows[2] += (f"v{down}" if down else "").center(wide) + " " * (digits + 5)
            rows[3] += (f"^{up}" if up else "").center(wide) + " " * (digits + 5)
        lines += [f"y={y}  {rows[0]}".rstrip()] + [f"     {row}".rstrip() for row in rows[1:] if row.strip()]
        lines += [""] if y else []
    return lines + ["     " + "".join(f"x={x}".center(wide) + " " * (digits + 5) for x in range(COLUMNS)).rstrip()]


def text_of(found: dict[str, Any], paint: Paint) -> str:
    """The map and the sums as text."""
    heaviest = found["heaviest"]
    lines = [paint("strong", f"{found['script']}, {counted(found['ues'], 'UE')}"), "", *draw_map(found), ""]
    lines.append(f"  messages         {found['messages']:,}, of which inside a tile {found['inside_a_tile']:,}")
    lines.append(f"  lines in all     {found['total']:,} on {counted(len(found['links']), 'link')}")
    if heaviest:
        (x, y), (to_x, to_y) = heaviest["from"], heaviest["to"]
        lines.append(f"  heaviest link    {x},{y} -> {to_x},{to_y} with {counted(heaviest['lines'], 'line')}")
    if found["status"]:
        lines.append("  not all UEs finish (rcce why tells why)")
    return "\n".join(lines)
