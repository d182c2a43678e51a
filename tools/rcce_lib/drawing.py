"""rcce draw: who waits for whom, and the load of the mesh, as SVG, as text and (waits) as DOT."""
from __future__ import annotations

import math
import os
from typing import Any

from rcce_lib import mesh
from rcce_lib.picture import Picture, base
from rcce_lib.shown import Paint, counted
from rcce_lib.svg import Svg

NO_PAINT = Paint(open(os.devnull, "w", encoding="ascii"))


def form_of(file: str | None, terminal: bool) -> str:
    """The form of a picture: that of the ending of its file, else text on a terminal."""
    if file:
        return {".txt": "text", ".dot": "dot"}.get(os.path.splitext(file)[1], "svg")
    return "text" if terminal else "svg"


class Waits(Picture):
    """Who waits for whom: an arrow goes from a rank to the one that it waits for."""

    def __init__(self, found: dict[str, Any]) -> None:
        self.found = found
        self.status = found["status"]
        self.title = f"{base(found['script'])}: {found['verdict']}"
        self.waiting = {rank["ue"]: rank for cause in found["causes"] for rank in cause["waiting"]}
        self.ring = {rank for cause in found["causes"] for rank in cause["ring"]}
        ranks = [rank for cause in found["causes"] for rank in [*(it["ue"] for it in cause["waiting"]), cause["root"]]]
        self.ranks = list(dict.fromkeys(ranks))
        # where all finish, each rank has a box of its own
        self.ranks = self.ranks or list(range(found["ues"]))
        self.arrows = [(ue, rank["waits_for"]) for ue, rank in self.waiting.items() if rank["waits_for"] is not None]

    def label(self, rank: int) -> str:
        """What a rank is called."""
        if rank not in self.waiting:
            return f"ue {rank} finished"
        return f"ue {rank} refused" if self.waiting[rank]["at"] == "mismatch" else f"ue {rank}"

    def half(self, rank: int) -> float:
        """Half the width of a rank's box."""
        return 4.5 * len(self.label(rank)) + 8

    def lines(self) -> list[str]:
        """A line for each rank that has not finished, or that all have."""
        if not self.waiting:
            return [f"all UEs finish: {counted(self.found['messages'], 'message')} came, and nobody waits"]
        return [f"ue {ue}, line {rank['line']}: {rank['statement']}" for ue, rank in self.waiting.items()]

    def svg(self) -> str:
        """The picture for a browser."""
        round_by = max(90.0, len(self.ranks) * 100 / (2 * math.pi)) if len(self.ranks) > 1 else 40.0
        middle = (round_by + 80, round_by + 70)
        lines = self.lines()
        wide = max(2 * middle[0], 24 + 8.5 * max(map(len, [self.title, *lines])))
        picture = Svg(wide, (2 * middle[1] if self.ranks else 50) + 20 * len(lines), self.title)
        picture.text(12, 24, self.title, 14, bold=True)
        turn = 2 * math.pi / max(1, len(self.ranks))
        at = {
            rank: (middle[0] + round_by * math.sin(k * turn), middle[1] + 15 - round_by * math.cos(k * turn)) for k, rank in enumerate(self.ranks)
        }
        for start, end in self.arrows:
            _bow(picture, at[start], at[end], self.half(end), 3 if start in self.ring else 1.2)
        for rank, (x, y) in at.items():
            half = self.half(rank)
            refused = rank in self.waiting and self.waiting[rank]["at"] == "mismatch"
            picture.box(x - half, y - 15, 2 * half, 30, 3 if refused else 1.2, rank not in self.waiting, 0 if refused else 8)
            picture.text(x, y + 5, self.label(rank), at="middle", bold=rank in self.ring)
        for number, line in enumerate(lines):
            picture.text(12, 2 * middle[1] + 10 + 20 * number, line)
        return str(picture)

    def text(self) -> str:
        """The picture for a terminal."""
        lines = [self.title]
        for cause in self.found["causes"]:
            if cause["ring"]:
                ring = [f"ue {rank}" for rank in cause["ring"]]
                chain = " ==> ".join(ring)
                lines += ["", f"  {chain} ==+", f"   ^{'=' * (len(chain) + 1)}+"]
            for rank in cause["waiting"]:
                if rank["ue"] not in cause["ring"] and rank["waits_for"] is not None:
                    lines.append(f"  {self.label(rank['ue'])} --> {self.label(rank['waits_for'])}")
        return "\n".join([*lines, "", *(f"  {line}" for line in self.lines())]).rstrip() + "\n"

    def dot(self) -> str:
        """The picture for Graphviz."""
        lines = ["digraph waits {", "  node [shape=box];"]
        for rank in self.ranks:
            told = self.waiting.get(rank)
            label = self.label(rank) + (f"\\n{told['line']}: {told['statement']}" if told else "")
            how = ", style=dashed" if not told else ", style=bold" if told["at"] == "mismatch" else ""
            quoted = label.replace('"', '\\"')
            lines.append(f'  ue{rank} [label="{quoted}"{how}];')
        lines += [f"  ue{start} -> ue{end}{' [style=bold]' if start in self.ring else ''};" for start, end in self.arrows]
        return "\n".join([*lines, "}"]) + "\n"


def _bow(picture: Svg, start: tuple[float, float], end: tuple[float, float], half: float, wide: float) -> None:
    """A curved arrow from one box to another, of that half width, bowed to its left, so that two arrows back and forth stand apart."""
    across, down = end[0] - start[0], end[1] - start[1]
    by = (start[0] + across / 2 + down * 0.15, start[1] + down / 2 - across * 0.15)
    far = math.hypot(end[0] - by[0], end[1] - by[1]) or 1
    # the arrow ends just outside the box, which is 30 high
    reach = min(18 / max(abs(end[1] - by[1]) / far, 1e-6), (half + 3) / max(abs(end[0] - by[0]) / far, 1e-6))
    tip = (end[0] - (end[0] - by[0]) * reach / far, end[1] - (end[1] - by[1]) * reach / far)
    picture.curve(start, by, tip, wide)


class Mesh(Picture):
    """The load of the mesh: the tiles with their ranks, and the links that carry lines, the wider the more."""

    def __init__(self, found: dict[str, Any]) -> None:
        self.found = found
        self.status = found["status"]
        heaviest = f", at most {found['heaviest']['lines']:,} on one" if found["heaviest"] else ""
        self.title = f"{base(found['script'])}: {counted(found['total'], 'line')} on {counted(len(found['links']), 'link')}{heaviest}"

    def stayed(self) -> str:
        """How many messages no link carries."""
        number = self.found["inside_a_tile"]
        return f"{counted(number, 'message')} stayed in {'its tile' if number == 1 else 'their tiles'}"

    @staticmethod
    def middle(place: tuple[int, int]) -> tuple[float, float]:
        """Where the middle of a tile stands."""
        return 90 + 150 * place[0], 90 + 120 * (mesh.ROWS - 1 - place[1])

    def svg(self) -> str:
        """The picture for a browser."""
        picture = Svg(max(940, 30 + 8.5 * len(self.title)), 558, self.title)
        picture.text(12, 26, self.title, 14, bold=True)
        most = max([it["lines"] for it in self.found["links"]], default=1)
        on = mesh.ranks_on(self.found)
        for x in range(mesh.COLUMNS):
            for y in range(mesh.ROWS):
                left, top = self.middle((x, y))
                ranks = on.get((x, y), [])
                picture.box(left - 34, top - 24, 68, 48, 2 if ranks else 0.8, not ranks, 6)
                picture.text(left, top - 8, f"{x},{y}", 10, "middle")
                if ranks:
                    picture.text(left, top + 12, ", ".join(map(str, ranks)), 13, "middle", True)
        for it in self.found["links"]:
            self._link(picture, it, most)
        note = "Ranks in bold on their tiles (column,row); lines of 32 bytes on each link, the wider the more; the heaviest in bold."
        for number, line in enumerate([note, self.stayed()]):
            picture.text(12, 524 + 18 * number, line, 12)
        return str(picture)

    def _link(self, picture: Svg, it: dict[str, Any], most: int) -> None:
        """A link, to the right of its way, with its lines."""
        start, end = self.middle(tuple(it["from"])), self.middle(tuple(it["to"]))
        across, down = (end[0] > start[0]) - (end[0] < start[0]), (end[1] > start[1]) - (end[1] < start[1])
        aside = (-9 * down, 9 * across)
        away = (36 * across, 26 * down)
        one = (start[0] + away[0] + aside[0], start[1] + away[1] + aside[1])
        two = (end[0] - away[0] + aside[0], end[1] - away[1] + aside[1])
        picture.line(one, two, 1 + 4 * it["lines"] / most, arrow=True)
        x, y = (one[0] + two[0]) / 2, (one[1] + two[1]) / 2
        bold = it["lines"] == most
        if across:
            picture.text(x, y + (18 if across > 0 else -8), f"{it['lines']:,}", 12, "middle", bold)
        else:
            picture.text(x - 8 * down, y + 4, f"{it['lines']:,}", 12, "end" if down > 0 else "start", bold)

    def text(self) -> str:
        """The picture for a terminal."""
        return mesh.text_of({**self.found, "script": base(self.found["script"])}, NO_PAINT) + f"\n  {self.stayed()}\n"
