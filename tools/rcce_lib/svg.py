"""Pictures as SVG: lines, boxes and text that can be selected, in black on white."""
from __future__ import annotations

import math
from xml.sax.saxutils import escape, quoteattr

FONT = "font-family='DejaVu Sans, Helvetica, Arial, sans-serif'"


def short(value: float) -> str:
    """A number with at most one digit behind its point."""
    text = f"{value:.1f}".removesuffix(".0")
    return "0" if text == "-0" else text


class Svg:
    """A picture of a size, with a title."""

    def __init__(self, width: float, height: float, title: str) -> None:
        self.width, self.height, self.title = width, height, title
        self.parts: list[str] = []

    def line(self, start: tuple[float, float], end: tuple[float, float], wide: float = 1, dashed: bool = False, arrow: bool = False) -> None:
        """A line, with an arrow at its end."""
        dash = " stroke-dasharray='3 3'" if dashed else ""
        places = " ".join(f"{name}='{short(value)}'" for name, value in zip(("x1", "y1", "x2", "y2"), (*start, *end)))
        self.parts.append(f"<line {places} stroke='black' stroke-width='{short(wide)}'{dash}/>")
        if arrow:
            self.head(end, math.atan2(end[1] - start[1], end[0] - start[0]), wide)

    def curve(self, start: tuple[float, float], by: tuple[float, float], end: tuple[float, float], wide: float) -> None:
        """A curved arrow, drawn towards a point by which it does not quite go."""
        x, y, *rest = (short(value) for value in (*start, *by, *end))
        self.parts.append(f"<path d='M {x} {y} Q {' '.join(rest)}' fill='none' stroke='black' stroke-width='{short(wide)}'/>")
        self.head(end, math.atan2(end[1] - by[1], end[0] - by[0]), wide)

    def head(self, tip: tuple[float, float], angle: float, wide: float) -> None:
        """The head of an arrow."""
        size = 6 + 2 * wide
        corners = [tip] + [(tip[0] - size * math.cos(angle + turn), tip[1] - size * math.sin(angle + turn)) for turn in (0.4, -0.4)]
        self.parts.append("<polygon points='" + " ".join(f"{short(x)},{short(y)}" for x, y in corners) + "' fill='black'/>")

    def box(self, x: float, y: float, width: float, height: float, wide: float = 1, dashed: bool = False, round_by: float = 0) -> None:
        """A white box."""
        dash = " stroke-dasharray='4 3'" if dashed else ""
        bent = f" rx='{short(round_by)}'" if round_by else ""
        size = f"x='{short(x)}' y='{short(y)}' width='{short(width)}' height='{short(height)}'"
        self.parts.append(f"<rect {size}{bent} fill='white' stroke='black' stroke-width='{short(wide)}'{dash}/>")

    def dot(self, x: float, y: float, size: float = 3) -> None:
        """A black dot."""
        self.parts.append(f"<circle cx='{short(x)}' cy='{short(y)}' r='{short(size)}' fill='black'/>")

    def cross(self, x: float, y: float, size: float = 5) -> None:
        """A cross."""
        for way in (1, -1):
            self.line((x - size, y - way * size), (x + size, y + way * size), 2)

    def text(self, x: float, y: float, text: str, size: int = 13, at: str = "start", bold: bool = False, ground: bool = False) -> None:
        """A text, with a white ground where it stands over lines."""
        weight = " font-weight='bold'" if bold else ""
        white = " stroke='white' stroke-width='4' paint-order='stroke'" if ground else ""
        place = f"x='{short(x)}' y='{short(y)}' font-size='{size}' text-anchor='{at}'"
        self.parts.append(f"<text {place}{weight}{white}>{escape(text)}</text>")

    def __str__(self) -> str:
        size = f"width='{short(self.width)}' height='{short(self.height)}' viewBox='0 0 {short(self.width)} {short(self.height)}'"
        top = f"<svg xmlns='http://www.w3.org/2000/svg' {size} {FONT} role='img' aria-label={quoteattr(self.title)}>"
        ground = "<rect width='100%' height='100%' fill='white'/>"
        return "\n".join([top, f"<title>{escape(self.title)}</title>", ground, *self.parts, "</svg>"]) + "\n"
