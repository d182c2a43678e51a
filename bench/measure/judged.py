"""Whether a measure is within its bound: a line for each, which bench/all gathers."""
from __future__ import annotations

import sys
from dataclasses import dataclass, field


@dataclass
class Bounds:
    """The bounds of one command, and how many of them do not hold."""

    command: str
    missed: int = 0
    lines: list[str] = field(default_factory=list)

    def at_most(self, what: str, value: float, most: float, form: str = ".2f") -> None:
        """Tells a measure that is to be so much at most."""
        self._tell(what, f"{value:{form}}, at most {most:{form}}", value <= most)

    def at_least(self, what: str, value: float, least: float, form: str = ".2f") -> None:
        """Tells a measure that is to be so much at least."""
        self._tell(what, f"{value:{form}}, at least {least:{form}}", value >= least)

    def within(self, what: str, why: str, holds: bool) -> None:
        """Tells a measure by its own words."""
        self._tell(what, why, holds)

    def _tell(self, what: str, why: str, holds: bool) -> None:
        """Keeps the line, to be printed behind the table."""
        self.missed += not holds
        self.lines.append(f"{'holds ' if holds else 'MISSED'} {what}: {why}")

    def end(self) -> None:
        """Prints the lines, and ends the command: with 1 where a bound does not hold."""
        for line in self.lines:
            print(line)
        sys.exit(1 if self.missed else 0)
