"""What ends a subcommand before its answer: a fault of a file, a complaint, a failure of the command itself."""
from __future__ import annotations

from dataclasses import asdict, dataclass

from rcce_lib.marks import shown

# the command's own failure: a program is absent, or says what it never says, or two of them do not agree
OWN_FAILURE = 70


class Stop(Exception):
    """Ends a subcommand, with the line for standard error, the lines below it, and the status."""

    def __init__(self, line: str, status: int, below: list[str] | None = None) -> None:
        super().__init__(line)
        self.line = line
        self.status = status
        self.below = below or []
        # what the program wrote before it ended
        self.out = ""


class Failure(Stop):
    """A failure of the command itself."""

    def __init__(self, line: str) -> None:
        super().__init__(f"rcce: {line}", OWN_FAILURE)


@dataclass(frozen=True)
class Fault:
    """Why a file is refused: its name, the line, the kind, what is wanted there, and what is wrong with this line.

    `text` is the line. The part that is wrong begins at `column`, which counts characters from 1, and has `length` characters;
    `met` is that part, and `form` the form of the line. What is not known is None.
    """

    file: str
    line: int
    kind: str
    wanted: str
    said: str | None = None
    text: str | None = None
    column: int | None = None
    length: int | None = None
    met: str | None = None
    form: str | None = None

    def __str__(self) -> str:
        return f"{self.file}:{self.line}: {self.kind}: {self.said or self.wanted}"

    def below(self) -> list[str]:
        """The line with its marks, and its form."""
        marked = shown(self.text, self.column - 1, self.length) if self.text and self.column and self.length else []
        return [f"  {it}" for it in [*marked, *([f"form: {self.form}"] if self.form else [])]]

    def as_object(self) -> dict[str, object]:
        """The fault as an object."""
        return {**asdict(self), "said": self.said or self.wanted}


class Refused(Stop):
    """A file that a program refuses."""

    def __init__(self, fault: Fault) -> None:
        super().__init__(str(fault), 2, fault.below())
        self.fault = fault
