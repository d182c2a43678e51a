"""The files that the user names: scripts with their statements, and what `-` stands for."""
from __future__ import annotations

import os
import re
import sys
import tempfile
from dataclasses import dataclass

from rcce_lib.stops import Stop

# what the first line of a script says of its run, as those of examples/ do
FIRST_LINE = re.compile(rb"#\s*rccerun\s(?:.*\s)?-nue\s+(\d{1,10})\s")


@dataclass(frozen=True)
class Given:
    """A file as it was read once: the name that the user gave, a path for the programs, and its bytes."""

    name: str
    path: str
    data: bytes

    def statement(self, line: int) -> str:
        """The statement of a line, without comment and with single blanks."""
        lines = self.data.split(b"\n")
        text = lines[line - 1] if 1 <= line <= len(lines) else b""
        return " ".join(text.split(b"#")[0].decode("ascii", "backslashreplace").split())

    def place(self, line: int) -> str:
        """FILE:LINE."""
        return f"{self.name}:{line}"

    def named_ues(self) -> int | None:
        """The number of UEs that the first line names, if it does."""
        found = FIRST_LINE.match(self.data.split(b"\n")[0] + b"\n")
        return int(found[1]) if found and 1 <= int(found[1]) <= 48 else None


class Scratch:
    """A folder for copies of what was read, so that all programs read the same bytes."""

    def __init__(self) -> None:
        self.folder = tempfile.TemporaryDirectory(prefix="rcce-")
        self.count = 0
        self.took_input = False

    def put(self, data: bytes) -> str:
        """The path of a file with these bytes."""
        self.count += 1
        path = os.path.join(self.folder.name, f"file{self.count}")
        with open(path, "wb") as file:
            file.write(data)
        return path

    def close(self) -> None:
        """Removes the copies."""
        self.folder.cleanup()


def read(name: str, scratch: Scratch) -> Given:
    """Reads a file once, standard input where its name is -."""
    try:
        if name == "-":
            if scratch.took_input:
                raise Stop("-: standard input can be one file alone", 2)
            scratch.took_input = True
            data = sys.stdin.buffer.read()
        else:
            with open(name, "rb") as file:
                data = file.read()
    except FileNotFoundError as error:
        raise Stop(f"{name}: absent", 5) from error
    except (OSError, ValueError) as error:
        raise Stop(f"{name}: read fault", 5) from error
    return Given(name, scratch.put(data), data)
