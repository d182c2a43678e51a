"""How instructions are counted: by callgrind, whose counts no other work on the machine changes."""
from __future__ import annotations

import os
import re
import subprocess
import sys
from concurrent.futures import ThreadPoolExecutor

VALGRIND = ["valgrind", "--tool=callgrind", "--callgrind-out-file=/dev/null"]


def counted(command: list[str]) -> int:
    """How many instructions a command takes."""
    ran = subprocess.run([*VALGRIND, *command], stdin=subprocess.DEVNULL, stdout=subprocess.DEVNULL, stderr=subprocess.PIPE, text=True, check=True)
    found = re.search(r"Collected : (\d+)", ran.stderr)
    return int(found[1]) if found else sys.exit(f"valgrind counts nothing: {ran.stderr[-300:]}")


def all_counted(commands: list[list[str]]) -> list[int]:
    """The counts of all these commands, which are taken side by side."""
    with ThreadPoolExecutor(os.cpu_count()) as pool:
        return list(pool.map(counted, commands))
