"""rcce lab: the steps of a lab, as rccelab does them; a lab that is refused is told with what is wrong with its line."""
from __future__ import annotations

import re
import sys
from typing import Any

from rcce_lib.inputs import Given
from rcce_lib.kinds import LAB
from rcce_lib.programs import Programs, Ran
from rcce_lib.texts import lines_of, strange

LINE = re.compile(r"line (\d+): (.*)")


def run(programs: Programs, given: Given) -> int:
    """Runs rccelab; both its texts go on as they are."""
    ran = _ran(programs, given, stream=True)
    for line in ran.err:
        print(line, file=sys.stderr)
    return ran.status


def lab_object(programs: Programs, given: Given) -> dict[str, Any]:
    """The steps of a lab and what each prints, as an object."""
    ran = _ran(programs, given)
    steps: list[dict[str, Any]] = []
    for line in lines_of("rccelab", ran.out):
        if found := LINE.fullmatch(line):
            steps.append({"line": int(found[1]), "step": found[2], "prints": []})
        elif steps:
            steps[-1]["prints"].append(line)
        else:
            raise strange("rccelab", line)
    stop = [LINE.fullmatch(line) for line in ran.err]
    stopped = {"line": int(stop[0][1]), "reason": stop[0][2]} if stop and stop[0] else None
    return {"command": "lab", "lab": given.name, "status": ran.status, "steps": steps, "stopped": stopped}


def _ran(programs: Programs, given: Given, stream: bool = False) -> Ran:
    """The answer of rccelab: it says one line where the lab stopped at a step, and nothing where it came to its end."""
    programs.files[given.path] = given.name, LAB
    ran = programs.run("rccelab", given.path, stream=stream)
    if len(ran.err) != (ran.status == 3) or not all(map(LINE.fullmatch, ran.err)):
        raise strange("rccelab", " ".join(ran.err))
    return ran
