"""rcce grade: the scripts of a folder against stored outputs, and what tasks ask for against tasks."""
from __future__ import annotations

import os
import re
from typing import Any

from rcce_lib.inputs import Scratch, read
from rcce_lib.programs import Programs
from rcce_lib.shown import Paint
from rcce_lib.stops import Stop
from rcce_lib.tasks import ENDINGS, judge, task_of


def grade(programs: Programs, scratch: Scratch, folder: str, wanted: str, ues: int | None) -> dict[str, Any]:
    """Judges NAME.rcce, NAME.lab and others of a folder by NAME.task, or runs NAME.rcce and compares with NAME.out and NAME.err, of the folder of what
    is wanted."""
    tasks = {os.path.splitext(name)[0] for name in _files(wanted, (".task",))}
    stored = [os.path.splitext(name)[0] for name in _files(wanted, (".out", ".err"))]
    # (an output of an exercise has the ending of its file before its own)
    scripts = {os.path.splitext(name)[0] for name in _files(folder, (".rcce",))} | {name for name in stored if not name.endswith((".lab", ".rcce"))}
    found = []
    for name in sorted(tasks | scripts):
        place = [os.path.normpath(os.path.join(place, name)) for place in (folder, wanted)]
        found.append(_grade_task(programs, scratch, *place) if name in tasks else _grade_one(programs, scratch, *place, ues))
    passed = sum(it["passed"] for it in found)
    status = 0 if found and passed == len(found) else 1
    return {"command": "grade", "status": status, "folder": folder, "passed": passed, "failed": len(found) - passed, "scripts": found}


def _files(folder: str, endings: tuple[str, ...]) -> list[str]:
    """The names of a folder's files with one of these endings."""
    try:
        return [name for name in os.listdir(folder) if name.endswith(endings)]
    except OSError as error:
        raise Stop(f"{folder}: {'absent' if isinstance(error, FileNotFoundError) else 'read fault'}", 5) from error


def _stored(path: str) -> str | None:
    """A stored text, if there is one."""
    try:
        with open(path, encoding="utf-8", errors="surrogateescape", newline="") as file:
            return file.read()
    except FileNotFoundError:
        return None
    except OSError as error:
        raise Stop(f"{path}: read fault", 5) from error


def _grade_one(programs: Programs, scratch: Scratch, path: str, wanted: str, ues: int | None) -> dict[str, Any]:
    """One script: whether it passes, and what is wrong with it."""
    name = f"{path}.rcce"
    out, err = _stored(f"{wanted}.out"), _stored(f"{wanted}.err") or ""
    if not os.path.exists(name):
        return _told(name, None, "no script has this name")
    if out is None:
        return _told(name, None, f"no stored output: {wanted}.out")
    script = read(name, scratch)
    number = ues or script.named_ues()
    if number is None:
        return _told(name, None, "no number of UEs: -nue N, or a first line as # rccerun -nue 2 hello.rcce")
    programs.files[script.path] = name, "script"
    try:
        ran = programs.run("rccerun", "-nue", str(number), script.path)
    except Stop as stop:
        if stop.status == 70:
            raise
        return _told(name, stop.status, stop.line)
    wrong = _difference(f"{wanted}.out", out, ran.out) or _difference(f"{wanted}.err", err, "".join(f"{line}\n" for line in ran.err))
    return _told(name, ran.status, wrong)


def _grade_task(programs: Programs, scratch: Scratch, path: str, wanted: str) -> dict[str, Any]:
    """What is handed in for a task: whether it passes, and what is wrong with it."""
    task = task_of(f"{wanted}.task", scratch)
    name = path + ENDINGS[task.kind]
    if not os.path.exists(name):
        return _told(name, None, f"no {task.kind if task.kind != 'predict' else 'prediction'} has this name")
    return _told(name, None, judge(programs, scratch, task, name))


def _told(name: str, status: int | None, wrong: str) -> dict[str, Any]:
    """What is told of a script, or of another file that was handed in."""
    return {"script": name, "passed": not wrong, "ended": status, "wrong": wrong or None}


def _difference(file: str, wanted: str, made: str) -> str:
    """The first line in which a text is not the stored one."""
    if made == wanted:
        return ""
    old, new = re.split(r"(?<=\n)", wanted), re.split(r"(?<=\n)", made)
    at = next(k for k in range(len(old) + 1) if old[k : k + 1] != new[k : k + 1])
    shown = [repr(text[at]) if text[at : at + 1] and text[at] else "nothing" for text in (old, new)]
    return f"{file}:{at + 1}: wanted {shown[0]:.120}, made {shown[1]:.120}"


def text_of(found: dict[str, Any], paint: Paint) -> str:
    """The marks as text."""
    lines = []
    for it in found["scripts"]:
        mark = paint("good", "passed") if it["passed"] else paint("bad", "failed")
        lines.append(f"{mark}  {it['script']}" + (f": {it['wrong']}" if it["wrong"] else ""))
    return "\n".join([*lines, f"{found['passed']} passed, {found['failed']} failed"])
