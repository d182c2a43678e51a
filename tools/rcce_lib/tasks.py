"""The tasks of rcce grade, NAME.task: a script's output, a prediction, a lab with what it must keep, or the calls of a trace."""
from __future__ import annotations

import os
from collections import Counter
from dataclasses import dataclass

from rcce_lib.inputs import Given, Scratch, read
from rcce_lib.kinds import LAB, TRACE
from rcce_lib.lab_orders import all_orders
from rcce_lib.lab_steps import Done, Step, run_lab, steps_of
from rcce_lib.programs import Programs
from rcce_lib.stops import Stop

# the ending of what is handed in, by the kind of a task
ENDINGS = {"script": ".rcce", "predict": ".outcomes", "lab": ".lab", "trace": ".trace"}
RULES = {"script": ("print",), "predict": (), "lab": ("keep", "may", "store", "under", "every", "outcome", "never"), "trace": ("call",)}
# of what a lab has one of these: else an empty lab would pass
NEEDED = {"script": ("print",), "lab": ("keep", "store", "outcome"), "trace": ("call",)}
# what a lab may have outside of its orders
OUTSIDE = ("read", "get", "invalidate", "print")
FIRST_HEAP = 225


@dataclass(frozen=True)
class Task:
    """A task: its file, its kind with the word behind it, and its rules."""

    file: str
    kind: str
    word: str
    rules: list[tuple[str, str]]

    def those(self, name: str) -> list[str]:
        """What the rules of a name say, in order."""
        return [text for rule, text in self.rules if rule == name]


def task_of(path: str, scratch: Scratch) -> Task:
    """Reads a task."""
    lines = [(at, line.partition("#")[0].split()) for at, line in enumerate(read(path, scratch).data.decode("utf-8", "replace").split("\n"), 1)]
    lines = [(at, words) for at, words in lines if words]
    kind, *rest = lines[0][1] if lines else [""]
    if kind not in ENDINGS or len(rest) != (kind in ("script", "predict")) or (kind == "script" and not rest[0].isdecimal()):
        raise Stop(f"{path}:{lines[0][0] if lines else 1}: BadTask: a task begins with script N, predict LAB, lab or trace", 2)
    for at, words in lines[1:]:
        if words[0] not in RULES[kind]:
            raise Stop(f"{path}:{at}: BadTask: {words[0]} is no rule of a task of kind {kind}", 2)
    task = Task(path, kind, " ".join(rest), [(words[0], " ".join(words[1:])) for _, words in lines[1:]])
    if kind in NEEDED and not any(task.those(name) for name in NEEDED[kind]):
        raise Stop(f"{path}: BadTask: a file without words would pass; it has none of: {', '.join(NEEDED[kind])}", 2)
    return task


def judge(programs: Programs, scratch: Scratch, task: Task, name: str) -> str:
    """What is wrong with a file that is handed in, or nothing."""
    given = read(name, scratch)
    judges = {"script": judge_script, "predict": judge_prediction, "lab": judge_lab, "trace": judge_trace}
    try:
        return judges[task.kind](programs, scratch, task, given)
    except Stop as stop:
        if stop.status == 70:
            raise
        return stop.line


def judge_script(programs: Programs, scratch: Scratch, task: Task, given: Given) -> str:
    """A script prints what the task says, and all its UEs finish."""
    programs.files[given.path] = given.name, "script"
    ran = programs.run("rccerun", "-nue", task.word, given.path)
    return ran.err[0] if ran.err else _other(task.those("print"), ran.out.split("\n")[:-1])


def judge_trace(programs: Programs, scratch: Scratch, task: Task, given: Given) -> str:
    """A trace is legal, and its finished calls are those of the task."""
    programs.files[given.path] = given.name, TRACE
    told = programs.run("rccetrace", "-calls", given.path).out.split("\n")[:-1]
    if told[0] != "legal":
        return told[0]
    return _other(task.those("call"), [line for line in told[1:] if not line.startswith("rank ")])


def _other(wanted: list[str], made: list[str]) -> str:
    """The first line in which two lists differ."""
    for at in range(max(len(wanted), len(made))):
        if wanted[at : at + 1] != made[at : at + 1]:
            return f"wanted {wanted[at] if at < len(wanted) else 'nothing more'}, made {made[at] if at < len(made) else 'nothing more'}"
    return ""


def judge_prediction(programs: Programs, scratch: Scratch, task: Task, given: Given) -> str:
    """The outcomes that are written are those that come. What is missing is counted and not told."""
    lab = read(os.path.join(os.path.dirname(task.file), task.word), scratch)
    come = {run.outcome for run in all_orders(programs, scratch, lab)[1]} - {None}
    lines = [" ".join(line.partition("#")[0].split()) for line in given.data.decode("utf-8", "replace").split("\n")]
    said = {line for line in lines if line}
    never, missing = sorted(said - come), len(come - said)
    wrong = [f"never comes: {', '.join(never)}"] if never else []
    return "; ".join([*wrong, *([f"{missing} of {len(come)} outcomes not written"] if missing else [])])


def judge_lab(programs: Programs, scratch: Scratch, task: Task, given: Given) -> str:
    """A lab ends well as it is written, and keeps to the rules of the task, in all its orders where the task says so."""
    programs.files[given.path] = given.name, LAB
    done, stop = run_lab(programs, given.path)
    steps = steps_of(given.data.decode("utf-8", "replace"))
    return stop or _kept(task, steps) or _accesses(task, done) or _in_orders(programs, scratch, task, given, steps)


def _kept(task: Task, steps: list[Step]) -> str:
    """What is missing of the steps that stay, each core's in their order, and what is there that may not be."""
    left = list(steps)
    at: Counter[int] = Counter()
    for text in task.those("keep"):
        wanted = steps_of(text)[0]
        found = [step for step in left if step.whole() == wanted.whole() and step.at > at[step.core] and not step.waits]
        if not found:
            return f"it lacks: {wanted.whole()}"
        at[wanted.core] = found[0].at
        left.remove(found[0])
    may = {words[0]: words[1:] for words in map(str.split, task.those("may"))}
    for step in left if may else []:
        if step.words[0] not in may.get(str(step.core), []):
            return f"line {step.at}: core {step.core} may not have this step: {step.whole()}"
    return ""


def _place(word: str) -> str:
    """A word of the heap as accesses name it."""
    core, _, rest = word.partition(":")
    line, _, number = rest.partition(".")
    return f"{core}.{FIRST_HEAP + int(line)}.{number}"


def _accesses(task: Task, done: list[Done]) -> str:
    """What the accesses of the lab as it is written lack: a store, or a register that is held."""
    accesses = [(it.at, *access.split()) for it in done for access in it.accesses]
    for text in task.those("store"):
        core, word, value = text.split()
        if not any(it[1:4] == (core, "store", _place(word)) and int(it[4], 16) == int(value, 16) for it in accesses):
            return f"core {core} does not store {value} in {word}"
    for text in task.those("under"):
        register, word = text.split()
        holder = ""
        for at, core, verb, place, value in accesses:
            if place == f"{register}.register":
                holder = "" if verb == "free" else core if int(value, 16) else holder
            elif place == _place(word) and holder != core:
                return f"line {at}: core {core} does not hold register {register}, and makes a {verb} of {word}"
    return ""


def _in_orders(programs: Programs, scratch: Scratch, task: Task, given: Given, steps: list[Step]) -> str:
    """What the orders of the lab lack: an outcome, or that nothing is lost."""
    if not any(task.those(name) for name in ("every", "outcome", "never")):
        return ""
    for step in steps:
        if step.part != 1 and step.words[0] not in OUTSIDE:
            return f"line {step.at}: above # orders and below # after there are only: {', '.join(OUTSIDE)}"
    runs = all_orders(programs, scratch, given)[1]
    outcomes = {run.outcome for run in runs} - {None}
    if task.those("every"):
        for run in runs:
            if wrong := run.lost or run.stops:
                return f"{wrong}, in the order of lines {' '.join(map(str, run.lines()))}"
    for text in task.those("outcome"):
        if text not in outcomes:
            return f"the outcome {text} never comes"
    return next((f"the outcome {text} comes" for text in task.those("never") if text in outcomes), "")
