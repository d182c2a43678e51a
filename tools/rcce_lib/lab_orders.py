"""rcce lab orders: every order of a lab's steps, each core's own steps in theirs, run by rccelab.

The lab's text is rearranged and nothing else: each order has lines and registers of its own, so many orders go into one file."""
from __future__ import annotations

from collections import Counter
from dataclasses import dataclass
from math import factorial, prod
from typing import Any, Iterator

from rcce_lib.inputs import Given, Scratch
from rcce_lib.kinds import LAB
from rcce_lib.lab_steps import CORES, LINES, Line, Step, missed, run_lab, steps_of, units_of
from rcce_lib.programs import Programs
from rcce_lib.shown import Paint, counted
from rcce_lib.stops import Stop

MOST_ORDERS, MOST_BYTES = 20_000, 1_000_000
Order = list[Step]


@dataclass
class Run:
    """An order as it was run: what its reads answered, or why it is no run or loses something."""

    order: Order
    outcome: str | None = None
    lost: str | None = None
    waits: str | None = None
    stops: str | None = None

    def lines(self) -> list[int]:
        """The lines of the file in this order."""
        return [step.at for step in self.order if step.part == 1]


def how_many(steps: list[Step]) -> int:
    """How many orders there are."""
    counts = Counter(unit[0].core for unit in units_of([step for step in steps if step.part == 1]))
    return factorial(sum(counts.values())) // prod(map(factorial, counts.values()))


def orders_of(steps: list[Step]) -> Iterator[Order]:
    """Every order of the steps: first those above `# orders`, last those below `# after`."""
    first, last = ([step for step in steps if step.part == part] for part in (0, 2))
    by_core: dict[int, list[list[Step]]] = {}
    for unit in units_of([step for step in steps if step.part == 1]):
        by_core.setdefault(unit[0].core, []).append(unit)
    cores = sorted(by_core)

    def go(taken: dict[int, int]) -> Iterator[list[Step]]:
        """The orders of what is left."""
        if all(taken[core] == len(by_core[core]) for core in cores):
            yield []
        for core in cores:
            if taken[core] < len(by_core[core]):
                for rest in go({**taken, core: taken[core] + 1}):
                    yield [*by_core[core][taken[core]], *rest]

    for order in go(dict.fromkeys(cores, 0)):
        yield [*first, *order, *last]


def _files(orders: list[Order], lines: list[Line], registers: list[int]) -> Iterator[tuple[str, list[Order]]]:
    """Labs of these orders, as many in one file as there are lines and registers for. What an order leaves in caches and buffers is of lines that the
    next one does not name."""
    room = min([CORES * LINES // max(1, len(lines)), *([CORES // len(registers)] if registers else [])])
    at = 0
    while at < len(orders):
        text, taken = "rcce lab 1\n", []
        for number, order in enumerate(orders[at : at + room]):
            places = {line: divmod(number * len(lines) + k, LINES) for k, line in enumerate(lines)}
            locks = {register: number * len(registers) + k for k, register in enumerate(registers)}
            more = "".join(f"{step.moved(places, locks)}\n" for step in order)
            if taken and len(text) + len(more) > MOST_BYTES:
                break
            text, taken = text + more, [*taken, order]
        yield text, taken
        at += len(taken)


def run_orders(programs: Programs, scratch: Scratch, orders: list[Order]) -> list[Run]:
    """Each order as rccelab runs it. Where an order stops at a register, those behind it are run anew."""
    steps = orders[0] if orders else []
    lines = sorted({line for step in steps for line in step.lines()})
    registers = sorted({register for step in steps for register in step.registers()})
    runs: list[Run] = []
    for text, taken in _files(orders, lines, registers):
        while taken:
            done, stop = run_lab(programs, scratch.put(text.encode("ascii")))
            answers = iter(it.answers for it in done)
            size = len(taken[0])
            # (the step at which a lab stops is told, and not done)
            whole = (len(done) - 1) // size if stop else len(taken)
            runs += [_judged(order, [next(answers) for _ in range(size)]) for order in taken[:whole]]
            if stop:
                runs.append(_judged(taken[whole], list(answers)[:-1], "does not hold" if "does not hold" in stop else "holds"))
                whole += 1
            # (the first line names the version)
            text = "rcce lab 1\n" + "".join(text.splitlines(keepends=True)[1 + whole * size :])
            taken = taken[whole:]
    return runs


def _judged(order: Order, answers: list[list[str]], stop: str | None = None) -> Run:
    """What an order comes to: at the first look that finds nothing its core would look again, so the order is no run."""
    run, read = Run(order), {}
    for step, found in zip(order, answers):
        wrong = missed(step, found)
        if wrong and step.waits:
            run.waits = run.waits or f"line {step.at}: {step.text()}"
            return run
        if wrong and not run.lost:
            run.lost = f"line {step.at}: {step.text()}: {wrong}"
        if found and step.part and not step.waits:
            read[step.at] = ",".join(found)
    if stop:
        step = order[len(answers)]
        run.stops = f"line {step.at}: core {step.core} {stop} register {step.words[1]}"
    else:
        run.outcome = " ".join(read[at] for at in sorted(read))
    return run


def steps_in(programs: Programs, given: Given) -> list[Step]:
    """The steps of a lab that rccelab takes."""
    programs.files[given.path] = given.name, LAB
    run_lab(programs, given.path)
    return steps_of(given.data.decode("utf-8", "replace"))


def all_orders(programs: Programs, scratch: Scratch, given: Given) -> tuple[list[Step], list[Run]]:
    """The steps of a lab, and every order of them as it was run."""
    steps = steps_in(programs, given)
    count = how_many(steps)
    if count > MOST_ORDERS:
        help = "leave steps out, or put those whose order does not matter above a comment # orders"
        raise Stop(f"{given.name}: its steps have {count:,} orders, and at most {MOST_ORDERS:,} are run: {help}", 2)
    return steps, run_orders(programs, scratch, list(orders_of(steps)))


def orders(programs: Programs, scratch: Scratch, given: Given) -> dict[str, Any]:
    """The outcomes of a lab in all orders: how often each comes, and one order in which it does."""
    steps, runs = all_orders(programs, scratch, given)
    reads = sorted({step.at for step in steps if step.part and not step.waits and _answers(step)})
    texts = {step.at: step.text() for step in steps}
    found = {name: _told(runs, name) for name in ("outcome", "lost", "waits", "stops")}
    return {
        "command": "lab orders", "lab": given.name, "status": 3 if found["lost"] or found["stops"] else 0, "orders": len(runs),
        "steps": len(units_of([step for step in steps if step.part == 1])), "reads": [{"line": at, "step": texts[at]} for at in reads],
        "outcomes": found["outcome"], "lost": found["lost"], "waits": found["waits"], "stops": found["stops"],
    }


def _answers(step: Step) -> bool:
    """Whether something answers the step."""
    return step.words[0] in ("read", "get", "take", "load")


def _told(runs: list[Run], name: str) -> list[dict[str, Any]]:
    """What orders come to, how many to each, and the lines of the first."""
    found: dict[str, list[Run]] = {}
    for run in runs:
        if (value := getattr(run, name)) is not None:
            found.setdefault(value, []).append(run)
    return [{"says": says, "orders": len(those), "order": those[0].lines()} for says, those in sorted(found.items())]


def text_of(found: dict[str, Any], paint: Paint) -> str:
    """The outcomes as text."""
    lines = [f"{found['lab']}: {counted(found['orders'], 'order')} of {counted(found['steps'], 'step')}"]
    lines += [f"  reads    {it['step']} (line {it['line']})" for it in found["reads"]]
    said = {"outcomes": ("outcome", ""), "lost": ("lost", "bad"), "waits": ("waits", ""), "stops": ("stops", "bad")}
    for name, (word, how) in said.items():
        for it in found[name]:
            says = it["says"] or "nothing is read"
            lines.append(f"  {word:8} {paint(how, says) if how else says}: {counted(it['orders'], 'order')}, as lines {' '.join(map(str, it['order']))}")
    return "\n".join(lines)


def shown(programs: Programs, scratch: Scratch, given: Given, outcome: str) -> str:
    """The text of the lab in the first order with this outcome."""
    _, runs = all_orders(programs, scratch, given)
    lines = given.data.decode("utf-8", "replace").split("\n")
    for run in runs:
        if run.outcome == " ".join(outcome.split()):
            return "\n".join([f"# {given.name}, in an order with the outcome {run.outcome}", *(lines[step.at - 1] for step in run.order)])
    raise Stop(f"{given.name}: no order has the outcome {outcome}", 1)
