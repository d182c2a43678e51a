"""A model of labs, after docs/LAB.md alone: what rccelab prints of steps that are drawn from a seed.

It has no part in a program, and nothing is proved of it. It does word by word what the page says, so that the page and the program are compared."""
from __future__ import annotations

import os
import pathlib
import random
import subprocess
import tempfile

WORDS, CACHE_LINES, FIRST_HEAP = range(4), 512, 225
CORES, LINES = 3, 3
# how many labs are compared, and of how many steps
LABS, STEPS = 20, 300
VERBS = ("write", "write", "read", "read", "flush", "invalidate", "put", "get", "load", "load", "store", "store", "take", "free", "print")
Line = tuple[int, int]


def name(line: Line) -> str:
    """A line as a lab names it."""
    return f"{line[0]}:{line[1]}"


class LabModel:
    """The shared words, what each core holds, and what was printed."""

    def __init__(self) -> None:
        self.words: dict[tuple[Line, int], int] = {}
        self.caches: list[dict[Line, list[int]]] = [{} for _ in range(CORES)]
        self.buffers: list[tuple[Line, dict[int, int]] | None] = [None] * CORES
        self.registers: dict[int, int] = {}
        self.out: list[str] = []

    def word(self, line: Line, word: int) -> int:
        """A shared word."""
        return self.words.get((line, word), 0)

    def access(self, core: int, verb: str, line: Line, word: int, value: int) -> None:
        """Prints an access; a store changes the word."""
        if verb == "store":
            self.words[line, word] = value
        self.out.append(f"{core} {verb} {line[0]}.{FIRST_HEAP + line[1]}.{word} {value:016x} # heap")

    def answer(self, line: Line, word: int, value: int, source: str) -> int:
        """Prints what a read answers."""
        self.out.append(f"answer {name(line)}.{word} {value:016x} from {source}")
        return value

    def flush(self, core: int) -> None:
        """Stores the words that wait, word 3 first."""
        line, waiting = self.buffers[core] or ((0, 0), {})
        self.buffers[core] = None
        for word in sorted(waiting, reverse=True):
            self.access(core, "store", line, word, waiting[word])

    def note(self, core: int, line: Line, word: int, value: int) -> None:
        """Writes a word into a copy that is there."""
        if line in self.caches[core]:
            self.caches[core][line][word] = value

    def write(self, core: int, line: Line, word: int, value: int) -> None:
        """A write of a word."""
        self.note(core, line, word, value)
        held = self.buffers[core]
        if held and held[0] != line:
            self.flush(core)
        self.buffers[core] = (line, {**(self.buffers[core] or (line, {}))[1], word: value})

    def fill(self, core: int, line: Line) -> None:
        """Brings a line in, behind the others."""
        for word in WORDS:
            self.access(core, "load", line, word, self.word(line, word))
        self.caches[core][line] = [self.word(line, word) for word in WORDS]
        if len(self.caches[core]) > CACHE_LINES:
            del self.caches[core][next(iter(self.caches[core]))]

    def read(self, core: int, line: Line, word: int, evict: Line | None) -> None:
        """A read of a word, which looks into the buffer, the cache and the shared words."""
        held = self.buffers[core]
        if held and held[0] == line and word in held[1]:
            self.answer(line, word, held[1][word], "buffer line")
        elif line in self.caches[core]:
            self.answer(line, word, self.caches[core][line][word], "cache")
        else:
            self.fill(core, line)
            self.answer(line, word, self.word(line, word), "words")
            if evict is not None and self.caches[core].pop(evict, None) is not None:
                self.out.append(f"evicted {name(evict)}")

    def print(self, core: int) -> None:
        """What a core holds."""
        held = [f" caches {name(line)}" + "".join(f" {value:016x}" for value in words) for line, words in self.caches[core].items()]
        line, waiting = self.buffers[core] or ((0, 0), {})
        shown = "".join(f" {waiting[word]:016x}" if word in waiting else " -" for word in WORDS)
        held = [*(held or [" caches nothing"]), f" buffers {name(line)}{shown}" if waiting else " buffers nothing"]
        self.out += [f"core {core}{it}" for it in held]

    def register(self, core: int, verb: str, register: int) -> None:
        """A take or a free."""
        took = verb == "take" and register not in self.registers
        self.out.append(f"{core} {verb} {register}.register {int(took):016x} # register")
        if verb == "free":
            del self.registers[register]
        else:
            self.registers.setdefault(register, core)
            self.out.append(f"answer {'took' if took else 'taken'}")


def _line(model: LabModel, drawn: random.Random, core: int, verb: str) -> str:
    """Makes a step of a core that is no step on a register, and gives the words behind its verb."""
    line, word, whole = (drawn.randrange(CORES), drawn.randrange(LINES)), drawn.randrange(4), drawn.random() < 0.3
    values = [drawn.choice((0, 1, drawn.getrandbits(64))) for _ in WORDS]
    at = "" if line[0] == core and drawn.random() < 0.5 else f"{line[0]}:"
    place, hexes = f" {at}{line[1]}", "".join(f" {value:x}" for value in values)
    if verb in ("put", "get"):
        model.flush(core)
    if verb == "put":
        for at_word in reversed(WORDS):
            model.access(core, "store", line, at_word, values[at_word])
            model.note(core, line, at_word, values[at_word])
        return place + hexes
    if verb == "get":
        model.caches[core] = {}
        model.fill(core, line)
        for at_word in WORDS:
            model.answer(line, at_word, model.word(line, at_word), "words")
        return place
    if verb == "write":
        for at_word in WORDS if whole else (word,):
            model.write(core, line, at_word, values[at_word])
        return place + (hexes if whole else f".{word} {values[word]:x}")
    if verb == "store":
        model.access(core, "store", line, word, values[word])
        return f"{place}.{word} {values[word]:x}"
    if verb == "load":
        model.access(core, "load", line, word, model.word(line, word))
        came = model.answer(line, word, model.word(line, word), "words")
        return f"{place}.{word}" + drawn.choice(("", f" expect {came:x}"))
    evict = (drawn.randrange(CORES), drawn.randrange(LINES)) if drawn.random() < 0.4 else None
    for at_word in WORDS if whole else (word,):
        model.read(core, line, at_word, evict)
    return place + ("" if whole else f".{word}") + (f" evict {name(evict)}" if evict else "")


def drawn_lab(seed: int, steps: int) -> tuple[str, str]:
    """A lab of so many steps, and what rccelab prints of it. No step stops it."""
    model, drawn, lab = LabModel(), random.Random(seed), []
    while len(lab) < steps:
        core, verb, register = drawn.randrange(CORES), drawn.choice(VERBS), drawn.randrange(CORES)
        # a core takes no register that it has, and frees no other
        if verb in ("take", "free") and (verb == "free") != (model.registers.get(register) == core):
            continue
        model.out.append("")
        begins = len(model.out) - 1
        words = ""
        if verb in ("take", "free"):
            words = f" {register}"
            model.register(core, verb, register)
        elif verb == "flush":
            model.flush(core)
        elif verb == "invalidate":
            model.caches[core] = {}
        elif verb == "print":
            model.print(core)
        else:
            words = _line(model, drawn, core, verb)
        lab.append(f"core {core} {verb}{words}\n")
        model.out[begins] = f"line {len(lab)}: {lab[-1][:-1]}"
    return "".join(lab), "".join(f"{line}\n" for line in model.out)


def check_labs(write: bool) -> tuple[int, list[str]]:
    """Labs that are drawn: what rccelab prints of each is what the model says."""
    wrong = []
    with tempfile.TemporaryDirectory() as folder:
        file = pathlib.Path(folder, "drawn.lab")
        for seed in range(LABS):
            lab, told = drawn_lab(seed, STEPS)
            file.write_text(lab, encoding="ascii")
            ran = subprocess.run([f"{os.environ['RCCE_PROGRAMS']}/rccelab", str(file)], stdout=subprocess.PIPE, stderr=subprocess.PIPE, check=False)
            if (ran.returncode, ran.stdout.decode(), ran.stderr) != (0, told, b""):
                lines = zip(ran.stdout.decode().splitlines(), told.splitlines())
                first = next((f"{one}, and the model says {other}" for one, other in lines if one != other), ran.stderr.decode() or "another length")
                wrong.append(f"rccelab, drawn lab {seed}: {first}")
    return LABS, wrong
