"""Checks the way from a port's log to a verdict: the logs of bench/ports, each with the fault of its name, are judged as the table there says; and
where a compiler is on the machine, the emulated chip is built, writes these logs again, and has whole runs without a fault."""
from __future__ import annotations

import contextlib
import io
import os
import pathlib
import re
import shutil
import subprocess
import tempfile
from typing import Any, NamedTuple

from trace_lib.from_logs import trace_from

PORTS = pathlib.Path(__file__).resolve().parents[2] / "bench/ports"
# the calls of a rank of the program that the logs are of: two rounds of a send, a receive and two barriers
WHOLE = 8
# runs without a fault, by the words of the emulator
RUNS = ("--seed 2", "--seed 3 --bits", "--threads --rounds 1", "--threads --bits --rounds 1", "--seed 4 --bytes 3600 --ranks 2", "--seed 5 --bytes 6700 --bits --rounds 1",
        "--seed 6 --bytes 0 --ranks 5", "--seed 7 --bytes 3584 --by-core")


class Case(NamedTuple):
    """A line of the table: a fault, its layout and seed, and the verdict; of a refused trace the line of the log, and what is refused there."""

    fault: str
    layout: str
    seed: str
    verdict: str
    line: int
    event: str

    @property
    def words(self) -> list[str]:
        """The words of the emulator."""
        return ["--fault", self.fault, "--seed", self.seed, *(["--bits"] if self.layout == "bits" else [])]

    @property
    def log(self) -> pathlib.Path:
        """Its stored log."""
        return PORTS / f"logs/{self.fault}.{self.layout}.log"


def cases() -> list[Case]:
    """The lines of the table."""
    lines = (PORTS / "verdicts").read_text(encoding="ascii").splitlines()
    words = [line.split(None, 5) for line in lines if not line.startswith("#")]
    return [Case(*it[:4], int(it[4]) if it[4:] else 0, it[5] if it[5:] else "") for it in words]


def judged(folder: str, map_: pathlib.Path, log: pathlib.Path) -> tuple[str, list[int]]:
    """What is said of a log's trace: the verdict as the table has it, and how many calls each rank has finished."""
    told = io.StringIO()
    with contextlib.redirect_stderr(told):
        status = trace_from([str(map_), str(log), "-o", f"{folder}/made"])
    if status or told.getvalue():
        return f"trace_from ends with {status}: {told.getvalue():.300}", []
    ran = subprocess.run([f"{os.environ['RCCE_PROGRAMS']}/rccetrace", "made"], cwd=folder, capture_output=True, text=True, timeout=300)
    if found := re.match(r"not legal: line (\d+): ", ran.stdout):
        line = pathlib.Path(folder, "made").read_text(encoding="ascii").splitlines()[int(found[1]) - 1]
        access, name, at = re.fullmatch(r"\d+ (\w+) \S+ \w+ # (.*), \S+:(\d+)", line).groups()  # type: ignore[union-attr]
        return f"refused {at} {access} {name}", []
    finished = [int(it) for it in re.findall(r"(?m)^rank \d+ finished (\d+) calls?", ran.stdout)]
    return ("legal" if ran.stdout.startswith("legal") else f"{ran.stdout!r:.200}"), finished


def check_ports(called: Any, write: bool) -> tuple[int, list[str]]:
    """The stored logs, and what the emulator writes."""
    checked, wrong = 0, []
    with tempfile.TemporaryDirectory() as folder:
        emulator = build(folder)
        for case in cases():
            text = run(emulator, *case.words) if emulator else None
            if write and text is not None:
                lines = text.splitlines(keepends=True)
                case.log.write_text("".join(lines[: case.line or None]), encoding="ascii")
            said, finished = judged(folder, PORTS / f"{case.layout}.map", case.log)
            is_open = said == "legal" and not all(count == WHOLE for count in finished)
            wanted = f"refused {case.line} {case.event}" if case.verdict == "refused" else case.verdict
            stored = case.log.read_text(encoding="ascii")
            bad = [] if wanted == ("open" if is_open else said) else [f"{said} {finished}"]
            bad += [] if text is None or (text.startswith(stored) if case.line else text == stored) else ["the emulator writes another log"]
            checked, wrong = checked + 1, wrong + [f"bench/ports/verdicts: {case.fault} {case.layout}: {it}" for it in bad]
        if emulator:
            number, more = check_runs(folder, emulator)
            checked, wrong = checked + number, wrong + more
    return checked, wrong


def check_runs(folder: str, emulator: str) -> tuple[int, list[str]]:
    """Whole runs without a fault, and the maps."""
    wrong = []
    for words in RUNS:
        options = words.split()
        maps = [it for at, it in enumerate(options) if it == "--bits" or "--ranks" in options[max(0, at - 1) : at + 1]]
        pathlib.Path(folder, "a.map").write_text(run(emulator, "--map", *maps), encoding="ascii")
        pathlib.Path(folder, "a.log").write_text(run(emulator, *options), encoding="ascii")
        said, finished = judged(folder, pathlib.Path(folder, "a.map"), pathlib.Path(folder, "a.log"))
        rounds = 1 if "--rounds" in options else 2
        wrong += [] if said == "legal" and finished and set(finished) == {WHOLE // 2 * rounds} else [f"emulated {words}: {said} {finished}"]
    for layout, maps in (("words", []), ("bits", ["--bits"])):
        same = run(emulator, "--map", *maps) == (PORTS / f"{layout}.map").read_text(encoding="ascii")
        wrong += [] if same else [f"bench/ports/{layout}.map is not what the emulator prints"]
    names = [line.split()[0] for line in run(emulator, "--faults").splitlines()]
    listed = list(dict.fromkeys(case.fault for case in cases()))
    wrong += [] if names == listed else [f"the faults of bench/ports/verdicts are not those of the emulator: {set(names) ^ set(listed)}"]
    return len(RUNS) + 3, wrong


def build(folder: str) -> str | None:
    """Builds the emulator, where there is a compiler."""
    if not shutil.which("g++"):
        return None
    path = f"{folder}/emulated"
    subprocess.run(["g++", "-O1", "-std=c++17", "-Wall", "-Wextra", "-Werror", "-pthread", "-o", path, PORTS / "emulated.cc"], check=True)
    return path


def run(emulator: str, *words: str) -> str:
    """What the emulator writes."""
    return subprocess.run([emulator, *words], stdout=subprocess.PIPE, stderr=subprocess.DEVNULL, text=True, timeout=300).stdout
