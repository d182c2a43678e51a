"""How a run is timed: by the clock, in processor time, with its peak memory; and what else the machine did meanwhile."""
from __future__ import annotations

import ctypes
import os
import resource
import signal
import subprocess
import sys
import threading
import time
from dataclasses import dataclass

TOP = os.path.dirname(os.path.dirname(os.path.dirname(os.path.realpath(__file__))))
# The kernel counts to a process what its parent took when it was started. So a shell, which is small, starts each program, says its number
# and ends; the program then falls to this process, is told to begin, and is waited for alone.
PR_SET_CHILD_SUBREAPER = 36
ctypes.CDLL(None).prctl(PR_SET_CHILD_SUBREAPER, 1, 0, 0, 0)
START = 'exec 3<&0; { read -r _ <&3; exec "$@" 3<&- </dev/null 2>/dev/null; } & echo $! >&2'


def proved(name: str) -> str:
    """The path of a program's proved build, or in the folder that RCCE_PROGRAMS names; ends the command where there is none."""
    folder = os.environ.get("RCCE_PROGRAMS")
    if folder:
        path = os.path.abspath(f"{folder}/{name}")
        return path if os.access(path, os.X_OK) else sys.exit(f"the folder of RCCE_PROGRAMS has no program {name}")
    found = subprocess.run([f"{TOP}/build", "--proved", name], stdout=subprocess.PIPE, text=True)
    if found.returncode:
        sys.exit(2)
    return found.stdout.strip()


@dataclass(frozen=True)
class Run:
    """What runs took: the seconds by the clock, those of the processors, the peak memory in MiB, and whether they ended by themselves."""

    clock: float
    own: float
    memory: float
    ended: bool = True

    def least(self, other: "Run") -> "Run":
        """The least times and the greatest memory of both."""
        return Run(min(self.clock, other.clock), min(self.own, other.own), max(self.memory, other.memory), self.ended and other.ended)

    def without(self, other: "Run") -> "Run":
        """What is left without the times of another run."""
        return Run(max(self.clock - other.clock, 1e-6), max(self.own - other.own, 1e-6), self.memory, self.ended)


def run(words: list[str], piped: bool = False, last: float = 120, statuses: tuple[int, ...] = (0,)) -> Run:
    """One run, whose output is dropped, or goes through a pipe; it is ended after so many seconds."""
    reader = subprocess.Popen(["cat"], stdin=subprocess.PIPE, stdout=subprocess.DEVNULL) if piped else None
    shell = subprocess.Popen(["sh", "-c", START, "sh", *words], stdin=subprocess.PIPE,
                             stdout=reader.stdin if reader else subprocess.DEVNULL, stderr=subprocess.PIPE)
    if reader and reader.stdin:
        reader.stdin.close()
    assert shell.stderr and shell.stdin
    with shell.stderr, shell.stdin:
        child = int(shell.stderr.readline())
        shell.wait()
        start = time.monotonic()
        shell.stdin.write(b"\n")
    timer = threading.Timer(last, os.kill, (child, signal.SIGKILL))
    timer.start()
    _, status, used = os.wait4(child, 0)
    timer.cancel()
    if reader:
        reader.wait()
    code = os.waitstatus_to_exitcode(status)
    if code not in (*statuses, -signal.SIGKILL):
        sys.exit(f"{' '.join(words)} ended with status {code}")
    return Run(time.monotonic() - start, used.ru_utime + used.ru_stime, used.ru_maxrss / 1024, code != -signal.SIGKILL)


# A run below so many seconds swings by more than a bound allows: the least of so many such runs does not.
SHORT, MANY = 0.5, 25


def in_turn(commands: list[list[str]], rounds: int, most: float = float("inf"), many: int = 0) -> list[Run]:
    """The least of some runs of each command, which are taken in turn; fewer rounds where these take `most` seconds together, and at least
    `many` where the first run of each is a short one."""
    found: list[Run | None] = [None] * len(commands)
    start = time.monotonic()
    while rounds > 0:
        first, rounds = found[0] is None, rounds - 1
        for at, command in enumerate(commands):
            now, before = run(command), found[at]
            found[at] = before.least(now) if before else now
        if first and all(it.clock < SHORT for it in found if it):
            rounds = max(rounds, many - 1)
        if time.monotonic() - start > most or not all(it.ended for it in found if it):
            break
    return [it for it in found if it]


def machine() -> tuple[float, float]:
    """The seconds that all processors have worked, and those that the host took away."""
    with open("/proc/stat", encoding="ascii") as file:
        user, nice, system, _, _, irq, soft, steal = map(int, file.readline().split()[1:9])
    tick = os.sysconf("SC_CLK_TCK")
    return (user + nice + system + irq + soft) / tick, steal / tick


def own() -> float:
    """The processor seconds of this process and of all that it has waited for."""
    used = [resource.getrusage(who) for who in (resource.RUSAGE_SELF, resource.RUSAGE_CHILDREN)]
    return sum(it.ru_utime + it.ru_stime for it in used)


class Beside:
    """What else a machine does while something is measured."""

    def __init__(self) -> None:
        self.start, self.machine, self.own = time.monotonic(), machine(), own()

    def __str__(self) -> str:
        passed = max(time.monotonic() - self.start, 0.01) * (os.cpu_count() or 1)
        worked, stolen = (now - then for now, then in zip(machine(), self.machine))
        others = max(worked - (own() - self.own), 0)
        return (f"beside it, of the time of {os.cpu_count()} processors: other work {others / passed:.1%}, taken by the host {stolen / passed:.1%}")
