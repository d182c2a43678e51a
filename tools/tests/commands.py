"""Checks the help of each command beside the product, and how trace and page end: a full device, a reader that goes away, no program there;
and what is said without python3, and without a build and a toolchain."""
from __future__ import annotations

import os
import pathlib
import subprocess
import tempfile
from typing import Any

TOP = pathlib.Path(__file__).resolve().parents[2]
# what is called by others alone, or has no words but those of the gate
NO_WORDS = ("scripts/run_program", "scripts/installed_command", ".ci/run")
NO_TOOLCHAIN = "rcceaudit: the command rt of the Rattle toolchain is not on the PATH, and nothing is built of these sources yet"
TRACE = "rcce trace 1 nue 1 layout words hosts 0\n" + "0 load 0.225.0 0000000000000000\n" * 2000


def check_commands(called: Any, write: bool) -> tuple[int, list[str]]:
    """What of the ends of both commands is wrong."""
    wrong = []
    with tempfile.TemporaryDirectory() as folder:
        pathlib.Path(folder, "a.trace").write_text(TRACE, encoding="ascii")
        pathlib.Path(folder, "a.log").write_text("rcce log 1\n", encoding="ascii")
        for name in ("trace", "page"):
            told = called([name, "--help"], folder)
            wrong += [] if told.returncode == 0 and b"Status: 0" in told.stdout else [f"{name} --help"]
            wrong += [] if called([name, "--version"], folder).stdout.startswith(f"{name} ".encode()) else [f"{name} --version"]
            with open("/dev/full", "wb") as full:
                ran = called([name, "a.trace"], folder, stdout=full)
            wrong += [] if (ran.returncode, ran.stderr) == (6, b"standard output: No space left on device\n") else [f"{name} into a full device: {ran}"]
            reading, writing = os.pipe()
            os.close(reading)
            ran = called([name, "a.trace"], folder, stdout=writing)
            os.close(writing)
            wrong += [] if (ran.returncode, ran.stderr) == (6, b"") else [f"{name} without a reader: {ran}"]
            made = called([name, "a.trace", "-o", "made"], folder)
            same = pathlib.Path(folder, "made").read_bytes() == called([name, "a.trace"], folder).stdout
            wrong += [] if made.returncode == 0 and not made.stdout and same else [f"{name} -o"]
        gone: subprocess.CompletedProcess[bytes] = called(["trace", "a.log"], folder, env={**os.environ, "RCCE_PROGRAMS": f"{folder}/none"})
        wrong += [] if gone.returncode == 70 and gone.stderr.startswith(b"rcce: the program rcceaudit is not in ") else [f"no rcceaudit: {gone}"]
        pathlib.Path(folder, "rcceaudit").write_text(f"#!/bin/sh\necho '{NO_TOOLCHAIN}' >&2\nexit 127\n", encoding="ascii")
        os.chmod(f"{folder}/rcceaudit", 0o755)
        for words in (["trace", "a.log"], ["audit", "a.log"]):
            ran = called(words, folder, env={**os.environ, "RCCE_PROGRAMS": folder})
            wrong += [] if (ran.returncode, ran.stderr.decode()) == (127, f"{NO_TOOLCHAIN}\n") else [f"{words} without a build and a toolchain: {ran}"]
        for name in ("rcce", "trace", "page"):
            ran = called([name, "--version"], folder, env={"PATH": folder})
            said = f"{name}: it needs the command python3, which is not on the PATH\n".encode()
            wrong += [] if (ran.returncode, ran.stderr) == (127, said) else [f"{name} without python3: {ran}"]
    helped, unhelped = check_help()
    return 16 + helped, wrong + unhelped


def check_help() -> tuple[int, list[str]]:
    """Which commands do not tell their words, with status 0 and nothing on standard error."""
    found = [path for place in (".", "bench", "scripts", "tools", "examples", "lessons", "lessons/litmus", "lessons/shapes", "rows", ".ci") for path in (TOP / place).iterdir()]
    programs = {path.parent.parent.name for path in TOP.glob("crates/*/src/main.rt")}
    names = sorted(str(path.relative_to(TOP)) for path in found if path.is_file() and os.access(path, os.X_OK))
    names = [name for name in names if name not in (*NO_WORDS, *programs)]
    wrong = []
    for name in names:
        told = subprocess.run([TOP / name, "--help"], capture_output=True, stdin=subprocess.DEVNULL, timeout=60)
        wrong += [] if (told.returncode, told.stderr) == (0, b"") and len(told.stdout) > 100 else [f"{name} --help: {told}"]
    return len(names), wrong
