"""The words of the command: what each subcommand takes, and which part of it answers."""
from __future__ import annotations

import argparse
import os
import sys
import traceback
from typing import Any, Callable, NoReturn, Sequence

from rcce_lib.inputs import Given, Scratch, read
from rcce_lib.progress import Progress
from rcce_lib.programs import Programs, version
from rcce_lib.shown import Paint, say, say_object
from rcce_lib.stops import OWN_FAILURE, Refused, Stop

EPILOG = """FILE - is standard input. Where -nue is left out, the number of UEs is the one that the first line of the script
names, as those of examples/ do: # rccerun -nue 2 hello.rcce. A fault is told as FILE:LINE: KIND: what is wrong, and rcce
explain KIND has an example. Status: 0 all is well; 1 wrong words of a program, or rcce grade finds a difference; 2 a file is
refused, or wrong words of rcce; 3 a UE does not finish, or a log is not legal; 4 no memory; 5 a file is absent or can't be
read; 6 a write failed; 70 rcce itself failed; 127 python3, or rt where a program is not built, is missing."""


def number(least: int, most: int) -> Callable[[str], int]:
    """A reader of numbers of 1 to 10 digits within a range."""

    def read_number(word: str) -> int:
        """The number of a word."""
        if not (word.isascii() and word.isdigit() and len(word) <= 10 and least <= int(word) <= most):
            raise argparse.ArgumentTypeError(f"a number from {least} to {most} is wanted, not {word!r}")
        return int(word)

    return read_number


# what other launchers call the number of UEs
COUNTS = ("n", "np", "nue", "nues", "nprocs", "ntasks", "procs", "ranks", "ues")


class Parser(argparse.ArgumentParser):
    """A parser that tells wrong words in one line: which option it does not know, and which is given twice."""

    def parse_known_args(self, args: Sequence[str] | None = None, namespace: Any = None) -> Any:
        """Looks at the options first: argparse would take the value of one that it does not know for a file, and the last of two."""
        words, at, seen = list(sys.argv[1:] if args is None else args), 0, set()
        known = {} if self._subparsers else self._option_string_actions
        if self._subparsers and words and words[0].startswith("-") and words[0] not in self._option_string_actions:
            self.error(f"unknown word: {words[0]}: a command comes first")
        while known and at < len(words) and words[at] != "--":
            name, equals, _ = words[at].partition("=")
            at += 1
            if name.startswith("-") and name != "-":
                if name not in known:
                    counts = name.strip("-").lower() in COUNTS and "-nue" in known
                    self.error(f"unknown word: {name}" + (": the number of UEs is -nue N" if counts else ""))
                if name in seen:
                    self.error(f"given twice: {name}")
                seen.add(name)
                at += known[name].nargs is None and not equals
        return super().parse_known_args(args, namespace)  # type: ignore[call-overload]

    def error(self, message: str) -> NoReturn:
        """Ends with the status of wrong words."""
        self.exit(2, f"{self.prog}: {message} ({self.prog} --help tells the words)\n")


class Work:
    """What a subcommand works with: its words, the programs, and the files that it reads."""

    def __init__(self, words: argparse.Namespace, parser: argparse.ArgumentParser, progress: Progress, scratch: Scratch) -> None:
        self.words = words
        self.parser = parser
        self.scratch = scratch
        self.programs = Programs(progress)
        self.paint = Paint(sys.stdout)

    def read(self, name: str) -> Given:
        """A file that the user names."""
        return read(name, self.scratch)

    def script(self) -> tuple[Given, int]:
        """The script and its number of UEs."""
        given = self.read(self.words.script)
        ues = self.words.nue or given.named_ues()
        if not ues:
            self.parser.error("-nue N is missing, and the first line of the script does not name it")
        return given, ues

    def answer(self, found: dict[str, object], text_of: Callable[[dict[str, object], Paint], str]) -> int:
        """Writes an answer, as JSON or as text, and gives its status."""
        if self.words.json:
            say_object(found)
        else:
            say(text_of(found, self.paint))
        return int(found["status"])  # type: ignore[call-overload]


def do_run(work: Work) -> int:
    """Runs a script over the chip."""
    from rcce_lib import running

    asked = work.words
    if asked.gen is not None:
        if asked.script or asked.f or asked.bits or asked.evict is not None or asked.serial is not None:
            work.parser.error("-gen takes no script and no option but -nue")
        script, ues, words, name = None, asked.nue or work.parser.error("-nue N is missing"), ["-gen", str(asked.gen)], None
    else:
        if not asked.script:
            work.parser.error("a script is missing")
        script, ues = work.script()
        words, name = _run_words(work, script), script.name
    words = ["-nue", str(ues), *words]
    if asked.json:
        return work.answer(running.run_object(work.programs, words, name, ues), lambda found, paint: "")
    return running.run(work.programs, words, script)


def _run_words(work: Work, script: Given) -> list[str]:
    """The options of a run, and its script."""
    asked = work.words
    words = ["-bits"] if asked.bits else []
    for option in ("evict", "serial"):
        if getattr(asked, option) is not None:
            words += [f"-{option}", str(getattr(asked, option))]
    if asked.f:
        hosts = work.read(asked.f)
        work.programs.files[hosts.path] = hosts.name, "host file"
        words += ["-f", hosts.path]
    work.programs.files[script.path] = script.name, "script"
    return [*words, script.path]


def do_why(work: Work) -> int:
    """Tells why a script does not finish."""
    from rcce_lib import joined, why

    return work.answer(why.explain(joined.ask(work.programs, *work.script())), why.text_of)


def do_sum(work: Work) -> int:
    """Counts a run."""
    from rcce_lib import joined, sums

    return work.answer(sums.count(joined.ask(work.programs, *work.script())), sums.text_of)


def do_mesh(work: Work) -> int:
    """Maps the load of the mesh."""
    from rcce_lib import mesh

    return work.answer(mesh_load(work), mesh.text_of)


def mesh_load(work: Work) -> dict[str, object]:
    """What the links carry, on the cores that a host file or a list names."""
    from rcce_lib import joined, mesh

    script, ues = work.script()
    cores = work.words.at
    if work.words.f:
        cores = mesh.cores_of(work.programs, work.read(work.words.f), read(os.devnull, work.scratch), ues)
    if cores and len(cores) != ues:
        work.parser.error(f"-at names {len(cores)} cores for {ues} UEs")
    return mesh.load(joined.ask(work.programs, script, ues), cores)


def do_draw(work: Work) -> int:
    """Draws a picture."""
    from rcce_lib import drawing, joined, sequence, why

    asked = work.words
    if asked.picture == "mesh":
        picture = drawing.Mesh(mesh_load(work))
    else:
        told = joined.ask(work.programs, *work.script())
        picture = drawing.Waits(why.explain(told)) if asked.picture == "waits" else sequence.Messages(told)
    form = asked.form or drawing.form_of(asked.o, sys.stdout.isatty())
    if form == "dot" and asked.picture != "waits":
        work.parser.error("dot is a form of waits alone")
    text = {"svg": picture.svg, "text": picture.text, "dot": picture.dot}[form]()
    if asked.json:
        say_object({"command": "draw", "picture": asked.picture, "form": form, "status": picture.status, "text": text})
    elif asked.o:
        write(asked.o, text)
    else:
        say(text.removesuffix("\n"))
    return picture.status


def write(name: str, text: str) -> None:
    """Writes a file that the user names."""
    try:
        with open(name, "w", encoding="utf-8") as file:
            file.write(text)
    except OSError as error:
        raise Stop(f"{name}: {error.strerror}", 6) from error


def do_log(work: Work) -> int:
    """Prints the log of a run."""
    from rcce_lib import auditing

    script, ues = work.script()
    work.programs.files[script.path] = script.name, "script"
    ran = work.programs.run("rcceaudit", "-log", "-nue", str(ues), script.path, stream=not work.words.json)
    if work.words.json:
        say_object(auditing.log_object(script.name, ran.out, ran.status))
    return ran.status


def do_audit(work: Work) -> int:
    """Judges a log."""
    from rcce_lib import auditing

    return work.answer(auditing.audit(work.programs, work.scratch, work.read(work.words.log)), auditing.text_of)


def do_lab(work: Work) -> int:
    """Does the steps of a lab."""
    from rcce_lib import labs

    given = work.read(work.words.lab)
    if work.words.json:
        return work.answer(labs.lab_object(work.programs, given), lambda found, paint: "")
    return labs.run(work.programs, given)


def do_lab_orders(work: Work) -> int:
    """Runs a lab in every order of its steps."""
    from rcce_lib import lab_orders

    given = work.read(work.words.lab)
    if work.words.show is None:
        return work.answer(lab_orders.orders(work.programs, work.scratch, given), lab_orders.text_of)
    text = lab_orders.shown(work.programs, work.scratch, given, work.words.show)
    return work.answer({"command": "lab orders", "status": 0, "text": text}, lambda found, paint: str(found["text"]))


def do_trace(work: Work) -> int:
    """Judges a trace."""
    from rcce_lib import tracing

    asked = work.words
    try:
        found = tracing.judge(work.programs, work.scratch, work.read(asked.trace), asked.keep_going, asked.moves)
    except Refused as stop:
        # what was said before the line that is refused
        if stop.out and not asked.json:
            say(stop.out.removesuffix("\n"))
        raise
    return work.answer(found, tracing.text_of)


def do_grade(work: Work) -> int:
    """Grades the scripts of a folder."""
    from rcce_lib import grading

    asked = work.words
    found = grading.grade(work.programs, work.scratch, asked.folder, asked.wanted or asked.folder, asked.nue)
    return work.answer(found, grading.text_of)


def do_explain(work: Work) -> int:
    """Explains kinds of faults."""
    from rcce_lib import explained

    found = explained.explain(work.words.kind)
    if not found["kinds"]:
        work.parser.error(f"no kind is called {work.words.kind}; rcce explain alone lists all")
    return work.answer(found, explained.text_of)


def build_parser() -> Parser:
    """The parser of all words."""
    about = "Runs and explains scripts of RCCE by the proved programs of this repository."
    top = Parser("rcce", description=about, epilog=EPILOG, allow_abbrev=False)
    top.add_argument("--version", action="version", version=f"rcce {version()}")
    subs = top.add_subparsers(metavar="COMMAND", required=True)

    def add(name: str, about: str, does: Callable[[Work], int], script: bool = True) -> argparse.ArgumentParser:
        """A subcommand with what all have."""
        sub = subs.add_parser(name, help=about, description=about[0].upper() + about[1:] + ".", epilog=EPILOG, allow_abbrev=False)
        sub.set_defaults(does=does, parser=sub)
        sub.add_argument("--version", action="version", version=f"rcce {version()}")
        sub.add_argument("--json", action="store_true", help="write one object as JSON (docs/TOOLS.md has its fields)")
        sub.add_argument("--quiet", action="store_true", help="do not tell that long work goes on")
        if script:
            add_script(sub)
        return sub

    add_run(add("run", "run a script over the chip and print what its UEs print", do_run, script=False))
    add("why", "tell why a script does not finish: who waits for whom, where, and what would help", do_why)
    add("sum", "count the messages, bytes, barriers and the longest chain of messages of a script", do_sum)
    add_cores(add("mesh", "map what the links of the chip's mesh carry", do_mesh))
    add_draw(add("draw", "draw who waits for whom, the messages or the mesh", do_draw, script=False))
    add("log", "print the log of a run's calls", do_log)
    audit = add("audit", "tell whether a log is legal, and why it is not", do_audit, script=False)
    audit.add_argument("log", metavar="LOG", help="the log, or - for standard input")
    lab = add("lab", "do the steps of a lab, and tell what is wrong with one that is refused", do_lab, script=False)
    lab.add_argument("lab", metavar="LAB", help="the lab, or - for standard input")
    orders = add("lab orders", "run a lab in every order of its steps, each core's own in theirs, and count the outcomes", do_lab_orders, script=False)
    orders.add_argument("--show", metavar="OUTCOME", help="print the lab in the first order with this outcome, as '1 0'")
    orders.add_argument("lab", metavar="LAB", help="the lab, or - for standard input")
    trace = add("trace", "tell whether a trace is legal, and what stood before the event that is not", do_trace, script=False)
    trace.add_argument("--keep-going", action="store_true", help="leave out each event that is refused, judge the rest, and count by rank; "
                       "what is refused later may come of what was before")
    trace.add_argument("--moves", metavar="N", type=number(0, 1000), default=0, help="draw the last N moves of the ranks concerned")
    trace.add_argument("trace", metavar="TRACE", help="the trace, or - for standard input")
    grade = add("grade", "run the scripts of a folder and compare with stored outputs", do_grade, script=False)
    grade.add_argument("-nue", metavar="N", type=number(1, 48), help="how many UEs there are, for all scripts")
    grade.add_argument("--wanted", metavar="FOLDER", help="the folder of the stored outputs, if it is another one")
    grade.add_argument("folder", metavar="FOLDER", help="the folder with each NAME.rcce, and NAME.out and NAME.err")
    explain = add("explain", "tell the rule of a kind of fault, a wrong line and the right one", do_explain, script=False)
    explain.add_argument("kind", metavar="KIND", nargs="?", help="the kind, in any case; without it all are listed")
    return top


def add_script(sub: argparse.ArgumentParser, need: str | None = None) -> None:
    """The number of UEs and the script."""
    sub.add_argument("-nue", metavar="N", type=number(1, 48), help="how many UEs there are, 1 to 48")
    sub.add_argument("script", metavar="SCRIPT", nargs=need, help="the script, or - for standard input")


def add_cores(sub: argparse.ArgumentParser) -> None:
    """The cores of the ranks."""
    cores = sub.add_mutually_exclusive_group()
    cores.add_argument("-at", metavar="LIST", type=core_list, help="the core of each rank, with commas between; else rank r is on core r")
    cores.add_argument("-f", metavar="HOSTS", help="a file with the core of each rank")


def core_list(word: str) -> list[int]:
    """A list of different cores with commas between."""
    cores = [number(0, 47)(part) for part in word.split(",")]
    if len(set(cores)) != len(cores):
        raise argparse.ArgumentTypeError(f"different cores are wanted, not {word!r}")
    return cores


def add_draw(sub: argparse.ArgumentParser) -> None:
    """The picture, its form and where it goes."""
    sub.add_argument("picture", choices=("waits", "messages", "mesh"), help="what is drawn")
    add_script(sub)
    add_cores(sub)
    sub.add_argument("-o", metavar="FILE", help="the file that is written, of the form that its ending names (.svg, .txt, .dot)")
    sub.add_argument("--form", choices=("svg", "text", "dot"), help="the form; else text on a terminal and svg elsewhere; dot is for waits")


def add_run(sub: argparse.ArgumentParser) -> None:
    """The options of a run."""
    add_script(sub, "?")
    sub.add_argument("-f", metavar="HOSTS", help="a file with the core of each rank")
    sub.add_argument("-evict", metavar="S", type=number(0, 2**32 - 1), help="let cached lines leave at random, drawn from the seed S")
    sub.add_argument("-serial", metavar="S", type=number(0, 2**32 - 1), help="run all UEs on one thread, in an order drawn from S")
    sub.add_argument("-bits", action="store_true", help="take one-bit flags under test-and-set registers")
    sub.add_argument("-gen", metavar="S", type=number(0, 65535), help="run a script that is made of the number S")


def main(argv: list[str]) -> int:
    """Does what the words ask, and gives the status."""
    at = argv.index("orders") if "orders" in argv else 0
    if argv[:1] == ["lab"] and all(it.startswith("-") for it in argv[1:at]) and at:
        argv = ["lab orders", *argv[1:at], *argv[at + 1 :]]
    words = build_parser().parse_args(argv)
    scratch = Scratch()
    try:
        with Progress(words.quiet) as progress:
            work = Work(words, words.parser, progress, scratch)
            status = words.does(work)
        sys.stdout.flush()
        return status
    except Stop as stop:
        return stopped(stop, words)
    except KeyboardInterrupt:
        print("rcce: interrupted", file=sys.stderr)
        return 130
    except OSError as error:
        return write_failed(error)
    except Exception:
        # a status that no program has, and what whoever mends it wants to see
        traceback.print_exc()
        print("rcce: this is a fault of rcce itself", file=sys.stderr)
        return OWN_FAILURE
    finally:
        scratch.close()


def stopped(stop: Stop, words: argparse.Namespace) -> int:
    """Tells why there is no answer: on standard error, and with --json as an object too."""
    if words.json:
        found: dict[str, object] = {"status": stop.status, "error": stop.line}
        if isinstance(stop, Refused):
            found["fault"] = stop.fault.as_object()
        say_object(found)
    print("\n".join([Paint(sys.stderr)("bad", stop.line), *stop.below]), file=sys.stderr)
    return stop.status


def write_failed(error: OSError) -> int:
    """A write failed: nothing more is written."""
    # what is still held back would fail again when the interpreter ends
    os.dup2(os.open(os.devnull, os.O_WRONLY), 1)
    if isinstance(error, BrokenPipeError):
        return 6
    print(f"rcce: {error.strerror}", file=sys.stderr)
    return 6 if error.filename is None else OWN_FAILURE
