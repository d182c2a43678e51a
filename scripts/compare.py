"""What the checks of stored outputs share (examples/check, lessons/check, rows/check, tools/check): their words, the programs, a run, what of it is
not as it is stored, beside a script or a lab or in a row, and the counts."""
import argparse
import os
import re
import shlex
import subprocess
import sys
from dataclasses import dataclass, field
from subprocess import CompletedProcess

TOP = os.path.dirname(os.path.dirname(os.path.realpath(__file__)))
# after so many seconds a run is ended
SECONDS = 120


def words_of(name, text, write=False, names=False):
    """The words of a check, of which its text tells. A word that is none ends it with status 2."""
    parser = argparse.ArgumentParser(name, description=text, formatter_class=argparse.RawDescriptionHelpFormatter)
    parser.add_argument("--programs", metavar="FOLDER", type=_folder)
    if write:
        parser.add_argument("--write", action="store_true")
    if names:
        parser.add_argument("names", metavar="NAME", nargs="*")
    return parser.parse_args()


def _folder(path):
    """A folder that a word names."""
    if not os.path.isdir(path):
        raise argparse.ArgumentTypeError(f"no folder is called {path}")
    return os.path.abspath(path)


def asked(*words):
    """The lines that ./build prints. It says itself why it prints none, and then the check ends with status 1."""
    told = subprocess.run([f"{TOP}/build", *words], stdout=subprocess.PIPE, text=True)
    return told.stdout.split("\n")[:-1] if told.returncode == 0 else sys.exit(1)


def programs_of(names, folder):
    """The paths of programs: those of a folder, if one is given, or the proved builds."""
    return {name: _program(f"{folder}/{name}" if folder else _proved(name)) for name in names}


def _program(path):
    """The path, if a program is there."""
    return path if os.access(path, os.X_OK) else sys.exit(f"no program: {path}")


def _proved(name):
    """The path of a proved build. A program without a command, which ./build leaves out, is built here if it has none."""
    quiet = {"stdout": subprocess.DEVNULL, "stderr": subprocess.DEVNULL}
    if not os.path.exists(f"{TOP}/{name}") and subprocess.run([f"{TOP}/build", "--proved", name], **quiet).returncode:
        print(f"./build leaves out {name}, which has no command, so it is built now", flush=True)
        subprocess.run([f"{TOP}/build", name], stdin=subprocess.DEVNULL)
    return asked("--proved", name)[0]


def run(command, folder=None, seconds=SECONDS):
    """The end of a run, which reads nothing. If it does not end by itself, or cannot be started, that is its status."""
    try:
        return subprocess.run(command, cwd=folder, stdin=subprocess.DEVNULL, capture_output=True, timeout=seconds)
    except subprocess.TimeoutExpired:
        return CompletedProcess(command, f"(no end in {seconds} seconds)", b"", b"")
    except OSError as error:
        return CompletedProcess(command, f"(not run: {error})", b"", b"")


def differences(wanted, ran, begins=()):
    """What of a run is not as it is stored. Of the streams in `begins` the beginning is stored, without the end of its last line."""
    found = [] if ran.returncode == wanted.returncode else [f"status {ran.returncode} for {wanted.returncode}"]
    for name, stored, made in (("out", wanted.stdout, ran.stdout), ("err", wanted.stderr, ran.stderr)):
        if stored is None:
            found.append(f"{name}: nothing is stored")
            continue
        if name in begins:
            stored = stored.removesuffix(b"\n")
            made = made[: len(stored)]
        if made != stored:
            found.append(f"{name} {_first_difference(stored.splitlines(True), made.splitlines(True))}")
    return found


def _first_difference(stored, made):
    """The first line of two lists that is not the same."""
    at = next(i for i in range(max(len(stored), len(made))) if stored[i : i + 1] != made[i : i + 1])
    told = [repr(lines[at])[1:201] if at < len(lines) else "nothing" for lines in (made, stored)]
    return f"line {at + 1}: {told[0]} for {told[1]}"


def read(path):
    """The bytes of a file, or None."""
    try:
        with open(path, "rb") as file:
            return file.read()
    except FileNotFoundError:
        return None


def write(path, text):
    """Writes a file. Where there is no text, there is no file."""
    if text is None:
        if os.path.exists(path):
            os.unlink(path)
        return
    with open(path, "wb") as file:
        file.write(text)


def stored(name):
    """What is stored of a run: NAME.out, and NAME.err if it stops or some UE cannot end, and then its status is 3."""
    err = read(f"{name}.err")
    return CompletedProcess([], 0 if err is None else 3, read(f"{name}.out"), err or b"")


def store(name, ran):
    """Stores a run."""
    write(f"{name}.out", ran.stdout)
    write(f"{name}.err", ran.stderr or None)


def script_words(path):
    """The words behind `rccerun` in a script's first line."""
    with open(path, encoding="utf-8") as file:
        return file.readline().removeprefix("# rccerun ").split()


class Count:
    """How many cases passed, and how many failed."""

    def __init__(self, name):
        self.name, self.passed, self.failed = name, 0, 0

    def case(self, where, wrong):
        """Counts a case, and says what is wrong with it."""
        self.passed += not wrong
        self.fault(where, wrong)

    def fault(self, where, wrong):
        """Counts what is wrong, if something is."""
        self.failed += bool(wrong)
        if wrong:
            print(f"{where}: {'; '.join(wrong)}", flush=True)

    def part(self, checked, wrong):
        """Counts the cases of a part, of which these lines say what is wrong."""
        self.passed, self.failed = self.passed + checked - len(wrong), self.failed + len(wrong)
        print("".join(f"{line}\n" for line in wrong), end="", flush=True)

    def end(self):
        """Prints the counts, and gives the status."""
        print(f"{self.name}: {self.passed} passed, {self.failed} failed")
        return 1 if self.failed or not self.passed else 0


@dataclass
class Row:
    """A row of a file of rows. Each text is told by how it is written, and its lines."""

    file: str
    at: int
    title: str
    files: dict = field(default_factory=dict)
    words: list = field(default_factory=list)
    out: tuple = ("", ())
    err: tuple = ("", ())
    status: int = 0

    def where(self):
        """Its place and title."""
        return f"{self.file}:{self.at}: {self.title}"

    def write_files(self, folder):
        """Writes its files into a folder."""
        for name, text in self.files.items():
            write(f"{folder}/{name}", text)

    def differences(self, ran):
        """What of a run is not as it says."""
        wanted = CompletedProcess([], self.status, _text_of(*self.out), _text_of(*self.err))
        return differences(wanted, ran, [name for name in ("out", "err") if getattr(self, name)[0] == "begins"])


def _refuse(file, at, what):
    """Ends, since a line of a file of rows is none."""
    sys.exit(f"{file}:{at}: {what}")


def rows_of(file, commands):
    """The rows of a file, which run these commands."""
    try:
        lines = read(f"{TOP}/{file}").decode().splitlines()
    except (AttributeError, UnicodeError):
        _refuse(file, 0, "cannot be read")
    rows, parts, text = [], set(), None
    for at, line in enumerate(lines, 1):
        head, _, rest = line.partition(" ")
        if line.startswith("    ") and text is not None:
            text.append(line[4:])
        elif head == "#":
            title, text, parts = rest.strip(), None, set()
            if not title or title in [row.title for row in rows]:
                _refuse(file, at, f"a title that stood before: {title}" if title else "no title")
            rows.append(Row(file, at, title))
        elif line:
            text = _put(rows[-1], parts, at, line, commands) if rows else _refuse(file, at, f"before the first title: {line}")
    for row in rows:
        if not row.words:
            _refuse(file, row.at, f"a row without its line $: {row.title}")
        try:
            row.files = {name: _text_of(*told) for name, told in row.files.items()}
        except UnicodeError as error:
            _refuse(file, row.at, f"a row with wrong escapes: {error}")
    return rows or _refuse(file, 0, "no rows")


def _put(row, parts, at, line, commands):
    """Puts a line into its row, and gives the text to which the lines behind it belong, if there is one."""
    head, _, rest = line.partition(" ")
    name, _, how = rest.partition(" ")
    part, text = f"file {name}" if head == "file" else head, None
    if part in parts:
        _refuse(row.file, at, f"twice in a row: {part}")
    parts.add(part)
    if head == "$":
        row.words = _words_of(row.file, at, rest, commands)
    elif head == "file" and name and "/" not in name and how in ("", "escaped", "filled"):
        row.files[name] = how, (text := [])
    elif head in ("out", "err") and rest in ("", "filled", "begins"):
        setattr(row, head, (rest, text := []))
    elif head == "status" and rest.isdecimal():
        row.status = int(rest)
    else:
        _refuse(row.file, at, f"no line of a row: {line}")
    return text


def _words_of(file, at, rest, commands):
    """The words of a line `$`."""
    try:
        words = shlex.split(rest)
    except ValueError as error:
        _refuse(file, at, f"no words of a shell: {error}")
    return words if words and words[0] in commands else _refuse(file, at, f"no command of these rows: {rest}")


def _text_of(how, lines):
    """The bytes of a text."""
    if how == "escaped":
        return "".join(lines).encode("ascii").decode("unicode_escape").encode("latin-1")
    if how == "filled":
        lines = [re.sub("<fill ([0-9]+) ([0-9]+)>", lambda it: _digits(*map(int, it.groups())), line) for line in lines]
    return "".join(f"{line}\n" for line in lines).encode()


def _digits(length, start):
    """The hex digits of a register that is filled with so many bytes from a start on, as docs/SCRIPTS.md tells it."""
    return bytes((start + i) % 251 for i in range(length)).hex()
