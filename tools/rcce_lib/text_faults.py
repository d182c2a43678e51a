"""What is wrong with a line of a host file, a log, a lab or a trace that a program refuses. None is said where a function finds nothing."""
from __future__ import annotations

import re
import unicodedata
from dataclasses import dataclass, field
from typing import Callable, Iterable

from rcce_lib.kinds import ACCESS, BARRIER, CALL, COMM, HOSTS, LAB, LOG, LOG_HEAD, POST, REGISTER, TRACE, TRACE_HEAD
from rcce_lib.marks import Word, seen, text_of, words_of
from rcce_lib.rules import FORMS, LIMITS
from rcce_lib.script_faults import Found, alike
from rcce_lib.shown import counted
from rcce_lib.texts import KINDS

Test = Callable[[str], "str | None"]


@dataclass
class Lines:
    """The lines of a file up to the one that is refused; `whole` is whether that one has its line feed."""

    before: list[bytes]
    line: bytes
    whole: bool
    ues: int

    @property
    def text(self) -> str:
        """The line that is refused."""
        return text_of(self.line)


@dataclass
class Head:
    """What the lines of a log or a trace before the one that is refused say."""

    ues: int = 0
    splits: set[int] = field(default_factory=lambda: {0})
    rank: int | None = None


def not_text(line: bytes) -> Found | None:
    """NotText: the first character that may not be there."""
    text = line.decode("utf-8", "surrogateescape").split("#")[0]
    for at, it in enumerate(text):
        if it not in " \t\r" and not "!" <= it <= "~":
            column = len(text_of(text[:at].encode("utf-8", "surrogateescape")))
            if "\udc80" <= it <= "\udcff":
                return Found(f"the byte 0x{ord(it) - 0xDC00:02x} is no character of ASCII", Word(f"\\x{ord(it) - 0xDC00:02x}", column))
            if it < "\x80":
                return Found(f"the byte 0x{ord(it):02x} is no printable character", Word(it, column))
            return Found(f"{seen(it)} (U+{ord(it):04X} {unicodedata.name(it, '')}) is no character of ASCII".replace(" )", ")"), Word(it, column))
    return None


def number(low: int, high: int, what: str) -> Test:
    """A test for decimal numbers of a range without leading zeros."""

    def test(text: str) -> str | None:
        """What is wrong with a number."""
        if not re.fullmatch(r"[0-9]+", text):
            return f"{text or 'nothing'} is no number: {what} is wanted"
        if text[0] == "0" and text != "0":
            return f"{text} has a leading zero"
        return None if low <= int(text) <= high else f"{text} is out of range: {what} is {low:,} to {high:,}" if low < high else f"{text} is not {low}"

    return test


def one_of(*options: str) -> Test:
    """A test for a word that is one of these."""
    return lambda text: None if text in options else f"{text} is not {' or '.join(options)}{alike(text, options) if len(options) > 1 else ''}"


def first_wrong(words: list[Word], tests: list[Test], form: str) -> Found | None:
    """The first word that is not as its test wants it, or that is too many; or what is missing."""
    for word, test in zip(words, tests):
        if said := test(word.text):
            return Found(said, word, form)
    if len(words) > len(tests):
        return Found(f"the line has {counted(len(words), 'word')}, and its form {len(tests)}", words[len(tests)], form)
    if len(words) < len(tests):
        return Found(f"the line has {counted(len(words), 'word')}, and its form {len(tests)}", Word("", words[-1].end + 1 if words else 0), form)
    return None


def strict_words(text: str) -> list[Word] | Found:
    """The words of a line that has single blanks between them, or where it has something else."""
    if wrong := re.search(r"[\t\r]", text):
        what = "a tab" if wrong[0] == "\t" else "a carriage return"
        return Found(f"the line has {what} at column {wrong.start() + 1}, and single blanks alone may be between its words", Word(wrong[0], wrong.start()))
    if wrong := re.search(r"^ +| {2,}| +$", text):
        return Found("single blanks alone may be between the words, and none before or after them", Word(wrong[0], wrong.start()))
    return [Word(found[0], found.start()) for found in re.finditer(r"[^ ]+", text)]


def no_line_feed(it: Lines, found: Found | None, form: str) -> Found | None:
    """What was found, or that the last line lacks its line feed."""
    return found or (None if it.whole else Found("the line lacks its line feed", Word("", len(it.text)), form))


def strictly(it: Lines, form: str, judge: Callable[[list[Word]], Found | None], text: str | None = None) -> Found | None:
    """What is wrong with a line of single blanks."""
    words = strict_words(it.text if text is None else text)
    return Found(words.said, words.at, form) if isinstance(words, Found) else no_line_feed(it, judge(words), form)


def log_head(it: Lines) -> Found | None:
    """BadHead of a log."""
    return strictly(it, LOG_HEAD, lambda words: first_wrong(words, [one_of("rcce"), one_of("log"), number(1, 48, "N")], LOG_HEAD))


def trace_head(it: Lines) -> Found | None:
    """BadHead of a trace."""
    tests = [one_of("rcce"), one_of("trace"), one_of("1"), one_of("nue"), number(1, 48, "N"), one_of("layout"), one_of("words", "bits"), one_of("hosts")]

    def judge(words: list[Word]) -> Found | None:
        """The words, and then the cores."""
        found = first_wrong(words, [*tests, lambda _: None], TRACE_HEAD)
        return found or _hosts(words[8], int(words[4].text))

    return strictly(it, TRACE_HEAD, judge)


def _hosts(word: Word, ues: int) -> Found | None:
    """What is wrong with the cores of a trace."""
    cores = [Word(found[0], word.column + found.start()) for found in re.finditer(r"[^,]*(?:,|$)", word.text) if found[0]]
    named: list[str] = []
    for core in (it.part(0, len(it.text.removesuffix(","))) for it in cores):
        wrong = number(0, 47, "a core")(core.text) or (f"core {core.text} is named twice" if core.text in named else None)
        if wrong:
            return Found(wrong, core if core.text else word, TRACE_HEAD)
        named.append(core.text)
    return None if len(named) == ues else Found(f"{counted(len(named), 'core')} for {counted(ues, 'rank')}", word, TRACE_HEAD)


def head_of(lines: Iterable[bytes]) -> Head:
    """What the lines before a refused one say: they are of their forms."""
    head = Head()
    for at, line in enumerate(lines):
        words = line.split()
        if at == 0:
            head.ues = int(words[2] if words[1] == b"log" else words[4])
        elif words[0] == b"comm":
            head.splits.add(int(words[1]))
        else:
            head.rank = int(words[0])
    return head


def bad_comm(it: Lines) -> Found | None:
    """BadComm of a log or a trace."""
    head, last = head_of(it.before), 0
    if head.rank is not None:
        return Found("the communicators come before all calls and events", Word("comm", 0), COMM)
    last = max(head.splits)
    rises: Test = lambda text: number(0, 15, "a communicator")(text) or (f"{text} does not rise: the line before has {last}" if last else "0 is the world")
    higher: Test = lambda text: None if re.fullmatch(r"[1-9][0-9]*", text) and last < int(text) <= 15 else rises(text)
    there: Test = lambda text: number(0, 15, "PARENT")(text) or (None if int(text) in head.splits else f"no line before splits the parent, {text}")
    tests = [one_of("comm"), higher, there, one_of("mod", "div"), number(1, 48, "PARTS")]
    return strictly(it, COMM, lambda words: first_wrong(words, tests, COMM))


def bad_call(it: Lines) -> Found | None:
    """BadCall of a log."""
    head = head_of(it.before)

    def judge(words: list[Word]) -> Found | None:
        """The words, and then the order of ranks."""
        verb = words[1].text if len(words) > 1 else ""
        rank = number(0, head.ues - 1, "R")
        there: Test = lambda text: number(0, 15, "C")(text) or (None if int(text) in head.splits else f"no line before splits communicator {text}")
        if verb == "bar" or len(words) == 3:
            found = first_wrong(words, [rank, one_of("bar"), there], BARRIER)
        else:
            found = _message(words, rank, POST if verb == "post" else CALL)
        if not found and head.rank is not None and int(words[0].text) < head.rank:
            return Found(f"a call of ue {words[0].text} comes after one of ue {head.rank}, and calls are by rank", words[0])
        return found

    return strictly(it, f"{CALL} | {POST} | {BARRIER}", judge)


def _message(words: list[Word], rank: Test, form: str) -> Found | None:
    """What is wrong with a message of a log."""
    texts, post = [word.text for word in words], form == POST
    peer: Test = lambda text: rank(text) or (f"ue {text} has a message with itself" if text == texts[0] else None)
    world: Test = lambda text: number(0, 15, "C")(text) or (f"{text} is not 0, and a message of kind plain has communicator 0" if text != "0" and texts[3] == "plain" else None)
    length = number(0, 3_584 if post else LIMITS["most_message"], "LEN of a post" if post else "LEN")
    tests = [rank, one_of("send", "recv", "post", "bar"), peer, one_of("plain") if post else one_of(*KINDS.split("|")), world, length]
    return first_wrong(words, [*tests, lambda text: _hex(text, int(texts[5]))], form)


def _hex(text: str, length: int) -> str | None:
    """What is wrong with the bytes of a message."""
    if wrong := re.search(r"[^0-9a-f]", text if text != "-" else ""):
        return f"{wrong[0]} is no hex digit in lower case"
    digits = 0 if text == "-" else len(text)
    if text == "-" and length == 0 or digits == 2 * length > 0:
        return None
    return f"HEX has {counted(digits, 'digit')}, and {counted(length, 'byte')} {'has' if length == 1 else 'have'} {2 * length}" + (", written as -" if length == 0 else "")


def bad_event(it: Lines) -> Found | None:
    """BadEvent of a trace."""
    if len(it.line) > LIMITS["most_line_bytes"]:
        return Found(f"the line has {len(it.line):,} bytes, and {LIMITS['most_line_bytes']} is the most")
    head = head_of(it.before[:1])
    words = [it for it in it.text.split(" #")[0].split(" ")[1:2]]
    form = REGISTER if words and words[0] in ("take", "free") else ACCESS

    def judge(words: list[Word]) -> Found | None:
        """The words, each by its test."""
        access = words[1].text if len(words) > 1 else ""
        value: Test = lambda text: _value(text, access)
        place: Test = lambda text: _place(text, form)
        return first_wrong(words, [number(0, head.ues - 1, "RANK"), one_of("load", "store", "take", "free"), place, value], form)

    return strictly(it, form, judge, it.text.split(" #")[0])


def _value(text: str, access: str) -> str | None:
    """What is wrong with the value of an event."""
    if not re.fullmatch(r"[0-9a-f]{16}", text):
        wrong = re.search(r"[^0-9a-f]", text)
        return f"{wrong[0]} is no hex digit in lower case" if wrong else f"{text} has {counted(len(text), 'hex digit')}, and a value has 16"
    most = {"take": 1, "free": 0}.get(access)
    return f"{text} is no value of a {access}: {'0 or 1' if most else '0'} is" if most is not None and int(text, 16) > most else None


def _place(text: str, form: str) -> str | None:
    """What is wrong with the place of an event."""
    parts = text.split(".")
    tests = [number(0, 47, "CORE"), *([one_of("register")] if form == REGISTER else [number(0, 255, "LINE"), number(0, 3, "WORD")])]
    if len(parts) != len(tests):
        return f"{text} is no place: {'CORE.register' if form == REGISTER else 'CORE.LINE.WORD'} is"
    return next((said for part, test in zip(parts, tests) if (said := test(part))), None)


def bad_lab_core(it: Lines) -> Found | None:
    """BadCore of a lab."""
    words = words_of(it.text)
    if words[0].text == "rcce":
        first = not any(words_of(text_of(line)) for line in it.before)
        return Found("the version is 1: rcce lab 1" if first else "only the first line with words names the version", words[-1] if first else words[0], "rcce lab 1")
    if words[0].text != "core":
        return Found(f"{words[0].text} is not core: each step begins with core C", words[0], "core C STEP")
    if len(words) == 1:
        return Found("the number of the core is missing", Word("", words[0].end + 1), "core C STEP")
    return Found(_core(words[1].text) or "", words[1], "core C STEP")


def _core(text: str) -> str | None:
    """What is wrong with the number of a core; leading zeros are none of it."""
    there = re.fullmatch(r"[0-9]{1,10}", text)
    return None if there and int(text) <= 47 else f"{int(text) if there else text} is no core: cores are 0 to 47"


def bad_step(it: Lines) -> Found | None:
    """BadStep of a lab."""
    words = words_of(it.text)
    forms: dict[str, list[str]] = {}
    for form in FORMS["lab"]:
        forms.setdefault(form.split()[2], []).append(form)
    if len(words) == 2:
        return Found("the step is missing", Word("", words[-1].end + 1), "core C " + "|".join(forms))
    verb, rest = words[2], words[3:]
    if verb.text not in forms:
        return Found(f"{verb.text} is no step{alike(verb.text, list(forms))}", verb, "core C " + "|".join(forms))
    more = {"read": " [evict LINE] [expect HEX|HEX4]", "get": " [expect HEX4]", "load": " [expect HEX]", "take": " [expect took|taken]"}.get(verb.text, "")
    told = " | ".join(forms[verb.text]) + more
    by_word = bool(rest) and "." in rest[0].text
    form = [it for it in forms[verb.text] if ("WORD" in it) == by_word] or forms[verb.text]
    tests = [test for name in form[0].split()[3:] for test in ([_hex_value] * 4 if name == "HEX4" else [LAB_TESTS[name]])]
    tests += _options(verb.text, [it.text for it in rest[len(tests) :]], by_word)
    return first_wrong(words, [*[lambda _: None] * 3, *tests], told)


def _options(verb: str, texts: list[str], by_word: bool) -> list[Test]:
    """The tests of what may be behind a step: a line that is evicted, and what is expected."""
    tests: list[Test] = []
    if verb == "read" and texts[:1] == ["evict"]:
        tests, texts = [one_of("evict"), LAB_TESTS["LINE"]], texts[2:]
    if texts and verb in ("read", "get", "load", "take"):
        value: list[Test] = [one_of("took", "taken")] if verb == "take" else [_hex_value] * (1 if by_word else 4)
        return [*tests, one_of("evict", "expect") if verb == "read" and not tests else one_of("expect"), *value]
    return tests


def _hex_value(text: str) -> str | None:
    """What is wrong with a value of a lab."""
    wrong = re.search(r"[^0-9a-fA-F]", text)
    return f"{wrong[0]} is no hex digit" if wrong else f"{text} is no value below 2 to the 64" if int(text, 16) >= 2**64 else None


def _lab_place(form: str) -> Test:
    """A test for a line or a word of the heap."""

    def test(text: str) -> str | None:
        """What is wrong with a place."""
        found = re.fullmatch(r"(?:([0-9]{1,10}):)?([0-9]{1,10})(?:\.([0-9]{1,10}))?", text)
        if not found or bool(found[3]) != (form == "WORD"):
            return f"{text} is no {form}: " + ("L.W or K:L.W is" if form == "WORD" else "L or K:L is")
        ranges = (("core K", found[1], 47), ("line L", found[2], 30), ("word W", found[3], 3))
        return next((f"{int(part)} is out of range: {what} is 0 to {most}" for what, part, most in ranges if part and int(part) > most), None)

    return test


LAB_TESTS: dict[str, Test] = {"WORD": _lab_place("WORD"), "LINE": _lab_place("LINE"), "HEX": _hex_value, "K": _core}


def bad_core(it: Lines) -> Found | None:
    """BadCore of a host file."""
    words = words_of(it.text)
    if len(words) > 1:
        return Found(f"the line has {len(words)} words, and one core is wanted", words[1], "CORE | rckCORE")
    return Found(_core(words[0].text.removeprefix("rck")) or f"{words[0].text} is no core", words[0], "CORE | rckCORE")


def twice_core(it: Lines) -> Found | None:
    """TwiceCore of a host file."""
    word = words_of(it.text)[0]
    core = int(word.text.removeprefix("rck"))
    for at, line in enumerate(it.before, 1):
        if (words := words_of(text_of(line))) and int(words[0].text.removeprefix("rck")) == core:
            return Found(f"core {core} is that of line {at} too", word)
    return None


def too_few(it: Lines) -> Found | None:
    """TooFew of a host file."""
    named = sum(bool(words_of(text_of(line))) for line in [*it.before, it.line])
    return Found(f"the file has {counted(named, 'core')} for {counted(it.ues, 'rank')} (-nue {it.ues})")


TEXT_FAULTS: dict[tuple[str, str], Callable[[Lines], Found | None]] = {
    (HOSTS, "BadCore"): bad_core, (HOSTS, "TwiceCore"): twice_core, (HOSTS, "TooFew"): too_few,
    (LOG, "BadHead"): log_head, (LOG, "BadComm"): bad_comm, (LOG, "BadCall"): bad_call,
    (LAB, "BadCore"): bad_lab_core, (LAB, "BadStep"): bad_step,
    (TRACE, "BadHead"): trace_head, (TRACE, "BadComm"): bad_comm, (TRACE, "BadEvent"): bad_event,
}
