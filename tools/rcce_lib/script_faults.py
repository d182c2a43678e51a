"""What is wrong with a line of a script that a program refuses, a function for each kind. None is said where a function finds nothing."""
from __future__ import annotations

import difflib
import re
from dataclasses import dataclass
from typing import Callable, Iterator, NamedTuple

from rcce_lib.before import WIDTHS, Before
from rcce_lib.marks import Word
from rcce_lib.rules import FORMS, LIMITS
from rcce_lib.shown import counted

MOST_NUMBER, MOST_POST = 4_294_967_295, 3_584
RANGES = {"START": (0, 65_535), "K": (1, 48), "N": (1, LIMITS["most_operations"]), "1": (1, 2), "2": (1, 2)}
OPERATIONS, HOW = ("sum", "prod", "min", "max"), ("mod", "div")
FIXED = {"TYPE": tuple(WIDTHS), "OP": OPERATIONS, "mod": HOW, "div": HOW, "of": ("of",)}
NAMES = ("NAME", "DST", "SRC")
# what a number is that is not 1 to 10 digits alone
NUMBERS = {"PEER": "PEER is a rank, +K or -K", "V": "V is an optional - and 1 to 20 digits", "A": "ue takes A or A-B", "1": "the version is 1 or 2"}


class Found(NamedTuple):
    """What is wrong with a line, the part that is wrong, and the form of the line."""

    said: str
    at: Word | None = None
    form: str | None = None


@dataclass
class Case:
    """A line that is refused, with its words and what the lines before it come to; without words the file has ended before it."""

    text: str
    words: list[Word]
    before: Before

    @property
    def texts(self) -> list[str]:
        """The words as texts."""
        return [it.text for it in self.words]

    @property
    def ranks(self) -> list[int]:
        """The ranks of the section."""
        return self.before.section or []

    def slots(self) -> list[tuple[Word, str]]:
        """The words after the first, each with its name in the statement's form."""
        verb, *rest = self.words
        for _, names in forms_of(verb.text):
            names = names[:-1] + names[1:2] * (len(rest) - len(names) + 1) if names[-1:] == [".."] else names
            if len(names) == len(rest):
                return list(zip(rest, names))
        return []

    def word(self, *names: str) -> Word:
        """The word that has one of these names in the form."""
        return [word for word, name in self.slots() if name in names][0]


def forms_of(verb: str) -> list[tuple[str, list[str]]]:
    """The forms of a statement, each with the names of the words after the first."""
    return [(form, form.split()[1:]) for form in FORMS["script"] if form.split()[0] == verb]


def form_of(verb: str) -> str | None:
    """The forms of a statement as text."""
    return " | ".join(form for form, _ in forms_of(verb)) or None


def alike(word: str, others: tuple[str, ...] | list[str]) -> str:
    """The word among others that was probably meant, as a question."""
    found = difflib.get_close_matches(word.lower(), others, 1, 0.6)
    return f"; did you mean {found[0]}?" if found else ""


def ranks_there(ues: int) -> str:
    """The ranks that there are."""
    return f"-nue {ues} has " + ("rank 0 alone" if ues == 1 else f"ranks 0 and {ues - 1}" if ues == 2 else f"ranks 0 to {ues - 1}")


def unknown_statement(case: Case) -> Found | None:
    """UnknownStatement: the first word, or one that is fixed."""
    verb, verbs = case.words[0], [form.split()[0] for form in FORMS["script"]]
    if verb.text not in verbs:
        return Found(f"{verb.text} is no statement{alike(verb.text, verbs) or ' of docs/SCRIPTS.md'}", verb)
    if verb.text == "rcce":
        return Found("rcce names the version, and only the first line with words does that", verb)
    for word, name in case.slots():
        if name in FIXED and word.text not in FIXED[name]:
            wanted = " or ".join(FIXED[name]) if len(FIXED[name]) < 3 else "one of " + ", ".join(FIXED[name])
            what = f"{word.text} is here, and {wanted} is wanted" if name.islower() else f"{word.text} is no {name}: {wanted}"
            return Found(f"{what}{alike(word.text, FIXED[name]) if name not in HOW else ''}", word, form_of(verb.text))
    return None


def wrong_count(case: Case) -> Found:
    """WrongCount: how many words the statement takes, and how many there are; or a split that needs version 2."""
    verb, *rest = case.words
    if verb.text == "split" and len(rest) == 5 and case.before.version == 1:
        return Found("a split of a communicator other than 0 needs `rcce 2` as the first line", rest[1].part(0), form_of("split"))
    told = [names for _, names in forms_of(verb.text) if case.before.version == 2 or "of" not in names]
    many = any(names[-1:] == [".."] for names in told)
    counts = sorted({len(names) - many for names in told})
    number = "no words" if counts == [0] else " or ".join(map(str, counts)) + (" word" if counts[-1] == 1 else " words") + " or more" * many
    options = list(dict.fromkeys(" ".join(names) or "none" for names in told))
    wanted = "" if counts == [0] else ": " + ", or ".join(options)
    surplus = [] if many else rest[counts[-1] :]
    at = Word(case.text, 0).part(surplus[0].column, surplus[-1].end) if surplus else Word("", case.words[-1].end + 1)
    return Found(f"{verb.text} takes {number}{wanted}; {len(rest)} given", at, form_of(verb.text))


def bad_number(case: Case) -> Found | None:
    """BadNumber: the number that is none, or out of its range."""
    verb = case.words[0].text
    for word, name in case.slots():
        parts = [word]
        if name in ("A", "A-B"):
            dash = word.text.find("-")
            parts = [word] if dash < 0 else [word.part(0, dash), word.part(dash + 1)]
        for part in parts:
            if wrong := _number_fault(part.text or word.text, name, verb):
                whole = word if not part.text else part
                return Found(wrong, whole, form_of(verb))
    return None


def _number_fault(text: str, name: str, verb: str) -> str | None:
    """What is wrong with a number that has this name in its form."""
    most_digits, (low, high) = 10, RANGES.get(name, (0, MOST_NUMBER))
    digits = text[1:] if name == "PEER" and text[:1] in ("+", "-") or name == "V" and text[:1] == "-" else text
    if name == "V":
        bits = 8 * WIDTHS[verb[:-1]] - 1
        most_digits, low, high = 20, -(2**bits), 2**bits - 1
    elif name not in (*RANGES, "LEN", "PEER", "COMM", "ROOT", "PARENT", "A", "A-B"):
        return None
    if not re.fullmatch(r"[0-9]+", digits):
        return f"{text} is no number: {NUMBERS.get(name, f'{name} has 1 to 10 digits')}"
    if len(digits) > most_digits:
        return f"{text} has {len(digits)} digits, and a number has at most {most_digits}"
    if not low <= (value := -int(digits) if name == "V" and text != digits else int(digits)) <= high:
        what = f"a value of type {verb[:-1]}" if name == "V" else "the version" if name.isdigit() else name
        return f"{value} is out of range: {what} is {low:,} {'or' if high == low + 1 else 'to'} {high:,}"
    return None


def bad_hex(case: Case) -> Found | None:
    """BadHex: the character that is no hex digit, or a digit too few."""
    word, form = case.word("HEX"), form_of("bytes")
    if wrong := re.search(r"[^0-9a-fA-F]", word.text):
        return Found(f"{wrong[0]} is no hex digit", word.part(wrong.start(), wrong.end()), form)
    what = word.text if len(word.text) <= 16 else "HEX"
    return Found(f"{what} has {counted(len(word.text), 'hex digit')}, and each byte takes two", word, form)


def bad_name(case: Case) -> Found | None:
    """BadName: what of a name is not of its form."""
    for word in [word for word, name in case.slots() if name in NAMES]:
        if not re.match(r"[A-Za-z]", word.text):
            return Found(f"{word.text} is no name: a name begins with a letter", word, form_of(case.words[0].text))
        if wrong := re.search(r"[^A-Za-z0-9_]", word.text):
            return Found(f"{word.text} is no name: {wrong[0]} is no letter, digit or underscore", word.part(wrong.start(), wrong.end()), form_of(case.words[0].text))
        if len(word.text) > 16:
            return Found(f"{word.text} has {len(word.text)} characters, and a name has at most 16", word, form_of(case.words[0].text))
    return None


def rank_range(case: Case) -> Found | None:
    """RankRange: the rank, and those that there are."""
    ues, verb = case.before.ues, case.words[0].text
    if verb == "ue":
        word = case.words[1]
        first, _, last = word.text.partition("-")
        for text, part in ((first, word.part(0, len(first))), (last or first, word.part(len(first) + 1) if last else word)):
            if int(text) >= ues:
                return Found(f"{int(text)} is no rank: {ranks_there(ues)}", part)
        return Found(f"{word.text} goes down: A is not above B in ue A-B", word)
    if verb in ("send", "recv", "post"):
        return Found(f"{int(case.words[1].text)} is no rank: {ranks_there(ues)}", case.words[1])
    root, comm = case.word("ROOT"), int(case.word("COMM").text)
    for rank in case.ranks or range(ues):
        size = len(case.before.members(comm, rank))
        if size and int(root.text) >= size:
            where = ranks_there(ues) if comm == 0 else f"the group of ue {rank} in communicator {comm} has {counted(size, 'member')}, counted from 0"
            return Found(f"{int(root.text)} is no member: {where}", root)
    return None


def self_message(case: Case) -> Found | None:
    """SelfMessage: the UE that the line names itself."""
    word, ues = case.words[1], case.before.ues
    way = "from" if case.words[0].text == "recv" else "to"
    for rank in case.ranks:
        move = int(word.text)
        if (move if word.text[0].isdigit() else rank + move) % ues == rank:
            more = "" if word.text[0].isdigit() else f": {word.text} is ue {rank} again of {counted(ues, 'UE')}"
            return Found(f"ue {rank} has a message {way} itself{more}", word)
    return None


def unknown_comm(case: Case) -> Found | None:
    """UnknownComm: the communicator, the last one that there is, or the other rule that it has."""
    word, version = case.word("COMM"), case.before.version
    comm, last = int(word.text), LIMITS["last_comm_one" if version == 1 else "last_comm_two"]
    if comm > last:
        more = f"; with `rcce 2` as the first line it is {LIMITS['last_comm_two']}" if version == 1 else ""
        return Found(f"{comm} is no communicator: the last is {last} in version {version}{more}", word)
    if case.words[0].text != "split":
        return None
    if comm == 0:
        return Found("communicator 0 is the world, which no line splits", word)
    parent = case.words[3] if case.words[2].text == "of" else Word("0", word.column)
    if int(parent.text) >= comm:
        return Found(f"the parent, {int(parent.text)}, is not below {comm}", parent)
    if comm in case.before.rules:
        other, how, parts, line = case.before.rules[comm]
        rule = f"split {comm} {f'of {other} ' if other else ''}{how} {parts}"
        return Found(f"line {line} has {rule}, and each split of one number has the same rule", word)
    return None


def not_split(case: Case) -> Found | None:
    """NotSplit: the communicator, and the UE that has not split it."""
    word = case.word("COMM")
    if case.words[0].text == "split":
        word = case.words[3]
    comm = int(word.text)
    if comm not in case.before.rules:
        return Found(f"no line before this one splits communicator {comm}", word)
    away = [rank for rank in case.ranks if comm not in case.before.splits[rank]]
    line = case.before.rules[comm][3]
    return Found(f"ue {away[0]} has not split communicator {comm} before this line; line {line} splits it in another section", word) if away else None


def reads(case: Case, rank: int) -> Iterator[tuple[Word, str | int | None]]:
    """The registers that the statement reads at a rank, each with the type or length that it must have there."""
    verb, slots = case.words[0].text, case.slots()
    kind = next((word.text for word, name in slots if name == "TYPE"), None)
    if verb == "apply":
        yield case.word("DST"), case.before.length(rank, case.word("SRC").text)
    if verb in ("apply", "reduce", "allreduce"):
        yield case.word("SRC"), kind
    if verb in ("print", "send", "post"):
        yield case.word("NAME"), kind
    if verb == "bcast" and case.before.is_root(rank, case.texts):
        yield case.word("NAME"), int(case.word("LEN").text)


def unset(case: Case) -> Found | None:
    """Unset: the register, and the UE that has not set it."""
    for rank in case.ranks:
        for word, _ in reads(case, rank):
            if word.text not in case.before.lengths[rank]:
                others = [at[word.text][1] for at in case.before.lengths if word.text in at]
                more = f"; line {others[0]} sets it at other UEs" if others else alike_name(word.text, list(case.before.lengths[rank]))
                return Found(f"ue {rank} has not set {word.text} before this line{more}", word)
    return None


def alike_name(name: str, others: list[str]) -> str:
    """The register that was probably meant."""
    found = [it for it in others if it.lower() == name.lower()] or difflib.get_close_matches(name, others, 1, 0.6)
    return f"; did you mean {found[0]}?" if found else ""


def shape(case: Case) -> Found | None:
    """Shape: the register, the length that it has and the one that is wanted."""
    for rank in case.ranks:
        lengths = case.before.lengths[rank]
        if (setting := case.before.setting(rank, case.texts)) and lengths.get(setting[0], setting)[0] not in (setting[0], setting[1]):
            had, line = lengths[setting[0]]
            return Found(f"{setting[0]} has {counted(had, 'byte')} at ue {rank} since line {line}, and would have {setting[1]:,}", case.word("NAME", "DST"))
        for word, fit in reads(case, rank):
            had, line = lengths.get(word.text, (0, 0))
            has = f"{word.text} has {counted(had, 'byte')} at ue {rank} since line {line}"
            if isinstance(fit, str) and had % WIDTHS[fit]:
                return Found(f"{has}, which is no multiple of the {WIDTHS[fit]} of a value of type {fit}", word)
            if isinstance(fit, int) and had != fit:
                other = f"{case.word('SRC').text} has {fit:,}" if case.words[0].text == "apply" else f"{fit:,} are sent"
                return Found(f"{has}, and {other}", word)
    return None


def no_section(case: Case) -> Found:
    """NoSection: the statement."""
    return Found(f"{case.words[0].text} is not in a section: a line all, even, odd, ue A or ue A-B comes first", case.words[0])


def unclosed_repeat(case: Case) -> Found | None:
    """UnclosedRepeat: the repeats that are open, and whether a section or the end of the file comes."""
    if not case.before.open:
        return None
    lines = [str(line) for line, _ in case.before.open]
    what = f"the repeat of line {lines[0]} has no end" if len(lines) == 1 else f"{len(lines)} repeats have no end, those of lines {', '.join(lines)}"
    return Found(f"{what} before this section", case.words[0]) if case.words else Found(f"{what} before the file ends")


def stray_end(case: Case) -> Found:
    """StrayEnd: which repeat was closed last."""
    closed = case.before.closed
    more = f"line {closed[1]} closes the last repeat, of line {closed[0]}" if closed else "no line before this one has a repeat"
    return Found(f"no repeat is open here: {more}", case.words[0])


def too_deep(case: Case) -> Found:
    """TooDeep: the repeats that are open."""
    lines = ", ".join(str(line) for line, _ in case.before.open)
    return Found(f"{counted(len(case.before.open), 'repeat')} are open, which is the most: those of lines {lines}", case.words[0])


def too_many_ops(case: Case) -> Found | None:
    """TooManyOps: what the repeats multiply to, or the operations of a UE."""
    most, turns = LIMITS["most_operations"], case.before.turns
    if case.words[0].text == "repeat":
        return Found(f"the open repeats multiply to {turns * int(case.words[1].text):,}, and {most:,} is the most", case.words[1])
    for rank in case.ranks:
        had, more = case.before.operations[rank], turns * case.before.steps(rank, case.texts)
        if had + more > most:
            return Found(f"ue {rank} has {counted(had, 'operation')} before this line and {more:,} here, and {most:,} is the most", case.words[0])
    return None


def too_long(case: Case) -> Found | None:
    """TooLong of a line: a length, a post, or what a UE prints."""
    most, most_printed = LIMITS["most_message"], LIMITS["most_printed"]
    lengths = [setting[1] for rank in case.ranks[:1] or [0] if (setting := case.before.setting(rank, case.texts))]
    lengths += [int(word.text) for word, name in case.slots() if name == "LEN"]
    if lengths and max(lengths) > most:
        said = [word for word, name in case.slots() if name in ("LEN", "HEX")]
        return Found(f"{counted(max(lengths), 'byte')}, and a register or message has at most {most:,}", said[0] if said else case.words[1])
    word = case.word("NAME")
    for rank in case.ranks:
        length, printed = case.before.length(rank, word.text), case.before.printed[rank]
        if case.words[0].text == "post" and length > MOST_POST:
            return Found(f"{word.text} has {counted(length, 'byte')} at ue {rank}, and a post has at most {MOST_POST:,}: send it", word)
        more = case.before.turns * case.before.prints(rank, case.texts)
        if printed + more > most_printed:
            return Found(f"ue {rank} prints {counted(printed, 'byte')} before this line and {more:,} here, and {most_printed:,} is the most", word)
    return None


def too_many_names(case: Case) -> Found | None:
    """TooManyNames: the name that is one too many."""
    names = dict.fromkeys(case.before.names)
    for word in [word for word, name in case.slots() if name in NAMES]:
        names[word.text] = None
        if len(names) > LIMITS["most_names"]:
            return Found(f"{word.text} is name {len(names)} of the file, and {LIMITS['most_names']} is the most", word)
    return None


SCRIPT_FAULTS: dict[str, Callable[[Case], Found | None]] = {
    "UnknownStatement": unknown_statement, "WrongCount": wrong_count, "BadNumber": bad_number, "BadHex": bad_hex, "BadName": bad_name,
    "RankRange": rank_range, "SelfMessage": self_message, "UnknownComm": unknown_comm, "NotSplit": not_split, "Unset": unset, "Shape": shape,
    "NoSection": no_section, "UnclosedRepeat": unclosed_repeat, "StrayEnd": stray_end, "TooDeep": too_deep, "TooManyOps": too_many_ops,
    "TooLong": too_long, "TooManyNames": too_many_names,
}
