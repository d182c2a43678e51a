"""rcce draw messages: a chart of the messages of a run, with time from top to bottom."""
from __future__ import annotations

from typing import Iterator, Sequence

from rcce_lib import timeline, why
from rcce_lib.joined import Told
from rcce_lib.picture import Picture, base
from rcce_lib.shown import counted
from rcce_lib.svg import Svg
from rcce_lib.timeline import Repeat, Row

# how many rows are drawn, and after how many the UEs are named again
MOST, NAMED_AGAIN = 1000, 25
# how many rows are looked through for repeats
LOOKED_AT = 50_000
STEP, LETTER = 28, 6.8
KINDS = {
    "plain": "plain: send, post and recv",
    "bcast": "bcast: a broadcast",
    "reduce": "reduce: a reduction",
    "allup": "allup: a reduction to all, on its way to the root",
    "alldown": "alldown: a reduction to all, on its way from the root",
}


class Messages(Picture):
    """The messages, posts and barriers of a run, and the calls that never end: a line down for each UE, an arrow for each message."""

    def __init__(self, told: Told) -> None:
        self.told = told
        self.status = told.status
        self.log = told.log()
        self.hanging: list[str] = []
        self.hangs_at: dict[int, int] = {}
        self.never: list[Row] = []
        if told.troubles:
            self._hang()
        rows = timeline.rows_of(told, self.log)
        self.rows = _first(timeline.folded(rows[:LOOKED_AT]), [MOST])
        self.flat = [*timeline.flat(self.rows), *self.never]
        self.drawn = timeline.count_of(self.rows)
        self.title = f"{base(told.script.name)}: {counted(len(told.messages), 'message')} of {counted(told.ues, 'UE')}"
        if self.drawn < len(told.messages):
            self.title += f", the first {self.drawn:,} drawn"
        if number := len(told.troubles):
            self.title += f"; {number} of the UEs {'does' if number == 1 else 'do'} not finish"

    def _hang(self) -> None:
        """Takes what does not end from the explanation of the run."""
        waiting = [rank for cause in why.explain(self.told)["causes"] for rank in cause["waiting"]]  # type: ignore[attr-defined]
        for rank in sorted(waiting, key=lambda it: it["ue"]):
            self.hangs_at[rank["ue"]] = rank["line"]
            who = "refused a message" if rank["waits_for"] is None else f"waits for ue {rank['waits_for']}"
            self.hanging.append(f"ue {rank['ue']} hangs at line {rank['line']}: {rank['statement']} ({who})")
        self.never = timeline.never(self.told, self.log, self.told.halts(), {rank["ue"]: rank["absent"] for rank in waiting})

    def legend(self) -> list[tuple[str, str]]:
        """What the signs of this picture mean: each sign with its words."""
        there = {row.what for row in self.flat}
        found: list[tuple[str, str]] = []
        if first := next((row for row in self.flat if row.what == "message"), None):
            kind, comm, length = first.says.split()
            sent, taken = first.place.split(" > ")
            found.append(("message", f"a message; {first.says} is kind {kind}, communicator {comm}, {counted(int(length), 'byte')}"))
            found.append(("", f"{first.place} at the left: line {sent} of the script sends it, line {taken} receives it"))
            kinds = dict.fromkeys(row.says.split()[0] for row in self.flat if row.what == "message")
            found.append(("", "; ".join(KINDS[it] for it in KINDS if it in kinds)))
        if "post" in there:
            found.append(("post", "a post: the message stays in its sender's buffer until it is received"))
        if any(arrow.posted for row in self.flat if row.what == "message" for arrow in row.arrows):
            found.append(("taken", "a posted message is received"))
        if "barrier" in there:
            found.append(("barrier", "a barrier, with its communicator: the UEs with a dot meet"))
        if there & {"send", "recv", "refused"} or any(row.what == "post" for row in self.never):
            found.append(("never", "a message that never came: it was not sent, not received, or refused"))
        if "absent" in there:
            found.append(("absent", "a barrier that never ends: a dot has come, a cross has not"))
        if any(isinstance(it, Repeat) for it in self.rows):
            found.append(("repeat", "rows that come several times are drawn once, with the number of times"))
        found.append(("", "Time goes down. Rows without a common UE can come in another order. Arrows in a row have the same lines."))
        if self.log is None:
            found.append(("", "The run is too long for a log, so posts and barriers are not drawn."))
        return found

    def svg(self) -> str:
        """The picture for a browser."""
        return str(Chart(self).picture())

    def text(self) -> str:
        """The picture for a terminal."""
        lines = [self.title, "", self._names(), *self._lines(self.rows, 0)]
        if self.never:
            lines += ["", f"{'never':>14}", *self._lines(self.never, 0)]
        lines += ["", *(f"  {line}" for line in self.hanging)] if self.hanging else []
        lines += ["", *(f"  {SIGNS[sign]:8}{words}" for sign, words in self.legend())]
        return "\n".join(lines) + "\n"

    def _names(self) -> str:
        """The line with the names of the UEs."""
        return " " * 14 + "".join(f"{rank:4}" for rank in range(self.told.ues)) + "  ue"

    def _lines(self, rows: Sequence[Row | Repeat], depth: int) -> Iterator[str]:
        """The rows in characters."""
        for it in rows:
            if isinstance(it, Repeat):
                yield f"{'| ' * depth}+-- {it.times:,} times:"
                yield from self._lines(it.rows, depth + 1)
                yield f"{'| ' * depth}+--"
            else:
                yield f"{'| ' * depth}{it.place:>{14 - 2 * min(depth, 4)}}{self._drawn(it)}  {it.says}"

    def _drawn(self, row: Row) -> str:
        """A row's arrows in characters: a fan is drawn from its far end on, so that each head stays."""
        signs = list("   |" * self.told.ues)
        over = [*row.members, *row.absent]
        if over:
            signs[4 * min(over) + 3 : 4 * max(over) + 4] = "=" * (4 * (max(over) - min(over)) + 1)
            for rank in over:
                signs[4 * rank + 3] = "#" if rank in row.members else "x"
        ends = []
        for it in row.arrows:
            if row.begins():
                ends.append((it.sender, "p"))
                continue
            left, right = (4 * rank + 3 for rank in it.span())
            signs[left : right + 1] = ("-" if row.what == "message" else ".") * (right - left + 1)
            head = ">" if it.sender < it.receiver else "<"
            ends.append((it.sender, "p" if it.posted else "?" if row.what == "recv" else "o"))
            ends.append((it.receiver, head if row.what == "message" else "?" if row.what == "recv" else "x"))
        for rank, sign in ends:
            signs[4 * rank + 3] = sign
        return "".join(signs)


SIGNS = {"": "", "message": "o-->", "post": "p", "taken": "p-->", "barrier": "#==#", "never": "o..x ?", "absent": "#==x", "repeat": "+--"}


def _first(rows: Sequence[Row | Repeat], left: list[int]) -> list[Row | Repeat]:
    """The rows as far as there is room for them; a repeat is drawn whole or not at all."""
    made: list[Row | Repeat] = []
    for it in rows:
        left[0] -= len(list(timeline.flat([it])))
        if left[0] < 0:
            break
        made.append(it)
    return made


class Chart:
    """The places of a chart's rows, frames and names, and what is painted there."""

    def __init__(self, told: Messages) -> None:
        self.told = told
        self.ues = told.told.ues
        self.apart = 90 if self.ues <= 16 else 56
        self.left = 60 + LETTER * max([4, *(len(row.place) for row in told.flat)])
        self.legend = told.legend()
        texts = max(len(line) for line in [*told.hanging, *(words for _, words in self.legend)])
        self.wide = max(self.left + self.apart * self.ues + 60, 100 + 7.2 * texts, 30 + 9 * len(told.title))
        self.y, self.since = 88.0, 0
        self.placed: list[tuple[float, Row]] = []
        self.names: list[float] = [54]
        self.notes: list[tuple[float, float, str]] = []
        self.frames: list[tuple[float, float, int]] = []
        self._place(told.rows, 0)
        if told.never:
            self.notes.append((8, self.y + 2, "never came:"))
            self.y += 24
            self._place(told.never, 0)

    def x(self, rank: int) -> float:
        """Where the line of a rank is."""
        return self.left + self.apart * rank

    def _place(self, rows: Sequence[Row | Repeat], depth: int) -> None:
        """Gives each row its height."""
        for it in rows:
            if isinstance(it, Repeat):
                number, top = len(self.frames), self.y - 14
                self.frames.append((top, top, depth))
                self.notes.append((10 + 6 * depth, self.y, f"{it.times:,} times:"))
                self.y += 22
                self._place(it.rows, depth + 1)
                self.frames[number] = top, self.y - 14, depth
                self.y += 8
                continue
            if self.since == NAMED_AGAIN:
                self.names.append(self.y - 2)
                self.y, self.since = self.y + STEP, 0
            self.placed.append((self.y, it))
            self.y, self.since = self.y + STEP, self.since + 1

    def picture(self) -> Svg:
        """The picture."""
        foot, told = self.y, self.told
        under = 18 * len(told.hanging) + (12 if told.hanging else 0)
        hang = 30 if told.hanging else 0
        picture = Svg(self.wide, foot + 40 + hang + under + 20 * len(self.legend) + 12, told.title)
        picture.text(12, 24, told.title, 14, bold=True)
        for top, bottom, depth in self.frames:
            picture.box(5 + 6 * depth, top, self.wide - 10 - 12 * depth, bottom - top, 1, True, 4)
        for rank in range(self.ues):
            picture.line((self.x(rank), 60), (self.x(rank), foot), 1, dashed=True)
            for y in [*self.names, foot + 16]:
                picture.text(self.x(rank), y, f"ue {rank}", at="middle", bold=True, ground=True)
            if rank in told.hangs_at:
                for number, words in enumerate(("hangs", f"at {told.hangs_at[rank]}")):
                    picture.text(self.x(rank), foot + 31 + 14 * number, words, 11, "middle")
        for x, y, words in self.notes:
            picture.text(x, y, words, 11, bold=True)
        for y, row in self.placed:
            if row.place:
                picture.text(14, y + 4, row.place, 11)
            self._row(picture, y, row)
        y = foot + 40 + hang
        for line in told.hanging:
            picture.text(12, y, line, 12)
            y += 18
        self._legend(picture, y + (12 if told.hanging else 0))
        return picture

    def _row(self, picture: Svg, y: float, row: Row) -> None:
        """A row with its signs and words."""
        over = [*row.members, *row.absent]
        if over:
            picture.line((self.x(min(over)), y), (self.x(max(over)), y), 3, dashed=bool(row.absent))
            for rank in over:
                (picture.dot if rank in row.members else picture.cross)(self.x(rank), y, 5)
            middle = (self.x(min(over)) + self.x(max(over))) / 2
            picture.text(middle + (self.apart / 2 if len(over) % 2 else 0), y - 7, row.says, 11, "middle", ground=True)
        for it in row.arrows:
            arrow(picture, self.x(it.sender), self.x(it.receiver), y, row, it.posted)
        for x in self._labels(row):
            picture.text(x, y - 6, row.says, 11, "middle", ground=True)

    def _labels(self, row: Row) -> Iterator[float]:
        """Where the words of a row's arrows are: over each arrow that stands apart, as far as they do not meet; over the longest of a fan."""
        spans = sorted((it.sender, it.sender) if row.begins() else it.span() for it in row.arrows)
        if any(one[1] >= two[0] for one, two in zip(spans, spans[1:])):
            spans = [max(spans, key=lambda it: it[1] - it[0])]
        end = -1e9
        for low, high in spans:
            middle, half = (self.x(low) + self.x(high)) / 2, len(row.says) * LETTER / 2
            if middle - half > end:
                yield middle
                end = middle + half

    def _legend(self, picture: Svg, y: float) -> None:
        """The signs with their words."""
        for sign, words in self.legend:
            if sign in ("barrier", "absent"):
                picture.line((20, y - 4), (70, y - 4), 3, dashed=sign == "absent")
                picture.dot(20, y - 4, 5)
                (picture.dot if sign == "barrier" else picture.cross)(70, y - 4, 5)
            elif sign == "repeat":
                picture.box(18, y - 12, 54, 14, 1, True, 4)
            elif sign:
                what = {"taken": "message", "never": "send"}.get(sign, sign)
                arrow(picture, 20, 70, y - 4, Row(what, "", ": " if sign == "never" else ""), sign in ("post", "taken"))
            picture.text(90, y, words, 12)
            y += 20


def arrow(picture: Svg, start: float, end: float, y: float, row: Row, posted: bool) -> None:
    """The arrow of a message that came, the square of a post, or the dashed line of a message that never came."""
    way = 1 if start < end else -1
    if row.what == "message":
        picture.line((start, y), (end, y), 1.2, arrow=True)
    elif not row.begins():
        # what was sent ends before its receiver; what was refused, or asked and never sent, at him
        far = end - 14 * way if row.what in ("send", "post") else end
        picture.line((start, y), (far, y), 1.2, dashed=True)
        picture.cross(far, y)
    if posted:
        picture.box(start - 4, y - 4, 8, 8, 1.2)
    elif row.what != "recv":
        picture.dot(start, y)
