"""Finds the looks of a rank that find the same again and again, so that a page shows them as one step."""
from __future__ import annotations

from typing import Iterator, NamedTuple

from trace_lib.texts import Event

# what is read once a message; every other word may be waited for
NO_POLL = ("header", "chunk")
Key = tuple[tuple[str, int], ...]


class Group(NamedTuple):
    """The events of a step by their numbers, the looks of a rank one behind the other, and of how many looks they are."""

    events: list[int]
    looks: int = 1

    @property
    def of_one_look(self) -> list[int]:
        """The events of the first look."""
        return self.events[: len(self.events) // self.looks]


def grouped(events: list[Event], first: int, after: int) -> list[Group]:
    """The events from one number up to another as steps: equal polls of a rank in a row are one, at the place of the first of them."""
    of_ranks: dict[int, list[int]] = {}
    for number in range(first, after):
        of_ranks.setdefault(events[number].rank, []).append(number)
    groups = [group for numbers in of_ranks.values() for group in _grouped(events, numbers)]
    return sorted(groups, key=lambda group: group.events[0])


def _grouped(events: list[Event], numbers: list[int]) -> Iterator[Group]:
    """The steps of one rank."""
    last: tuple[Key, list[int], int] | None = None
    for key, look in _looks(events, numbers):
        if last and key and last[0] == key:
            last[1].extend(look)
            last = key, last[1], last[2] + 1
            continue
        if last:
            yield from _closed(*last)
        last = key, look, 1
    if last:
        yield from _closed(*last)


def _closed(key: Key, numbers: list[int], looks: int) -> Iterator[Group]:
    """Equal looks are one step; an event that is in no such row is a step of its own."""
    if looks > 1:
        yield Group(numbers, looks)
    else:
        yield from (Group([number]) for number in numbers)


def _looks(events: list[Event], numbers: list[int]) -> Iterator[tuple[Key, list[int]]]:
    """The looks of a rank: loads of words of a line one after the other, or a register that was found taken.

    Any other event is alone, and has no key."""
    at = 0
    while at < len(numbers):
        start, event = at, events[numbers[at]]
        at += 1
        if event.access == "load" and event.role.sort not in NO_POLL:
            while at < len(numbers) and _goes_on(events[numbers[at - 1]], events[numbers[at]]):
                at += 1
        look = numbers[start:at]
        is_poll = event.access == "load" and event.role.sort not in NO_POLL or event.access == "take" and not event.value
        yield tuple((events[number].place, events[number].value) for number in look) if is_poll else (), look


def _goes_on(event: Event, after: Event) -> bool:
    """Whether a load is of the word behind the one that was loaded before."""
    return after.access == "load" and (after.core, after.line, after.word) == (event.core, event.line, event.word + 1)
