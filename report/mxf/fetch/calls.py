"""The commands look, units and whole, each with what is got."""
from __future__ import annotations

from typing import NamedTuple

from mxf.fetch.asking import Asking
from mxf.fetch.getting import Getting
from mxf.faults import tell
from mxf.fetch import looking
from mxf.fetch.minutes import Asked, Minute, get_units
from mxf.fetch.spans import OPEN, Span, missing
from mxf.fetch.words import Words

LEAST_PART = 1 << 26  # bytes that whole asks for at least by one request, if there are so many
PARTS = 256  # requests of whole at most, so that mxf_tool can open all of their files


class Call(NamedTuple):
    """A call: its words, what gets bytes, and what is asked of them."""

    words: Words
    getting: Getting
    asking: Asking

    def asked(self) -> Asked:
        """The edit units that the words name."""
        return Asked(self.words.first, self.words.last, self.words.index)

    def tell(self, done: str) -> None:
        """Prints how much was got."""
        getting = self.getting
        size = "-" if getting.size is None else getting.size
        print(f"{done} {getting.requests} requests {getting.came} bytes of {size}")


def look(call: Call) -> int:
    """Gets what says what the recording is, and prints that, and what is wrong as far as it is known."""
    looking.look(call.getting, call.asking)
    described = call.asking.ask("describe")
    for text in described.texts:
        print(text.decode("utf-8", "replace"))
    for told in looking.findings(call.asking):
        print(told)
    call.tell("looked")
    return described.status


def units(call: Call) -> int:
    """Gets the edit units, and prints whether they are there."""
    minute = get_units(call.getting, call.asking, call.asked())
    tell_minute(call, minute)
    return minute.status


def tell_minute(call: Call, minute: Minute) -> None:
    """Prints what came of edit units."""
    tell(minute.said)
    if minute.counted is not None:
        print(minute.counted.text())
    call.tell("fetched")


def whole(call: Call) -> int:
    """Gets all that isn't there."""
    getting = call.getting
    if getting.size is None and not getting.folder.held():
        getting.get([Span(0, looking.FRONT)])
    getting.get(parts_of(missing([Span(0, OPEN if getting.size is None else getting.size)], getting.folder.held())))
    call.tell("fetched")
    return 0 if getting.size is not None and not getting.lacks([Span(0, getting.size)]) else 1


def parts_of(spans: list[Span]) -> list[Span]:
    """The spans in parts that are asked for one by one."""
    length = sum(span.length for span in spans if span.end < OPEN)
    part = max(LEAST_PART, -(-length // PARTS))
    parts = []
    for start, end in spans:
        bounds = range(start, end, part) if end < OPEN else range(start, start + 1)
        parts += [Span(begin, min(begin + part, end) if end < OPEN else end) for begin in bounds]
    return parts
