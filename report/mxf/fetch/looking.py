"""Getting of a recording what says what it is: its header metadata, its partitions and its index."""
from __future__ import annotations

from collections.abc import Iterable, Iterator

from mxf.faults import READ, OwnFault
from mxf.fetch.asking import Asking
from mxf.fetch.forms import end_of
from mxf.fetch.getting import Getting
from mxf.fetch.spans import Span
from mxf.lines import Line

ROUNDS = 64  # at most
FRONT, BACK = 65536, 16384  # bytes that are got first
STEP = 8192  # bytes that are got first of an order
LARGEST = 4194304  # the value of a packet that is got whole, and the greatest step

# The reasons of orders that are got as they stand.
WHOLE = {"metadata", "unit"}

NOT_HELD = "F03"  # the code of bytes that aren't held

# The kinds of packets that say what a recording is, beside the sets, whose kinds have many names.
PASSED = {"fill", "essence", "other"}


def begin(getting: Getting) -> None:
    """Gets the front of a recording, which tells its size with most places, and its end."""
    if not getting.folder.held():
        getting.get([Span(0, FRONT)])
    if not getting.folder.held():
        raise OwnFault(READ, f"read fault: {getting.folder.recording.shown}: it is empty")
    if getting.size is not None:
        getting.get([Span(max(0, getting.size - BACK), getting.size)])


class Orders:
    """What is got of orders. Metadata and edit units are got as they are ordered, and of all else a few bytes first: where
    an order goes on behind them, it is got in greater steps."""

    def __init__(self) -> None:
        self.steps: dict[int, int] = {}  # how much was got last, by where that ends

    def spans(self, lines: Iterable[Line]) -> Iterator[Span]:
        """What the orders of a plan stand for, but for those of which no pack says what lies there."""
        for line in lines:
            if line["line"] == "restore" and line["reason"] != "gap":
                yield self.span(line["start"], line["end"], line["reason"])

    def span(self, start: int, end: int | None, reason: str) -> Span:
        """The same of an order."""
        if end is not None and reason in WHOLE:
            return Span(start, end)
        step = min(2 * self.steps[start], LARGEST) if start in self.steps else STEP
        stop = start + step if end is None else min(start + step, end)
        self.steps[stop] = step
        return Span(start, stop)


def look(getting: Getting, asking: Asking) -> None:
    """Gets what says what a recording is, in as few rounds as it takes."""
    if not asking.sources:
        begin(getting)
    orders = Orders()
    for _ in range(ROUNDS):
        spans = [*orders.spans(asking.lines("plan")), *heads(asking.lines("show"))]
        if not getting.lacks(spans) or not getting.get(spans):
            return


def heads(lines: Iterable[Line]) -> Iterator[Span]:
    """The packets of the structure of which only the head is held, as `show` prints them."""
    for line in lines:
        if line["line"] == "note" and line["head"] and line["kind"] not in PASSED and line["length"] <= LARGEST:
            yield Span(line["offset"], end_of(line))


def findings(asking: Asking) -> Iterator[str]:
    """The findings of what was got. One of bytes that aren't held is left out if nothing but essence is known to lie there:
    then no pack names a place in them."""
    named = [line["start"] for line in asking.lines("plan") if line["line"] == "restore" and line["reason"] != "gap"]
    gaps = [(line["start"], line["end"]) for line in asking.lines("show") if line["line"] == "gap"]
    unnamed = {start for start, end in gaps if not any(start <= place < end for place in named)}
    for line in asking.lines("check"):
        if line["line"] == "finding" and not (line["code"] == NOT_HELD and line["offset"] in unnamed):
            yield f"{line['code']} {line['offset']} {line['text']}"
