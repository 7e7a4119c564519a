"""Getting the edit units from one to another, and what is needed to decode them."""
from __future__ import annotations

from typing import NamedTuple

from mxf.fetch.asking import Answer, Asking
from mxf.fetch.getting import Getting
from mxf.fetch.looking import ROUNDS, Orders, begin


class Asked(NamedTuple):
    """Which edit units are asked for, by timecodes or by numbers, and by which index, if that is said."""

    first: str | None
    last: str | None
    by: str | None

    def options(self) -> list[str]:
        """The options of mxf_tool that say so."""
        named = (("--from", self.first), ("--to", self.last), ("--index", self.by))
        return [part for option, word in named if word is not None for part in (option, word)]


class Counted(NamedTuple):
    """How many edit units are asked for, held and at hand, and the first that is needed to decode them."""

    units: int
    held: int
    hand: int
    first: int

    def text(self) -> str:
        """The line, as `plan` prints it."""
        return f"units {self.units} held {self.held} hand {self.hand} from {self.first}"


class Minute(NamedTuple):
    """What a plan for the edit units says in the end: its status, what it said on standard error, and how many units there
    are, if that is known."""

    status: int
    said: bytes
    counted: Counted | None


def get_units(getting: Getting, asking: Asking, asked: Asked) -> Minute:
    """Gets what is ordered for the edit units, until nothing new is."""
    if not asking.sources:
        begin(getting)
    orders = Orders()
    for _ in range(ROUNDS):
        answer = asking.ask("plan", "--json", *asked.options())
        spans = list(orders.spans(answer.lines()))
        if answer.status != 1 or not getting.lacks(spans) or not getting.get(spans):
            break
    return minute_of(answer)


def minute_of(answer: Answer) -> Minute:
    """What a plan for edit units says."""
    lines = [line for line in answer.lines() if line["line"] == "units"]
    counted = [Counted(line["units"], line["held"], line["hand"], line["from"]) for line in lines]
    return Minute(answer.status, answer.said, counted[-1] if counted else None)
