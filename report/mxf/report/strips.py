"""Edit units one after another, and those that have bytes in orders."""
from __future__ import annotations

import bisect
import collections
import shlex
from collections.abc import Iterable, Sequence
from dataclasses import dataclass, field
from functools import partial

from mxf.report.clocks import Clock, Place, Timecodes
from mxf.report.guide import REASONS, STANDING_WORDS
from mxf.lines import Line, RestoreLine, UnitLine, UnitsLine, VerifiedUnitsLine
from mxf.reading import take_lines
from mxf.report.planned import Planned
from mxf.report.rows import Rows


class OrderedUnits:
    """The timecodes of the edit units that have bytes in each order. Units that lie alike among the borders of all
    orders are kept as one."""

    def __init__(self, orders: list[RestoreLine]) -> None:
        self.borders = sorted({border for order in orders for border in self.bytes_of(order)})
        self.alike: dict[tuple[int, int], Timecodes] = collections.defaultdict(Timecodes)

    @staticmethod
    def bytes_of(order: RestoreLine) -> tuple[int, int]:
        """From where to where the bytes of an order go."""
        return order["start"], 2**64 if order["end"] is None else order["end"]

    def take(self, start: int, end: int | None, place: Place, timecode: str) -> None:
        """Takes an edit unit by its bytes, whose timecode stands at this place. Of a unit without an end its first byte
        counts."""
        begin = bisect.bisect_right(self.borders, start)
        after = bisect.bisect_left(self.borders, start + 1 if end is None else end)
        self.alike[begin, after].take(place, timecode)

    def within(self, order: RestoreLine) -> Timecodes:
        """The timecodes of the units that have bytes in an order."""
        first, last = (bisect.bisect_left(self.borders, border) for border in self.bytes_of(order))
        found = Timecodes()
        for (begin, after), timecodes in self.alike.items():
            if first < after and begin <= last:
                found.add(timecodes)
        return found


@dataclass
class Run:
    """Units one after another of one word: the first and the last, from where to where they lie, and their timecodes."""

    word: str
    first: int
    last: int
    start: int | None
    end: int | None
    shown: Timecodes = field(default_factory=Timecodes)


class Strip:
    """How edit units one after another stand, a byte each: the number of the word. Runs of one word are kept too, with
    the timecodes of their units if a clock is known. The command, with the options by which it was asked, has all of
    them. Without an index the program says which one is meant."""

    def __init__(self, index_sid: int | None, command: str, span: Sequence[str], clock: Clock | None = None) -> None:
        self.index_sid = index_sid
        self.named = [*(["--index", str(index_sid)] if index_sid is not None else []), *span]
        self.options = [*self.named, *(["--timecode"] if clock else [])]
        self.command = f"mxf_tool {command} {shlex.join(self.options)}"
        self.clock = clock
        self.ordered = OrderedUnits([])
        self.first = 0
        self.codes = bytearray()
        self.runs: Rows[Run] = Rows()
        self.run: Run | None = None
        self.total: UnitsLine | None = None
        self.planned: Planned | None = None
        self.remark = ""

    def take(self, first: int, last: int, word: str, start: int | None = None, end: int | None = None) -> None:
        """Takes units of one word, which lie from an offset up to another."""
        if not self.codes:
            self.first = first
        self.codes += bytes([STANDING_WORDS.index(word)]) * (last - first + 1)
        if self.run and self.run.word == word:
            self.run.last, self.run.end = last, end
            return
        self.run = Run(word, first, last, start, end)
        self.runs.add(self.run)

    def take_units(self, lines: Iterable[Line]) -> None:
        """Takes what `units` says."""
        take_lines(lines, {"unit": (UnitLine, self.take_unit), "units": (UnitsLine, partial(setattr, self, "total"))})

    def take_unit(self, line: UnitLine) -> None:
        """Takes an edit unit, with the timecode that it shows if one is known."""
        self.take(line["unit"], line["unit"], line["standing"], line["start"], line["end"])
        timecode = line.get("at")
        place = self.clock.place(line["unit"], timecode) if self.clock and timecode else None
        if self.run and place and timecode:
            self.run.shown.take(place, timecode)
            if line["start"] is not None:
                self.ordered.take(line["start"], line["end"], place, timecode)

    def take_verified(self, line: VerifiedUnitsLine) -> None:
        """Takes units that stand alike beside a reference, with the first and the last timecode that they show."""
        self.take(line["first"], line["last"], line["standing"])
        if self.run:
            self.run.shown = Timecodes(line.get("first-at"), line.get("last-at"))

    def last(self) -> int:
        """The last unit."""
        return self.first + len(self.codes) - 1

    def is_timed(self) -> bool:
        """Whether a timecode of a run is known."""
        return any(run.shown.first for run in self.runs.kept)

    def counts(self, begin: int = 0, end: int | None = None) -> dict[str, int]:
        """How many units stand by each word, from one place of the strip up to another."""
        counts = collections.Counter(self.codes[begin:end])
        return {STANDING_WORDS[code]: counts[code] for code in sorted(counts)}


def what_is_ordered(order: RestoreLine, strips: list[Strip]) -> str:
    """What lies in an order, with the timecodes of the edit units that it is of, and their index if there are several."""
    told = REASONS.get(order["reason"], order["reason"])
    told += "; these bytes were handed in already, and don't do" if order["again"] else ""
    for strip in strips:
        timecodes = strip.ordered.within(order)
        named = f" of index {strip.index_sid}" if len(strips) > 1 else ""
        told += f"; edit units{named} at {timecodes.text()}" if timecodes.first else ""
    return told
