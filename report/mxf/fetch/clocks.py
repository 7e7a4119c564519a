"""Where timecodes stand in a recording, by the clock of an index."""
from __future__ import annotations

import dataclasses
from collections.abc import Iterable
from fractions import Fraction

from mxf.timecodes import Counting
from mxf.lines import Line


@dataclasses.dataclass(frozen=True)
class Run:
    """A run of the clock of an index: the seconds at its start, its first timecode, how many it has, and how timecodes are
    counted."""

    start: Fraction
    first: str
    count: int | None
    counting: Counting
    tick: Fraction  # the seconds of a timecode

    def place(self, timecode: str) -> Fraction | None:
        """The seconds at which a timecode is shown, if the run has it."""
        if not self.counting.has(timecode):
            return None
        after = (self.counting.number(timecode) - self.counting.number(self.first)) % self.counting.day()
        return self.start + after * self.tick if self.count is None or after < self.count else None


class Clock:
    """The clock of an index."""

    def __init__(self, runs: list[Run], rate: Fraction) -> None:
        self.runs = runs
        self.rate = rate  # edit units a second

    @property
    def tick(self) -> Fraction:
        """The seconds of a timecode, or of an edit unit if there is no clock."""
        return self.runs[0].tick if self.runs else 1 / self.rate

    def place(self, timecode: str) -> Fraction | None:
        """The seconds at which a timecode is shown, from the first edit unit on."""
        places = [place for run in self.runs for place in [run.place(timecode)] if place is not None]
        return places[0] if places else None


def clock_of(index: int, described: list[Line], shown: Iterable[Line]) -> Clock | None:
    """The clock of an index, by what `describe` and `show` print; none if no segment says how fast its units go."""
    rates = [(line["rate"], line["base"]) for line in shown if line["line"] == "segment" and line["index-sid"] == index]
    if not any(rate > 0 and base > 0 for rate, base in rates):
        return None
    rate = next(Fraction(rate, base) for rate, base in rates if rate > 0 and base > 0)
    tracks = [fraction_of(line["rate"]) for line in described if line["line"] == "track" and line.get("rate")]
    runs = []
    for line in described:
        if line["line"] == "clock" and line["index-sid"] == index:
            frames = next((one for one in [rate, *tracks] if round(one) == line["base"]), Fraction(line["base"]))
            counting = Counting(line["base"], ";" in line["first"])
            count = None if line["count"] is None else int(line["count"] * frames / rate)
            runs.append(Run(line["position"] / rate, line["first"], count, counting, 1 / frames))
    return Clock(runs, rate)


def fraction_of(text: str) -> Fraction:
    """A rate, one number over another."""
    above, _, below = text.partition("/")
    return Fraction(int(above), int(below or 1)) if int(below or 1) else Fraction(0)
