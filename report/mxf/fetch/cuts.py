"""Where a cut of a recording begins and ends: in its units, in the file, and in time."""
from __future__ import annotations

import dataclasses
from fractions import Fraction

from mxf.faults import READ, OwnFault, ToolFault
from mxf.fetch.asking import Asking
from mxf.fetch.clocks import Clock, clock_of
from mxf.fetch.minutes import Asked, Counted
from mxf.fetch.spans import Span
from mxf.lines import Line

TOO_MANY = "too many units"


@dataclasses.dataclass(frozen=True)
class Cut:
    """A cut from a key frame to the last unit that is asked for. What it begins with is told by a timecode if there is a
    clock, and else by the number of a unit."""

    units: Span  # where the units lie
    key: Span  # where the first of them lies
    count: int  # of units
    begin: Fraction  # the seconds at which the first unit is shown
    asked: Fraction  # those at which what is asked for is
    wanted: int  # how many timecodes are asked for, or units
    tick: Fraction  # the seconds of a timecode, or of a unit without a clock
    unit: Fraction  # the seconds of a unit
    keyed: int  # units up to the next key frame
    first: str  # what it begins with
    is_timed: bool


def cut_of(asking: Asking, asked: Asked, counted: Counted) -> Cut:
    """The cut for the edit units that are asked for."""
    described, shown = asking.lines("describe"), asking.lines("show")
    index = index_of(asked, described, shown)
    clock = clock_of(index, described, shown)
    if clock is None:
        raise OwnFault(READ, f"read fault: no segment of index {index} says how long a unit is")
    bounds = units_of(asking, asked.first, asked.last, index)
    last = bounds[-1]["unit"]
    lines = [line for line in units_of(asking, str(counted.first), str(last), index) if line["start"] is not None]
    placed = [place for line in lines if line["at"] for place in [clock.place(line["at"])] if place is not None]
    key = lines[0]
    begin = clock.place(key["at"]) if key["at"] else None
    begin = key["unit"] / clock.rate if begin is None else begin
    at = place_of(clock, asked.first, bounds[0])
    end = place_of(clock, asked.last, bounds[-1])
    timed = [line for line in lines if line["at"]]
    keys = [line["unit"] for line in lines[1:] if line["key"] == line["unit"]]
    return Cut(
        units=Span(min(line["start"] for line in lines), max(line["end"] for line in lines)),
        key=Span(key["start"], key["end"]),
        count=last - key["unit"] + 1,
        begin=begin,
        asked=at,
        wanted=round((end - at) / clock.tick) + 1,
        tick=clock.tick,
        unit=1 / clock.rate,
        keyed=(keys[0] if keys else last + 1) - key["unit"],
        first=min(zip(placed, (line["at"] for line in timed)))[1] if placed else f"unit {key['unit']}",
        is_timed=bool(placed),
    )


def index_of(asked: Asked, described: list[Line], shown: list[Line]) -> int:
    """The index by which the units are meant: the one that is named, the only one with a clock, or the only one."""
    if asked.by is not None:
        return int(asked.by)
    clocks = [line["index-sid"] for line in described if line["line"] == "clock"]
    segments = [line["index-sid"] for line in shown if line["line"] == "segment"]
    is_timed = ":" in f"{asked.first}{asked.last}"
    return int((clocks if is_timed and clocks else segments)[0])


def units_of(asking: Asking, first: str | None, last: str | None, index: int) -> list[Line]:
    """The lines of the units from one to another. Of more than mxf_tool lists at once those at both ends stand for all."""
    try:
        return lines_of_units(asking, first, last, index)
    except ToolFault as fault:
        if fault.last_line() != TOO_MANY:
            raise
    return [*lines_of_units(asking, first, first, index), *lines_of_units(asking, last, last, index)]


def lines_of_units(asking: Asking, first: str | None, last: str | None, index: int) -> list[Line]:
    """The same, of as many as mxf_tool lists."""
    span = Asked(first, last, str(index)).options()
    return [line for line in asking.lines("units", "--timecode", *span) if line["line"] == "unit"]


def place_of(clock: Clock, word: str | None, line: Line) -> Fraction:
    """The seconds at which what a word names is shown: a timecode, or a unit, whose line it is."""
    timecode = word if word and ":" in word else line["at"]
    place = clock.place(timecode.replace(";", ":")) if timecode else None
    return Fraction(line["unit"]) / clock.rate if place is None else place
