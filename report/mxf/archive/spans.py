"""Which timecodes of a day clocks and timecode components have, hour by hour."""
from __future__ import annotations

from collections.abc import Iterator

from mxf.lines import ClockLine, Line, TimecodeLine
from mxf.timecodes import HOURS, Counting


class Span:
    """Timecodes one after another: the first, how many there are, how they are numbered, and whether there may be more
    than is known."""

    def __init__(self, first: str, count: int, counting: Counting, is_open: bool) -> None:
        self.first, self.count, self.counting, self.is_open = first, count, counting, is_open

    def hours(self) -> Iterator[Line]:
        """What of them lies in each hour of a day, as rows of the table hours. A day is all that there is."""
        counting, day = self.counting, self.counting.day()
        begin, first = counting.number(self.first), int(self.first[:2])
        end = begin + min(max(self.count, 1), day)
        for turn, hour in (divmod(place, HOURS) for place in range(first, min(first + HOURS + 1, 2 * HOURS))):
            past = turn * day
            border = counting.number(f"{hour:02}:00:00:00") + past
            after = border + day // HOURS
            if border >= end:
                return
            yield {
                "hour": hour, "base": counting.base, "is_drop": int(counting.is_drop), "is_open": int(self.is_open),
                "first": counting.label(max(begin, border) - past), "last": counting.label(min(end, after) - 1 - past),
            }  # fmt: skip


class Rate:
    """Edit units a second: a fraction whose numbers are above 0."""

    def __init__(self, above: int, below: int) -> None:
        self.above, self.below = above, below

    def nearest(self) -> int:
        """The whole number that is nearest, the even one of two."""
        whole, rest = divmod(self.above, self.below)
        return whole + (2 * rest + whole % 2 > self.below)


def span_of_clock(line: ClockLine, rate: Rate | None) -> Span:
    """The timecodes of a run of a clock. At this rate its positions follow one another, if that is known: a run that is
    longer than a day has all timecodes. One without an end has all from the first one up to midnight, as far as is known.
    """
    counting = Counting(line["base"], ";" in line["first"])
    begin, day = counting.number(line["first"]), counting.day()
    if line["count"] is None or line["last"] is None:
        return Span(line["first"], day - begin, counting, True)
    is_long = rate is not None and line["count"] * rate.below >= 86400 * rate.above
    count = day if is_long else (counting.number(line["last"]) - begin) % day + 1
    return Span(line["first"], count, counting, False)


def span_of_component(line: TimecodeLine, rate: Rate | None) -> Span | None:
    """The timecodes of a timecode component in a track of this rate; None if it says none."""
    if line["at"] is None or not line["base"]:
        return None
    counting = Counting(line["base"], ";" in line["at"])
    begin, duration = counting.number(line["at"]), line["duration"]
    if duration is None or rate is None:
        return Span(line["at"], counting.day() - begin, counting, True)
    count = duration if rate.nearest() == counting.base else -(-duration * counting.base * rate.below // rate.above)
    return Span(line["at"], count, counting, False) if duration > 0 else None


def rate_of(text: str | None) -> Rate | None:
    """A rate, if both its numbers are above 0."""
    above, _, below = (text or "").partition("/")
    is_good = above.isdigit() and below.isdigit() and int(above) > 0 and int(below) > 0
    return Rate(int(above), int(below)) if is_good else None
