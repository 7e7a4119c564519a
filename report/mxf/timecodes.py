"""Timecodes, which number the frames of a day."""
from __future__ import annotations

import re

HOURS = 24

# Two digits each of hours, minutes and seconds, and two to five of the frames. Those of drop frame have a semicolon.
TIMECODE = re.compile(r"[0-9]{2}:[0-9]{2}:[0-9]{2}[:;][0-9]{2,5}")


def is_timecode(text: str) -> bool:
    """Whether a text has the form of a timecode."""
    return TIMECODE.fullmatch(text) is not None


def is_within(timecode: str, first: str, last: str) -> bool:
    """Whether a timecode lies between two, or is one of them. Frames may have more digits than two."""
    second, frame = timecode[:8], int(timecode[9:])
    return (first[:8], int(first[9:])) <= (second, frame) <= (last[:8], int(last[9:]))


class Counting:
    """How the frames of a day are numbered: so many a second, and whether drop frame leaves labels out."""

    def __init__(self, base: int, is_drop: bool) -> None:
        self.base, self.is_drop = base, is_drop

    def left_out(self) -> int:
        """How many labels drop frame leaves out of a minute, but for each tenth (ST 12-1)."""
        return self.base // 15 if self.is_drop and self.base in (30, 60) else 0

    def day(self) -> int:
        """How many labels a day has."""
        return 60 * 24 * 60 * self.base - self.left_out() * 9 * 6 * 24

    def number(self, timecode: str) -> int:
        """How many labels of a day come before this one."""
        minutes = 60 * int(timecode[:2]) + int(timecode[3:5])
        skipped = self.left_out() * (minutes - minutes // 10)
        return (60 * minutes + int(timecode[6:8])) * self.base + int(timecode[9:]) - skipped

    def label(self, number: int) -> str:
        """The label of a number below that of a day, with a colon before the frames."""
        left_out = self.left_out()
        if left_out:
            tens, rest = divmod(number, 600 * self.base - 9 * left_out)
            number += 9 * left_out * tens + left_out * max(0, (rest - left_out) // (60 * self.base - left_out))
        seconds, frames = divmod(number, self.base)
        return f"{seconds // 3600:02}:{seconds // 60 % 60:02}:{seconds % 60:02}:{frames:02}"

    def has(self, timecode: str) -> bool:
        """Whether a day has this label. One with a semicolon is of drop frame alone."""
        hours, minutes, seconds, frames = map(int, (timecode[:2], timecode[3:5], timecode[6:8], timecode[9:]))
        if hours >= HOURS or minutes > 59 or seconds > 59 or frames >= self.base:
            return False
        if timecode[8] == ";" and not self.is_drop:
            return False
        return not (minutes % 10 and seconds == 0 and frames < self.left_out())
