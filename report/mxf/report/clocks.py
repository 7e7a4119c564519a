"""Timecodes, and the clocks of indexes."""
from __future__ import annotations

from mxf.lines import ClockLine
from mxf.timecodes import Counting


class ClockRun:
    """A run of a clock: its number among them, which positions it has, and how many timecodes."""

    def __init__(self, number: int, line: ClockLine) -> None:
        self.number = number
        self.counting = Counting(line["base"], ";" in line["first"])
        self.first, count = self.counting.number(line["first"]), line["count"]
        self.day = self.counting.day()
        self.position = line["position"]
        self.end = self.position + (2**64 if count is None else count)
        self.is_long, self.timecodes, self.each = True, self.day, 1
        if count is not None and line["last"] is not None and count <= self.day:
            self.is_long = False
            self.timecodes = (self.counting.number(line["last"]) - self.first) % self.day + 1
            self.each = max(1, count // self.timecodes)

    def before(self, timecode: str) -> int | None:
        """How many timecodes of the run come before one on its first day, if it may have that."""
        if (timecode[8] == ";") != self.counting.is_drop:
            return None
        before = (self.counting.number(timecode) - self.first) % self.day
        return before if before < self.timecodes else None


# A place in a clock: the number of the run, and how many timecodes come before it there. Later is shown later.
Place = tuple[int, int]


class Clock:
    """The clock of an index, by its lines of `describe`. It says where the timecodes of edit units stand that come one
    after another."""

    NEAR = 128  # units that a picture is stored away from its place, at most

    def __init__(self, lines: list[ClockLine]) -> None:
        ordered = sorted(lines, key=lambda line: line["position"])
        self.waiting = [ClockRun(number, line) for number, line in enumerate(ordered)][::-1]
        self.near: list[ClockRun] = []
        self.latest: Place = (-1, 0)

    def place(self, unit: int, timecode: str) -> Place | None:
        """Where the timecode stands that an edit unit shows. It isn't known if no run near the unit has it."""
        while self.waiting and self.waiting[-1].position <= unit + self.NEAR:
            self.near.append(self.waiting.pop())
        fitting = []
        for run in self.near:
            before = run.before(timecode)
            if before is not None:
                fitting.append((run, before))
        if not fitting:
            return None
        run, before = fitting[0]
        if len(self.near) > 1:
            run, before = min(fitting, key=lambda one: abs(one[0].position + one[0].each * one[1] - unit))
            self.near = [run for run in self.near if run.end > unit - self.NEAR]
        number, latest = self.latest
        if run.is_long and run.number == number:
            # It is on the day that is nearest to the one before.
            before += run.day * round((latest - before) / run.day)
        self.latest = run.number, before
        return self.latest


class Timecodes:
    """The first and the last timecode of some edit units, in the order in which they are shown."""

    def __init__(self, first: str | None = None, last: str | None = None) -> None:
        self.first, self.last = first, last
        self.begin: Place | None = None
        self.end: Place | None = None

    def take(self, place: Place, timecode: str) -> None:
        """Takes a timecode with its place in the clock."""
        if self.begin is None or self.end is None:
            self.first = self.last = timecode
            self.begin = self.end = place
        elif place < self.begin:
            self.first, self.begin = timecode, place
        elif place > self.end:
            self.last, self.end = timecode, place

    def add(self, others: Timecodes) -> None:
        """Takes the first and the last of others."""
        for place, timecode in ((others.begin, others.first), (others.end, others.last)):
            if place and timecode:
                self.take(place, timecode)

    def text(self) -> str:
        """From which one to which one they go."""
        return f"{self.first}" if self.first == self.last else f"{self.first} to {self.last}"
