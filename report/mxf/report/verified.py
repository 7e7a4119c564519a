"""How a recording is beside a reference, by what `verify` says."""
from __future__ import annotations

from collections.abc import Iterable
from functools import partial

from mxf.lines import DiffersLine, Line, PacketLine, RangeLine, StopLine, VerifiedLine, VerifiedUnitsLine
from mxf.reading import take_lines
from mxf.report.rows import Rows
from mxf.report.strips import Strip


class Verified:
    """What `verify` says: what differs or is cut, and its numbers; and how edit units stand by it."""

    def __init__(self, lines: Iterable[Line], strip: Strip) -> None:
        self.differs: Rows[DiffersLine] = Rows()
        self.cut: Rows[PacketLine] = Rows()
        self.unverified: Rows[RangeLine] = Rows()
        self.unknown: Rows[RangeLine] = Rows()
        self.stops: Rows[StopLine] = Rows()
        self.strip = strip
        self.halts = self.unverified_bytes = 0
        self.numbers: VerifiedLine = {
            "packets": 0, "all-packets": 0, "bytes": 0, "all-bytes": 0, "differs": 0, "cut": 0, "unknown": 0,
        }  # fmt: skip
        take_lines(lines, {
            "differs": (DiffersLine, self.differs.add),
            "cut": (PacketLine, self.cut.add),
            "unknown": (RangeLine, self.unknown.add),
            "stop": (StopLine, self.take_stop),
            "unverified": (RangeLine, self.take_unverified),
            "units": (VerifiedUnitsLine, strip.take_verified),
            "verified": (VerifiedLine, partial(setattr, self, "numbers")),
        })  # fmt: skip

    def take_stop(self, line: StopLine) -> None:
        """How a source of the reference ends."""
        self.stops.add(line)
        self.halts += line["stop"] != "truncated"

    def take_unverified(self, line: RangeLine) -> None:
        """Bytes of the reference that weren't verified."""
        self.unverified.add(line)
        self.unverified_bytes += line["end"] - line["start"]

    def is_all_there(self) -> bool:
        """Whether each byte of the reference is as it says in some source, also of packets that differ in others."""
        return self.numbers["bytes"] == self.numbers["all-bytes"]
