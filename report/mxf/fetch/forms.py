"""The lines of mxf_tool that are used here, each with its form."""
from __future__ import annotations

from typing import Any, TypedDict, cast

from mxf.lines import ClockLine, FindingLine, Line, PacketLine, RangeLine, RestoreLine, UnitsLine, UnitWords
from mxf.reading import checked, end_of_packet


class UnitLine(UnitWords):
    """An edit unit, with its key frame, and the timecode that it shows."""

    key: int | None
    at: str | None


# A segment of an index table: how fast the units go, one number over another.
SegmentLine = TypedDict("SegmentLine", {"index-sid": int, "rate": int, "base": int})

FORMS: dict[str, Any] = {
    "restore": RestoreLine, "note": PacketLine, "gap": RangeLine, "finding": FindingLine, "units": UnitsLine,
    "unit": UnitLine, "clock": ClockLine, "segment": SegmentLine,
}  # fmt: skip


def formed(line: Line) -> Line:
    """A line that has the members of its form, if it is one that is used."""
    form = FORMS.get(line["line"])
    if form is not None:
        checked(line, form)
    return line


def end_of(note: Line) -> int:
    """The offset after a packet."""
    return end_of_packet(cast(PacketLine, note))
