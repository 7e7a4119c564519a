"""The lines of mxf_tool as JSON: the members of each that are used (docs/FORMATS.md)."""
from __future__ import annotations

from typing import Any, TypedDict

# A line whose form isn't looked at yet. Its member "line" is its name.
Line = dict[str, Any]

# A line of which a form is known only when its members are looked at.
AnyLine = TypedDict("AnyLine", {"line": str})


# Lines of `map`.

# How many bytes are held, at hand and missing.
MapCounts = TypedDict("MapCounts", {"held": int, "hand": int, "missing": int})


class MapLine(MapCounts):
    """The numbers of a map."""

    end: int
    gaps: int
    disputed: int
    cell: int


# Some cells.
RowLine = TypedDict("RowLine", {"cells": str})

# Bytes that stand alike.
ExtentLine = TypedDict("ExtentLine", {"start": int, "end": int, "length": int, "standing": str})


# Lines of `show`.

# How a source ends.
StopWords = TypedDict("StopWords", {"source": int, "offset": int, "stop": str})


class StopLine(StopWords, total=False):
    """How a source ends, by `check` and `verify`. It says where if the source isn't read to its end."""

    at: int


class PieceLine(StopLine):
    """How a source ends, by `show`, and how many whole packets it has."""

    noted: int


class PacketLine(TypedDict):
    """A packet. Of a head only the key and the length are held."""

    offset: int
    kind: str
    width: int
    length: int
    key: str
    head: bool


class NoteLine(PacketLine, total=False):
    """A packet of `show`, which says whether it is in dispute, or a reading of `sources`, which has its digest and the
    numbers of its sources."""

    disputed: bool
    digest: str | None
    sources: list[int]


class DisputeLine(PacketLine):
    """A packet in dispute, with the offset after it."""

    end: int


# Bytes that aren't held, that weren't verified, or of which the reference says nothing.
RangeLine = TypedDict("RangeLine", {"start": int, "end": int})


PartitionLine = TypedDict("PartitionLine", {
    "offset": int, "part": str, "status": str, "previous": int, "footer": int, "header-bytes": int, "index-bytes": int,
    "index-sid": int, "body-sid": int, "pattern": str, "link": str,
})  # fmt: skip


PackWords = TypedDict("PackWords", {"major": int, "minor": int, "kag": int, "this": int, "body-offset": int})
PackQualifier = TypedDict("PackQualifier", {"qualifier": str}, total=False)


class PackLine(PartitionLine, PackWords, PackQualifier):
    """All of a partition pack. A pattern that is known has a qualifier."""


# A value of a set that is held.
ItemLine = TypedDict("ItemLine", {"tag": str, "value": "str | None"})

# Whether the chain of partitions is whole.
ChainLine = TypedDict("ChainLine", {"chain": str})

# An essence container that a partition pack names.
LabelLine = TypedDict("LabelLine", {"label": str})

# A copy of the header metadata.
CopyLine = TypedDict("CopyLine", {"partition": int, "start": "int | None", "bytes": int, "covered": int, "state": str})

# The partition of the copy to take.
PreferredLine = TypedDict("PreferredLine", {"partition": "int | None"})

# A reference to a set: its name, its identifier and how it stands.
ReferenceWords = TypedDict("ReferenceWords", {"line": str, "uid": str, "target": str})


class ReferenceLine(ReferenceWords, total=False):
    """A reference to the set of an identification or of a package. It says where the set stands if it is found."""

    offset: int


# A text that a set says.
TextLine = TypedDict("TextLine", {"text": str})

# An identifier that a set says.
UidLine = TypedDict("UidLine", {"uid": str})


class StampLine(TypedDict):
    """A time that a set says."""

    year: int
    month: int
    day: int
    hour: int
    minute: int
    second: int
    quarter: int


SegmentLine = TypedDict("SegmentLine", {"index-sid": int})

# How random index packs stand.
RipStanding = TypedDict("RipStanding", {"standing": str})


class RipLine(RipStanding, total=False):
    """The random index pack. It says where it stands if there is one."""

    offset: int


RipEntryLine = TypedDict("RipEntryLine", {"body-sid": int, "offset": int, "standing": str})


# Lines of `check`.

# A finding.
FindingLine = TypedDict("FindingLine", {"code": str, "offset": int, "text": str})

# How many findings there are.
FindingsLine = TypedDict("FindingsLine", {"findings": int})

# A doubt, which has the members of a finding, and how many there are.
DoubtLine = FindingLine
DoubtsLine = TypedDict("DoubtsLine", {"doubts": int})


# Lines of `plan`.


class RestoreLine(TypedDict):
    """An order."""

    start: int
    end: int | None
    reason: str
    source: int | None
    inside: bool
    again: bool


class OrderLine(RestoreLine):
    """An order with its length, if it has an end."""

    length: int | None


# A place that matters and is in dispute.
DisputedPlaceLine = TypedDict("DisputedPlaceLine", {"offset": int, "reason": str, "source": "int | None"})


PlannedLine = TypedDict("PlannedLine", {"ranges": int, "bytes": int, "open": int, "end": "int | None"})

# How many edit units there are, by `plan` and by `units`.
UnitsLine = TypedDict("UnitsLine", {"units": int, "held": int, "hand": int, "from": int})


# Lines of `sources`.

# A source, by its number and its word.
SourceWord = TypedDict("SourceWord", {"source": int, "word": str})


class SourceLine(SourceWord, total=False):
    """A source. A reading of it says how many packets it has."""

    notes: int
    alone: int
    disputed: int


# Lines of `describe`. Those of a package follow its line, and those of a track its line.


class DescribedLine(TypedDict, total=False):
    """The copy of the header metadata that is gone by."""

    partition: int | None
    state: str


# A package, a name and a container of it, and a track, each of which is found.
PackageLine = TypedDict("PackageLine", {"kind": str, "uid": str})
NameLine = TypedDict("NameLine", {"text": str})
ContainerLine = TypedDict("ContainerLine", {"body-sid": int, "index-sid": int})


class TrackLine(TypedDict):
    """A track that is found."""

    id: int
    kind: str | None
    number: str
    rate: str
    origin: int
    duration: int | None
    length: str | None


# A component of a track: a clip or a timecode.
ComponentLine = TypedDict("ComponentLine", {"start": "int | None", "duration": "int | None", "of-track": int})


ClipWords = TypedDict("ClipWords", {"package": str, "track": int, "from": int})


class ClipLine(ComponentLine, ClipWords):
    """A clip, and what it shows."""


# The timecode of a component.
TimecodeWords = TypedDict("TimecodeWords", {"at": "str | None", "base": int})


class TimecodeLine(ComponentLine, TimecodeWords):
    """A timecode component."""


# What a descriptor says of all essence.
EssenceLine = TypedDict("EssenceLine", {"track": "int | None", "rate": "str | None", "container": "str | None"})

PictureLine = TypedDict("PictureLine", {
    "width": "int | None", "height": "int | None", "display-width": "int | None", "display-height": "int | None",
    "layout": "int | None", "aspect": "str | None", "depth": "int | None", "coding": "str | None",
})  # fmt: skip

# How many samples of luminance there are for each of colour, across and down.
SamplingWords = TypedDict("SamplingWords", {"horizontal": "int | None", "vertical": "int | None"}, total=False)


class SampledPictureLine(PictureLine, SamplingWords):
    """All that a descriptor says of a picture. What is kept of a line may lack how colour is sampled."""


# What a descriptor says of a sound.
SoundLine = TypedDict("SoundLine", {
    "rate": "str | None", "channels": "int | None", "bits": "int | None", "coding": "str | None",
})  # fmt: skip


ClockLine = TypedDict("ClockLine", {
    "index-sid": int, "position": int, "count": "int | None", "first": str, "last": "str | None", "base": int,
    "by": str,
})  # fmt: skip


# Lines of `units`.

# An edit unit: how it stands, and from where to where it lies.
UnitWords = TypedDict("UnitWords", {"unit": int, "standing": str, "start": "int | None", "end": "int | None"})


class UnitLine(UnitWords, total=False):
    """An edit unit, with the timecode that it shows if that is asked for."""

    at: str | None


# Lines of `verify`.


class DiffersLine(PacketLine):
    """A packet of a source that isn't as the reference says."""

    source: int


# Edit units that stand alike.
VerifiedWords = TypedDict("VerifiedWords", {"first": int, "last": int, "standing": str})


VerifiedTimes = TypedDict("VerifiedTimes", {"first-at": "str | None", "last-at": "str | None"}, total=False)


class VerifiedUnitsLine(VerifiedWords, VerifiedTimes):
    """The same, with their first and their last timecode if these are asked for."""


VerifiedLine = TypedDict("VerifiedLine", {
    "packets": int, "all-packets": int, "bytes": int, "all-bytes": int, "differs": int, "cut": int, "unknown": int,
})  # fmt: skip
