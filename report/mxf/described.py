"""What a recording is, by what `describe` says."""
from __future__ import annotations

import collections
from collections.abc import Iterable, Iterator
from functools import partial
from typing import NamedTuple

from mxf.essence import Picture, Sound, picture_of, sound_of
from mxf.labels.naming import container_text, is_stated
from mxf.lines import ClockLine, DescribedLine, EssenceLine, Line, SampledPictureLine, SoundLine
from mxf.reading import Takers, take_lines
from mxf.packages import Packages
from mxf.written import Written

GENERIC = "0d010301027f"  # of a container that has several kinds, each of which is named too


class Timecodes(NamedTuple):
    """The first timecode of a recording, and the last one if that is known."""

    first: str | None
    last: str | None


class Described(Packages):
    """What `describe` says of a recording: the copy of its header metadata that is gone by, its packages, its containers,
    how often each picture and sound is stated, and the runs of its clocks."""

    def __init__(self, lines: Iterable[Line] = ()) -> None:
        super().__init__()
        self.copy: DescribedLine = {}
        self.containers: dict[str, None] = {}
        self.pictures: dict[Picture, int] = collections.Counter()
        self.sounds: dict[Sound, int] = collections.Counter()
        self.clocks: list[ClockLine] = []
        self.astray = 0
        self.essence: EssenceLine = {"track": None, "rate": None, "container": None}
        take_lines(self.counted(lines), self.takers())

    def takers(self) -> Takers:
        """What takes the lines, by their names."""
        return {
            **super().takers(),
            "described": (DescribedLine, partial(setattr, self, "copy")),
            "essence": (EssenceLine, self.take_essence),
            "picture": (SampledPictureLine, self.take_picture),
            "sound": (SoundLine, self.take_sound),
            "clock": (ClockLine, self.clocks.append),
        }

    def counted(self, lines: Iterable[Line]) -> Iterator[Line]:
        """The lines. It is counted how many references weren't followed."""
        for line in lines:
            self.astray += line.get("target", "found") not in ("found", "other")
            yield line

    def take_essence(self, line: EssenceLine) -> None:
        """What a descriptor says of all essence."""
        self.essence = line
        if line["container"] is not None and is_stated(line["container"]):
            self.containers[line["container"]] = None

    def take_picture(self, line: SampledPictureLine) -> None:
        """What it says of a picture."""
        self.pictures[picture_of(self.essence, line)] += 1

    def take_sound(self, line: SoundLine) -> None:
        """What it says of a sound."""
        self.sounds[sound_of(self.essence, line)] += 1

    def clocked(self) -> list[int]:
        """The indexes that have a clock."""
        return list(dict.fromkeys(run["index-sid"] for run in self.clocks))

    def runs_of(self, index_sid: int | None) -> list[ClockLine]:
        """The runs of the clock of an index."""
        return [run for run in self.clocks if run["index-sid"] == index_sid]

    def timecodes(self) -> Timecodes:
        """From which timecode to which the recording goes: by the clock of the first index that has one, or by the first
        package."""
        runs = self.runs_of(next(iter(self.clocked()), None))
        if not runs:
            return Timecodes(self.timecode(), None)
        return Timecodes(runs[0]["first"], runs[-1]["last"])

    def why_unknown(self) -> str:
        """Why nothing says what the recording is."""
        partition = self.copy.get("partition")
        if partition is None:
            return "no copy of its header metadata is held whose partition pack is clear"
        return f"the header metadata of the partition at {partition} name no package that can be read"


def containers_of(described: Described, written: Written) -> list[str]:
    """The labels of the containers, by the descriptors or else by the partition packs. The one that says that there are
    several kinds is left out if these are there."""
    labels = list(described.containers or written.containers)
    return [label for label in labels if GENERIC not in label] or labels


def containers_text(described: Described, written: Written) -> str | None:
    """The operational pattern and the containers in words, if any of them is known."""
    names = [container_text(label) for label in containers_of(described, written)]
    return "; ".join(dict.fromkeys(text for text in (written.pattern, *names) if text)) or None
