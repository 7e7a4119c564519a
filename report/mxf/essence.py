"""Pictures and sounds in words, each with the name of its coding."""
from __future__ import annotations

from typing import NamedTuple

from mxf.labels.naming import picture_coding, sound_coding
from mxf.lines import EssenceLine, SampledPictureLine, SoundLine
from mxf.wording import count_text, rate_text

# How the lines of a picture are stored, by the FrameLayout of ST 377-1. The height of fields and segments is that of one.
PROGRESSIVE, FIELDS, SINGLE, MIXED, SEGMENTED = range(5)
SCANS = {
    PROGRESSIVE: "progressive",
    FIELDS: "interlaced",
    SINGLE: "single fields",
    MIXED: "interlaced",
    SEGMENTED: "progressive, in segments",
}
HALVES = (FIELDS, SEGMENTED)

# How colour is sampled, by how many samples of luminance there are for each of colour, across and down.
SAMPLINGS = {(1, 1): "4:4:4", (2, 1): "4:2:2", (2, 2): "4:2:0", (4, 1): "4:1:1"}

Size = tuple[int, int]


class Picture(NamedTuple):
    """A picture, as its descriptor says: the name and the label of its coding, the sizes of the whole picture as it is shown
    and as it is stored, and the rest."""

    coding: str | None
    label: str | None
    shown: Size | None
    stored: Size | None
    rate: str | None
    aspect: str | None
    scan: str | None
    sampling: str | None
    bits: int | None

    def text(self) -> str:
        """The picture in words."""
        size = self.shown or self.stored
        words = f"{size[0]} x {size[1]}" if size else None
        if size and self.stored and self.stored != size:
            words = f"{words} of {self.stored[0]} x {self.stored[1]} stored"
        parts = (
            self.coding or "coding not stated",
            words,
            self.rate and f"{rate_text(self.rate)} a second",
            self.aspect and f"aspect {self.aspect}",
            self.scan,
            self.sampling,
            count_text(self.bits, "bit") if self.bits is not None else None,
        )
        return ", ".join(part for part in parts if part)

    def members(self) -> dict[str, object]:
        """The picture as members of an object."""
        size, stored = self.shown or self.stored or (None, None), self.stored or (None, None)
        return {
            "coding": self.coding, "label": self.label, "width": size[0], "height": size[1], "stored-width": stored[0],
            "stored-height": stored[1], "rate": self.rate, "aspect": self.aspect, "scan": self.scan,
            "sampling": self.sampling, "bits": self.bits,
        }  # fmt: skip


class Sound(NamedTuple):
    """A sound, as its descriptor says: the name and the label of its coding, and the rest."""

    coding: str | None
    label: str | None
    rate: str | None
    channels: int | None
    bits: int | None

    def text(self) -> str:
        """The sound in words."""
        parts = (
            self.coding or "coding not stated",
            count_text(self.channels, "channel") if self.channels is not None else None,
            self.rate and f"{rate_text(self.rate)} a second",
            count_text(self.bits, "bit") if self.bits is not None else None,
        )
        return ", ".join(part for part in parts if part)

    def members(self) -> dict[str, object]:
        """The sound as members of an object."""
        return self._asdict()


def size_of(width: int | None, height: int | None, layout: int | None) -> Size | None:
    """The size of a whole picture, if it is stated."""
    if width is None or height is None:
        return None
    return width, 2 * height if layout in HALVES else height


def picture_of(essence: EssenceLine, line: SampledPictureLine) -> Picture:
    """The picture that a descriptor states."""
    layout = line["layout"]
    across, down = line.get("horizontal"), line.get("vertical")
    sampling = (
        SAMPLINGS.get((across, down), f"{across} by {down} samples for one of colour") if across and down else None
    )
    return Picture(
        coding=picture_coding(line["coding"], essence["container"]),
        label=line["coding"],
        shown=size_of(line["display-width"], line["display-height"], layout),
        stored=size_of(line["width"], line["height"], layout),
        rate=essence["rate"],
        aspect=line["aspect"],
        scan=None if layout is None else SCANS.get(layout, f"layout {layout}"),
        sampling=sampling,
        bits=line["depth"],
    )


def sound_of(essence: EssenceLine, line: SoundLine) -> Sound:
    """The sound that a descriptor states."""
    coding = sound_coding(line["coding"], essence["container"])
    return Sound(coding, line["coding"], line["rate"], line["channels"], line["bits"])
