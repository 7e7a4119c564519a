"""The form of a row of the tables of labels, and by what a row was checked."""
from __future__ import annotations

from typing import NamedTuple

# By what a row was checked.
FILES = "files"  # real files have the label, and mediainfo 23.04 names them so
WRITTEN = "ffmpeg"  # ffmpeg 5.1.9 writes the label, and ffprobe names the file so; a test makes it
BOTH = "files and ffmpeg"
READER = "no file shows it; a reader names it"  # the reader is ffmpeg 5.1.9 or mediainfo 23.04
STANDARD = "no file shows it"  # the standards alone have it

# The bytes before those that a row has, in digits. Byte 8 of a label, its version, comes after them and isn't compared.
BEFORE = "060e2b34040101"


class Row(NamedTuple):
    """A row: the last eight bytes of a label in digits, where ? is any digit, its name, and by what it was checked. A row of
    fewer digits is a family of labels, which begin so."""

    digits: str
    name: str
    checked: str

    def matches(self, digits: str) -> bool:
        """Whether the last eight bytes of a label begin as the row does."""
        return all(one in ("?", other) for one, other in zip(self.digits, digits))
