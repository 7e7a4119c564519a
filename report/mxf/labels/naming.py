"""The names of labels: by the tables, or else by the nearest family that a table has."""
from __future__ import annotations

import functools
from collections.abc import Iterable, Sequence
from typing import NamedTuple

from mxf.labels.containers import CONTAINERS, PATTERNS, PICTURES_WITHIN, SOUNDS_WITHIN
from mxf.labels.pictures import PICTURES
from mxf.labels.rows import BEFORE, Row
from mxf.labels.sounds import SOUNDS

WHOLE = 16  # digits of a row that is a label and no family
LABEL = 32  # digits of a label


class Named(NamedTuple):
    """What a label is called: the words, and the row of a table if one is that of the label itself."""

    text: str
    row: Row | None


def is_stated(label: str | None) -> bool:
    """Whether a label says anything. One that is all zeros doesn't."""
    return label is not None and label.strip("0") != ""


def digits_of(label: str) -> str | None:
    """The last eight bytes of a label, if it begins as labels of essence do. Byte 8 is its version, whatever that is."""
    return label[LABEL - WHOLE :] if len(label) == LABEL and label.startswith(BEFORE) else None


@functools.lru_cache(maxsize=None)
def nearest(rows: Sequence[Row], digits: str) -> Row | None:
    """The row that has most of these digits. One without ? goes before others."""
    matching = [row for row in rows if row.matches(digits)]
    return max(matching, key=closeness) if matching else None


def closeness(row: Row) -> tuple[int, int]:
    """How much a row says of the labels that it matches."""
    return len(row.digits), -row.digits.count("?")


def named_by(rows: Sequence[Row], label: str) -> Named:
    """What a label is called by a table. One that isn't there is shown as it is, with its family if there is one."""
    digits = digits_of(label)
    row = nearest(rows, digits) if digits else None
    if row is None:
        return Named(label, None)
    return Named(row.name, row) if len(row.digits) == WHOLE else Named(f"{label} (a kind of: {row.name})", None)


def within(kinds: Iterable[tuple[str, str]], container: str | None) -> str | None:
    """What is in a container, by the digits that its label begins with."""
    digits = digits_of(container) if container else None
    return next((name for begin, name in kinds if digits and digits.startswith(begin)), None)


def pattern_text(pattern: str) -> str:
    """What an operational pattern is called: the word that mxf_tool has for it, or the name of its label."""
    return named_by(PATTERNS, pattern).text


def container_text(label: str) -> str:
    """What an essence container is called."""
    return named_by(CONTAINERS, label).text


def picture_coding(label: str | None, container: str | None) -> str | None:
    """What the coding of a picture is called. Without a label that is what its container has."""
    if label is not None and is_stated(label):
        return named_by(PICTURES, label).text
    return within(PICTURES_WITHIN, container)


def sound_coding(label: str | None, container: str | None) -> str | None:
    """What the coding of a sound is called. Without a label that is what its container has."""
    if label is not None and is_stated(label):
        return named_by(SOUNDS, label).text
    return within(SOUNDS_WITHIN, container)
