"""When a recording is damaged, and when parts of it are missing, for the page as for the database."""
from __future__ import annotations

from collections.abc import Iterable

# Stops of a source that is damaged, or isn't what its word says (docs/FORMATS.md).
DAMAGED = ("not-ul", "bad-length", "too-far")

# Findings of bytes that can't be read (docs/GUIDE.md): a partition pack, a set and an index table segment.
UNREADABLE = ("F04", "F10", "F11")


# How the codes of doubts begin (docs/GUIDE.md): of what ordinary programs don't write and damage does. None is certain.
DOUBT = "G"


def is_damaged_at(stop: str) -> bool:
    """Whether a source that ends by this word is damaged."""
    return stop in DAMAGED


def is_unreadable(codes: Iterable[str]) -> bool:
    """Whether bytes can't be read, by the codes of findings."""
    return any(code in UNREADABLE for code in codes)


def is_doubt(code: str) -> bool:
    """Whether a code is that of a doubt, and not of a finding."""
    return code.startswith(DOUBT)


def is_lacking(missing: int, orders: int) -> bool:
    """Whether parts are missing: so many bytes are, or so many orders are there."""
    return missing > 0 or orders > 0
