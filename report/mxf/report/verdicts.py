"""The verdicts of pages: what is said of a recording in few words."""
from __future__ import annotations

from collections.abc import Iterable, Sequence
from typing import NamedTuple


class Verdict(NamedTuple):
    """A verdict: its words, the class of its frame on the page of a recording, and what is said of how many recordings."""

    words: str
    frame: str
    of_many: str = ""


NOTHING_HELD = Verdict("Nothing is held", "fault")
GONE = Verdict("Gone", "fault", "gone")
UNREADABLE = Verdict("Can't be read", "fault", "can't be read")
DISPUTED = Verdict("Readings disagree", "fault", "with readings that disagree")
DIFFERENT = Verdict("Not as the reference says", "fault", "not as the reference says")
DAMAGED = Verdict("Damaged", "doubt", "damaged")
PARTS_MISSING = Verdict("Parts are missing", "doubt", "with parts missing")
NOT_ALL_VERIFIED = Verdict("Not all as the reference says", "doubt", "not all as the reference says")
PIECE_UNREAD = Verdict("A piece wasn't read to its end", "doubt")
FOUND_WRONG = Verdict("Held, with findings", "doubt", "held, with findings")
IN_DOUBT = Verdict("Held, with doubts", "doubt", "held, with doubts")
END_UNKNOWN = Verdict("Held as far as is known", "doubt", "held as far as is known")
WHOLE = Verdict("Whole", "sound", "whole")

# The verdicts of the page of a recording, the first that fits (docs/PAGES.md). A test compares their words.
OF_RECORDING = (
    NOTHING_HELD, DISPUTED, DIFFERENT, PARTS_MISSING, NOT_ALL_VERIFIED, PIECE_UNREAD, FOUND_WRONG, IN_DOUBT, END_UNKNOWN, WHOLE,
)  # fmt: skip

# The verdicts of the recordings of a database; the worst first.
OF_DATABASE = (
    GONE, UNREADABLE, DIFFERENT, DAMAGED, DISPUTED, PARTS_MISSING, NOT_ALL_VERIFIED, FOUND_WRONG, IN_DOUBT, END_UNKNOWN, WHOLE,
)  # fmt: skip


def first_of(verdicts: Sequence[Verdict], holds: Iterable[object]) -> Verdict:
    """The first of these verdicts that holds. Whether it holds is said for each verdict but the last, which is left."""
    return next((verdict for verdict, is_so in zip(verdicts, holds) if is_so), verdicts[-1])
