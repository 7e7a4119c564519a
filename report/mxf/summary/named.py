"""The sources that words name, of which some are paths of files."""
from __future__ import annotations

import os
from collections.abc import Sequence

from mxf.faults import READ, USAGE, OwnFault
from mxf.sources import FORM, FORMS, is_read_once

CATALOGUE = b"MXFCAT\x00"  # how each catalogue begins


def is_form(word: str) -> bool:
    """Whether a word has the form of a source, or is meant to have it."""
    return FORM.match(word) is not None or word.partition(":")[0] in FORMS and ":" in word


def source_word(word: str) -> str:
    """The word that names a source. A word without the form of one is the path of a file: of a catalogue, or else of a range
    from the first byte of the recording on. Of a whole file a range says what a piece does, and it goes on behind damage.
    """
    if is_form(word):
        return word
    if is_read_once(word):
        raise OwnFault(USAGE, f"bad source: {word}: name a file, for it is read more than once")
    try:
        with open(word, "rb") as file:
            begins = file.read(len(CATALOGUE))
    except (OSError, ValueError) as fault:
        said = (fault.strerror if isinstance(fault, OSError) else None) or "no path of a file"
        raise OwnFault(READ, f"read fault: {word}: {said}") from fault
    if begins == CATALOGUE:
        return f"cat:{word}"
    return f"range:0:{word}"


def source_words(words: Sequence[str]) -> list[str]:
    """The words that name the sources, in their order."""
    return [source_word(os.fspath(word)) for word in words]
