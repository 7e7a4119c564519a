"""The sources that words and lists name."""
from __future__ import annotations

import os
import re
import stat
from collections.abc import Iterable, Sequence
from typing import NamedTuple

from mxf.faults import READ, USAGE, OwnFault
from mxf.lines import Line, PieceLine
from mxf.reading import checked

# The forms of a source, and how many numbers stand between each and its path.
FORMS = {"at": 1, "range": 1, "slice": 2, "cat": 0}

# What stands before the path of a source.
FORM = re.compile(r"(?:at:\d+|range:\d+|slice:\d+:\d+|cat):")


class Source(NamedTuple):
    """A source: its form, its offset and its length in the file if the form has them, and its path from the root on."""

    form: str
    numbers: str
    path: str

    def word(self) -> str:
        """The word that names it from any folder."""
        return ":".join(part for part in self if part)

    def offset(self) -> int | None:
        """The offset of its first byte in the recording, in bytes; a catalogue has none."""
        return int(self.numbers.split(":")[0]) if self.numbers else None


def source_of(word: str) -> Source:
    """The source that a word names, whose path has to be UTF-8."""
    form, _, rest = word.partition(":")
    *numbers, named = rest.split(":", FORMS.get(form, 0))
    are_digits = all(number.isascii() and number.isdigit() for number in numbers)
    if not named or len(numbers) != FORMS.get(form) or not are_digits:
        raise OwnFault(USAGE, f"bad source: {word}")
    path = os.path.abspath(named)
    if path != os.fsencode(path).decode("utf-8", "replace"):
        raise OwnFault(USAGE, f"bad source: {word}: its folder isn't UTF-8")
    return Source(form, ":".join(numbers), path)


class Sources(NamedTuple):
    """The words that name sources, and those of a list, which come after them. The list is handed in by standard input."""

    words: Sequence[str]
    listed: Sequence[str] | None = None

    def each(self) -> list[str]:
        """Each source by itself, in the order of their numbers."""
        return [*self.words, *(self.listed or [])]

    def handed(self) -> list[str]:
        """The words by which mxf_tool is told of them."""
        return [*(["--sources", "-"] if self.listed is not None else []), *self.words]

    def given(self) -> bytes:
        """The list that is handed in."""
        return b"".join(os.fsencode(word) + b"\n" for word in self.listed or [])


def are_put_together(lines: Iterable[Line], sources: Sources) -> bool:
    """Whether all bytes of the sources are in packets, by the lines `piece` of them: each begins and ends with one. Then a
    catalogue of them says what they say, for none of their bytes are at hand alone."""
    words = sources.each()
    pieces = (checked(line, PieceLine) for line in lines)
    offsets = ((piece, int(words[piece["source"] - 1].split(":", 2)[1])) for piece in pieces)
    return all(piece["stop"] == "end" and piece["offset"] == offset for piece, offset in offsets)


def is_read_once(word: str) -> bool:
    """Whether what a source names can be read only once, as a pipe can, or is what a program itself has open, which is
    another file in the programs that are asked."""
    path = os.path.abspath(FORM.sub("", word, count=1))
    if path.startswith(("/dev/std", "/dev/fd/", "/proc/")):
        return True
    try:
        mode = os.stat(path).st_mode
    except (OSError, ValueError):
        return False
    return not (stat.S_ISREG(mode) or stat.S_ISDIR(mode) or stat.S_ISBLK(mode))


def check_read_often(words: Sequence[str]) -> None:
    """Sees that each source can be read more than once."""
    for word in words:
        if is_read_once(word):
            raise OwnFault(USAGE, f"bad source: {word}: name a file, for it is read more than once")


def sources_of(words: Sequence[str], path: str | None) -> Sources:
    """The sources that the words and the list at a path name, each of which can be read more than once."""
    sources = Sources(words, lines_of_list(path) if path is not None else None)
    check_read_often(sources.each())
    return sources


def lines_of_list(path: str) -> list[str]:
    """The lines of a list that have words; - is standard input. Bytes that aren't UTF-8 stand as in the words of a call."""
    try:
        with open(0 if path == "-" else path, "rb", closefd=path != "-") as file:
            return [os.fsdecode(line) for line in file.read().split(b"\n") if line]
    except OSError as fault:
        raise OwnFault(READ, f"read fault: {path}: {fault.strerror}") from fault
