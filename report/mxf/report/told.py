"""The sources of a recording, by what `sources` says."""
from __future__ import annotations

import collections
import os
from collections.abc import Iterable, Sequence

from mxf.lines import Line, NoteLine, SourceLine
from mxf.reading import take_lines
from mxf.report.asking import Asking
from mxf.report.bounds import NAMES
from mxf.report.rows import Rows
from mxf.report.shown import Readings, Shown


def file_of(word: str) -> str:
    """The name of the file of a source."""
    colons = {"cat": 1, "slice": 3}.get(word.split(":", 1)[0], 2)
    return os.path.basename(word.split(":", colons)[-1])


class Told:
    """What `sources` says: each source, by its file or, where two have files of one name, by its word, and each reading of
    a packet that is in dispute."""

    def __init__(self, lines: Iterable[Line]) -> None:
        self.sources: Rows[SourceLine] = Rows()
        self.readings = Readings()
        self.has_ranges = False
        self.names: dict[int, str] = {}
        take_lines(lines, {"source": (SourceLine, self.take_source), "disputed": (NoteLine, self.readings.add)})
        files = collections.Counter(file_of(one["word"]) for one in self.sources.kept)
        for one in self.sources.kept:
            file = file_of(one["word"])
            self.names[one["source"]] = file if files[file] == 1 else one["word"]

    def named(self, numbers: Sequence[int]) -> list[tuple[int, str]]:
        """Sources with their names, if they are few and all are known."""
        are_known = len(numbers) <= 2 * NAMES and all(number in self.names for number in numbers)
        return [(number, self.names[number]) for number in numbers] if are_known else []

    def take_source(self, line: SourceLine) -> None:
        """A source."""
        self.sources.add(line)
        self.has_ranges |= line["word"].startswith("range:")


def told_of(tool: Asking, shown: Shown) -> Told:
    """What `sources` says. It reads essence, so if that is passed over it isn't asked: then the sources are known by their
    words, and the readings by what `show` says of them."""
    if not tool.is_skimming:
        return Told(tool.ask("sources"))
    words = [os.fsencode(word).decode("utf-8", "replace") for word in tool.sources.each()]
    told = Told({"line": "source", "source": number, "word": word} for number, word in enumerate(words, 1))
    told.readings = shown.readings
    return told
