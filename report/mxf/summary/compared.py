"""What differs between two recordings, or two copies of one."""
from __future__ import annotations

import itertools
from collections.abc import Iterable, Iterator, Mapping, Sequence
from typing import NamedTuple

from mxf.calling import Tool
from mxf.lines import ExtentLine, NoteLine
from mxf.reading import take_lines
from mxf.sources import Sources
from mxf.summary.judged import Asking
from mxf.summary.summary import Row, Summary
from mxf.wording import bytes_text, count_text

RANGES = 3  # missing ranges of a recording that are told
DISPUTED = b'{"line":"disputed"'  # how a reading of a packet begins, of which sources differ


class Difference(NamedTuple):
    """What is said of both under one head, which isn't the same."""

    head: str
    first: Sequence[str]
    second: Sequence[str]


class Packets:
    """The packets of which two sources have different readings: how many places there are, and the first of them."""

    def __init__(self, tool: Tool, sources: Sources) -> None:
        self.places: set[int] = set()
        lines = tool.ask(["sources"], sources, lambda block: [one for one in block.splitlines() if is_needed(one)])
        take_lines(lines, {"disputed": (NoteLine, self.take_reading)})

    def take_reading(self, line: NoteLine) -> None:
        """A reading of a packet in dispute. One that both have is in dispute with another of theirs."""
        if len(line.get("sources", [])) == 1:
            self.places.add(line["offset"])

    def text(self) -> str:
        """How many there are, in words."""
        return f"{count_text(len(self.places), 'packet differs', 'packets differ')}, the first at {min(self.places)}"


def is_needed(line: bytes) -> bool:
    """Whether a line of `sources` tells packets that differ."""
    return line.startswith(DISPUTED)


def grouped(rows: Iterable[Row]) -> Mapping[str, list[str]]:
    """The texts below each head. A row without a head goes on with the one before."""
    texts: dict[str, list[str]] = {}
    head = ""
    for said, text in rows:
        head = said or head
        texts.setdefault(head, []).append(text)
    return texts


def missing_rows(tool: Tool, asking: Asking) -> Iterator[Row]:
    """Which ranges aren't held, the first of them, whether their bytes are at hand or not."""
    extents: list[ExtentLine] = []
    words = ["map", "--extents", "--columns", "1", "--rows", "1", *(["--skim"] if asking.is_skimming else [])]
    take_lines(tool.ask(words, asking.sources), {"extent": (ExtentLine, extents.append)})
    runs = itertools.groupby(extents, lambda extent: extent["standing"] in ("missing", "hand"))
    missing = [[*run] for is_missing, run in runs if is_missing]
    for first, last in ((run[0]["start"], run[-1]["end"]) for run in missing[:RANGES]):
        yield "Missing", f"{first} to {last}, {bytes_text(last - first)}"
    if len(missing) > RANGES:
        yield "Missing", f"{len(missing) - RANGES} more, which mxf_tool map --extents names"


class Compared:
    """Two recordings beside each other: what is said of each, and which packets differ."""

    def __init__(self, first: Asking, second: Asking) -> None:
        self.names = [first.sources.words[0], second.sources.words[0]]
        told = [grouped(self.rows_of(asking)) for asking in (first, second)]
        heads = dict.fromkeys([*told[0], *told[1]])
        pairs = [Difference(head, told[0].get(head, []), told[1].get(head, [])) for head in heads]
        self.differences = [one for one in pairs if one.first != one.second]
        self.packets = Packets(first.tool, Sources(self.names))

    def rows_of(self, asking: Asking) -> Iterator[Row]:
        """What is said of a recording."""
        summary = Summary(asking)
        yield from summary.description()
        yield "State", summary.judged.sentence()
        yield from summary.found()
        yield from missing_rows(asking.tool, asking)

    def are_alike(self) -> bool:
        """Whether nothing differs."""
        return not self.differences and not self.packets.places

    def lines(self) -> Iterator[str]:
        """The differences, a line for each text of each recording."""
        rows = [(one.head, sign, text) for one in self.differences for sign, text in signed(one)]
        width = max((len(head) for head, _, _ in rows), default=0)
        last = ""
        for head, sign, text in rows:
            yield f"{'' if head == last else head:{width}}  {sign} {text}"
            last = head
        if self.packets.places:
            yield self.packets.text()
        if self.are_alike():
            yield "Nothing differs."

    def members(self) -> Mapping[str, object]:
        """The same as members of an object."""
        return {
            "sources": self.names,
            "differences": [one._asdict() for one in self.differences],
            "packets": len(self.packets.places),
            "first-packet": min(self.packets.places, default=None),
        }


def signed(one: Difference) -> Iterator[tuple[str, str]]:
    """The texts of both, each with the sign of its recording."""
    for sign, texts in (("<", one.first), (">", one.second)):
        yield from ((sign, text) for text in texts or ["-"])
