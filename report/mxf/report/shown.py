"""What is held of a recording, by what `map` and `show` say."""
from __future__ import annotations

import array
import bisect
import collections
from collections.abc import Iterable, Sequence
from functools import partial
from typing import NamedTuple

from mxf.lines import (
    AnyLine, ChainLine, CopyLine, ExtentLine, Line, MapLine, NoteLine, PartitionLine, PieceLine, PreferredLine,
    RangeLine, ReferenceLine, RipEntryLine, RipLine, RowLine, SegmentLine,
)  # fmt: skip
from mxf.reading import Takers, take_line, take_lines
from mxf.report.bounds import NAMES, NODES
from mxf.report.rows import Rows
from mxf.written import Written

# The lines that say what the set of an identification or of a package says.
DETAILS = (
    "generation", "company", "product", "version", "product-uid", "modified",
    "kind", "package-uid", "name", "created", "tracks", "descriptor",
)  # fmt: skip


class Mapped:
    """What `map` says: its numbers, the characters of its cells, and from where to where bytes stand alike."""

    def __init__(self, lines: Iterable[Line]) -> None:
        self.numbers: MapLine = {"end": 0, "held": 0, "hand": 0, "missing": 0, "gaps": 0, "disputed": 0, "cell": 1}
        self.cells = ""
        self.extents: Rows[ExtentLine] = Rows()
        take_lines(lines, {
            "map": (MapLine, partial(setattr, self, "numbers")),
            "row": (RowLine, self.take_row),
            "extent": (ExtentLine, self.extents.add),
        })  # fmt: skip

    def take_row(self, line: RowLine) -> None:
        """Some cells."""
        self.cells += line["cells"]

    def end_of(self, cell: int) -> int:
        """The offset after the last byte before a cell."""
        return min(cell * self.numbers["cell"], self.numbers["end"])


class Readings:
    """Readings of packets that are in dispute: the first as rows, and the offsets of all. Those of one offset follow one
    another."""

    def __init__(self) -> None:
        self.rows: Rows[NoteLine] = Rows()
        self.offsets = array.array("Q")

    def add(self, line: NoteLine) -> None:
        """Adds a reading."""
        self.rows.add(line)
        if not self.offsets or self.offsets[-1] != line["offset"]:
            self.offsets.append(line["offset"])


class Begun(Rows[tuple[int, str]]):
    """What begins in a cell, by offset: the first are kept, whenever they are added."""

    def add(self, row: tuple[int, str]) -> None:
        """Counts an offset and what begins there, and keeps it in its place if there is room."""
        self.count += 1
        bisect.insort(self.kept, row)
        del self.kept[self.most :]


class Record(NamedTuple):
    """A reference to the set of an identification or of a package, and the lines of what the set says, by their names."""

    reference: ReferenceLine
    details: dict[str, Line]

    def said(self) -> list[tuple[str, str]]:
        """What the set says: names, and texts."""
        return [(name, text_of(line)) for name, line in self.details.items()]


def text_of(line: Line) -> str:
    """What a line says of a set."""
    if "year" not in line:
        return next((str(value) for key, value in line.items() if key != "line"), "")
    date = "{year}-{month:02}-{day:02} {hour:02}:{minute:02}:{second:02}"
    return date.format(**line) if line["month"] else "not stated"


def together(first: Takers, second: Takers) -> Takers:
    """What hands each line to both that take lines of its name."""

    def take(line: Line) -> None:
        """Hands a line to both."""
        take_line(line, first)
        take_line(line, second)

    return {**first, **second, **{name: (AnyLine, take) for name in first.keys() & second.keys()}}


class Shown:
    """What `show` says: first rows and numbers. Packets are counted and not kept."""

    def __init__(self, lines: Iterable[Line], cell: int) -> None:
        self.cell = cell
        self.kinds: dict[str, int] = collections.Counter()
        self.heads = self.cut_heads = 0
        self.values = array.array("Q")  # where the values of heads would begin
        self.readings = Readings()
        self.pieces: Rows[PieceLine] = Rows()
        self.copies: Rows[CopyLine] = Rows()
        self.entries: Rows[RipEntryLine] = Rows()
        self.records: Rows[Record] = Rows()
        self.details: dict[str, Line] = {}
        self.partitions: Rows[PartitionLine] = Rows()
        self.last: collections.deque[PartitionLine] = collections.deque(maxlen=NODES // 2)
        self.offsets: set[int] = set()
        self.begins: dict[int, Begun] = collections.defaultdict(lambda: Begun(NAMES))
        self.chain: ChainLine = {"chain": "broken"}
        self.preferred: PreferredLine = {"partition": None}
        self.rip: RipLine = {"standing": "none"}
        self.index_sids: set[int] = set()
        self.written = Written()
        take_lines(lines, together(self.takers(), self.written.takers()))
        self.rising = sorted(self.offsets)

    def takers(self) -> Takers:
        """What takes the lines, by their names."""
        return {
            **{name: (AnyLine, self.take_detail) for name in DETAILS},
            "piece": (PieceLine, self.pieces.add),
            "note": (NoteLine, self.take_note),
            "gap": (RangeLine, self.take_gap),
            "partition": (PartitionLine, self.take_partition),
            "chain": (ChainLine, partial(setattr, self, "chain")),
            "copy": (CopyLine, self.copies.add),
            "preferred": (PreferredLine, partial(setattr, self, "preferred")),
            "identification": (ReferenceLine, self.take_reference),
            "package": (ReferenceLine, self.take_reference),
            "segment": (SegmentLine, lambda line: self.index_sids.add(line["index-sid"])),
            "rip": (RipLine, self.take_rip),
            "rip-entry": (RipEntryLine, self.take_rip_entry),
        }

    def take_note(self, line: NoteLine) -> None:
        """A packet."""
        self.kinds[line["kind"]] += 1
        if line["head"]:
            self.heads += 1
            self.values.append(line["offset"] + 16 + line["width"])
        if line["disputed"]:
            self.readings.add(line)

    def take_gap(self, line: RangeLine) -> None:
        """A gap. A head before it isn't of a packet that was passed over, for then the value would be held."""
        self.cut_heads += len(between(self.values, line["start"], line["start"] + 1))

    def take_partition(self, line: PartitionLine) -> None:
        """A partition."""
        self.partitions.add(line)
        self.last.append(line)
        self.offsets.add(line["offset"])
        self.begin(line["offset"], f"{line['part']} partition at {line['offset']}")

    def take_reference(self, line: ReferenceLine) -> None:
        """A reference to a set that says which program wrote the file, or to that of a package."""
        self.details = {}
        self.records.add(Record(line, self.details))

    def take_detail(self, line: Line) -> None:
        """What the set of the last reference says."""
        self.details[line["line"]] = line

    def take_rip(self, line: RipLine) -> None:
        """The random index pack."""
        self.rip = line
        if "offset" in line:
            self.begin(line["offset"], f"random index pack at {line['offset']}")

    def take_rip_entry(self, line: RipEntryLine) -> None:
        """A partition that the random index pack names."""
        self.entries.add(line)
        if line["standing"] == "missing":
            self.begin(line["offset"], f"place {line['offset']} that the random index pack names")

    def begin(self, offset: int, name: str) -> None:
        """What begins at an offset."""
        self.begins[offset // self.cell].add((offset, name))

    def notes(self) -> int:
        """How many packets are held, heads among them."""
        return sum(self.kinds.values())


def between(offsets: Sequence[int], first: int, after: int) -> Sequence[int]:
    """Those of rising offsets that lie from one up to another."""
    return offsets[bisect.bisect_left(offsets, first) : bisect.bisect_left(offsets, after)]
