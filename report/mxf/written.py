"""Who wrote a file, by what `show` says."""
from __future__ import annotations

from typing import NamedTuple

from mxf.labels.naming import is_stated, pattern_text
from mxf.lines import AnyLine, LabelLine, Line, PartitionLine, StampLine, TextLine
from mxf.reading import Takers
from mxf.moments import text_of_stamp
from mxf.wording import count_text


class Writer(NamedTuple):
    """Which program wrote a file, and when."""

    company: str | None = None
    product: str | None = None
    version: str | None = None
    modified: str | None = None

    def text(self) -> str | None:
        """The program and the time in words, if any of them is stated."""
        program = " ".join(text for text in (self.company, self.product, self.version) if text)
        return ", ".join(text for text in (program, self.modified) if text) or None


class Written:
    """What `show` says of a file: which programs wrote it, its operational pattern, and the containers that its partition
    packs name."""

    def __init__(self) -> None:
        self.last: Writer | None = None
        self.count = 0
        self.is_writer = False
        self.pattern: str | None = None
        self.containers: dict[str, None] = {}

    def takers(self) -> Takers:
        """What takes the lines, by their names."""
        return {
            "identification": (AnyLine, self.take_identification),
            "package": (AnyLine, self.take_package),
            "company": (TextLine, lambda line: self.add(company=line["text"])),
            "product": (TextLine, lambda line: self.add(product=line["text"])),
            "version": (TextLine, lambda line: self.add(version=line["text"])),
            "modified": (StampLine, lambda line: self.add(modified=text_of_stamp(line))),
            "partition": (PartitionLine, self.take_partition),
            "container": (LabelLine, self.take_container),
        }

    def take_identification(self, _: Line) -> None:
        """A reference to the set that says which program wrote the file."""
        self.last = Writer()
        self.count += 1
        self.is_writer = True

    def take_package(self, _: Line) -> None:
        """A reference to a package. What comes after it is no word of a program."""
        self.is_writer = False

    def add(self, **stated: str | None) -> None:
        """Adds what the set of a program says."""
        if self.last is not None and self.is_writer:
            self.last = self.last._replace(**stated)

    def take_partition(self, line: PartitionLine) -> None:
        """A partition pack, which says the operational pattern."""
        self.pattern = self.pattern or pattern_text(line["pattern"])

    def take_container(self, line: LabelLine) -> None:
        """A container that a partition pack names."""
        if is_stated(line["label"]):
            self.containers[line["label"]] = None

    def writer(self) -> str | None:
        """The program that wrote the file last, and when, in words."""
        return self.last.text() if self.last else None

    def earlier(self) -> str:
        """How many programs wrote the file before that one, behind its words."""
        return f"; {count_text(self.count - 1, 'program')} before it" if self.count > 1 else ""
