"""What mxf_tool says of a recording, as lines of JSON: those of one `add`, which can be written to a file and loaded.

The first line names the recording; a line for each source comes after it. Then a line `asked` names a command, and its
lines follow. The last line says how many there are, so a part of them is no recording.
"""
from __future__ import annotations

import contextlib
import os
import re
from collections.abc import Iterable
from typing import NamedTuple

from mxf import moments
from mxf.archive.origins import IDENTIFIED, origin_of
from mxf.calling import Call, Keeps, Tool
from mxf.faults import ToolFault
from mxf.files import sha256_of
from mxf.lines import Line
from mxf.reading import take_lines
from mxf.packages import Packages
from mxf.running import temporary_folder
from mxf.sources import Source, Sources, are_put_together, source_of

FORMAT = 1  # of these lines
INDEXES = 16  # of which edit units are counted
UNITS = 1_000_000  # that mxf_tool reports in one call
SMALL = 1 << 24  # bytes of a catalogue that several calls may hold at once

# What is asked of a recording first, in this order, and by which options.
COMMANDS = {"show": (), "describe": (), "check": ("--doubts",), "plan": (), "map": ()}

# Lines of `show` that are kept: of packets those in dispute, of items identifiers, and all others but how sources end.
NOTE = b'{"line":"note"'
KEPT = re.compile(
    rb'^(?:\{"line":"(?!note"|item"|piece").*|%s.*|\{"line":"note".*"disputed":true.*)$' % IDENTIFIED.pattern,
    re.MULTILINE,
)

# Why mxf_tool doesn't count edit units.
TOO_MANY, NO_LAST = "too many units", "no last unit"


class Named(NamedTuple):
    """A recording by its words: its name, its sources, a catalogue that is asked in their place, and whether essence is
    passed over."""

    name: str
    sources: Sources
    catalogue: str | None = None
    is_skim: bool = False

    def asked(self) -> Sources | None:
        """The sources that are asked as they are named: a catalogue, ranges beside one, which tell themselves which bytes
        are at hand, or those of a skim, which reads little. All others are joined first."""
        forms = [source_of(word).form for word in self.sources.each()]
        if self.catalogue is not None and not self.has_ranges():
            return Sources([source_of(f"cat:{self.catalogue}").word()])
        return self.sources if self.catalogue is not None or self.is_skim or forms == ["cat"] else None

    def has_ranges(self) -> bool:
        """Whether a source is a range."""
        return any(source_of(word).form == "range" for word in self.sources.each())

    def origins(self) -> list[Line]:
        """A line for each source, and for the catalogue."""
        lines = [origin_of(number, source_of(word)) for number, word in enumerate(self.sources.each(), 1)]
        if self.catalogue is not None:
            lines.insert(0, origin_of(0, source_of(f"cat:{self.catalogue}")))
        return lines


class Gathering:
    """The lines of a recording. Files are looked at before they are read. If calls may go side by side, a small catalogue is
    asked by all at once. Otherwise one call goes on at a time, and begins before the lines of the one ahead are taken apart.
    Calls end with what is opened."""

    def __init__(self, tool: Tool, named: Named, opened: contextlib.ExitStack, is_beside: bool = False) -> None:
        self.tool, self.named, self.opened, self.is_beside = tool, named, opened, is_beside
        self.gathered = moments.fine_text_of(moments.now())
        self.origins = named.origins()
        self.lines: list[Line] = []
        self.waiting: list[Call] = []  # that haven't begun
        self.program = tool.version()
        self.sources = named.asked()
        self.calls: list[Call] = []
        if self.sources is not None:
            self.ask(self.sources)

    def ask(self, sources: Sources) -> None:
        """Begins the calls of the commands, as many as may go on at once."""
        are_beside = self.is_beside and is_small_catalogue(sources)
        self.calls = [
            self.tool.call([command, *options, *self.skimming()], sources, not are_beside)
            for command, options in COMMANDS.items()
        ]
        self.waiting += self.calls
        self.begin(len(COMMANDS) if are_beside else 1)

    def begin(self, count: int = 1) -> None:
        """Begins so many of the calls that wait."""
        for call in self.waiting[:count]:
            self.opened.enter_context(call).begin()
        del self.waiting[:count]

    def gather(self) -> list[Line]:
        """All lines of the recording, in the order in which a reader needs them."""
        first = {"format": FORMAT, "name": self.named.name, "gathered": self.gathered, "program": self.program}
        self.lines += [{"line": "recording", **first, "skim": self.named.is_skim}, *self.origins]
        if self.sources is None:
            self.sources = self.joined()
            self.ask(self.sources)
        for line in self.origins:
            if line["form"] == "cat":
                line["sha256"] = sha256_of(line["path"])
        sources = self.sources
        self.add_show(self.calls[0])
        units = {index_sid: self.tool.call(self.units_words(index_sid), sources) for index_sid in self.indexes()}
        are_all_begun = not self.waiting
        self.waiting += units.values()
        self.begin(int(are_all_begun))
        for command, call in zip([*COMMANDS][1:], self.calls[1:]):
            self.lines.append({"line": "asked", "command": command})
            self.lines += self.lines_of(call, without(b'{"line":"row"'))
        for index_sid, call in units.items():
            self.lines.append({"line": "asked", "command": "units", "index-sid": index_sid})
            self.lines.append(self.units_of(index_sid, call, sources))
        self.lines.append({"line": "recorded", "name": self.named.name, "lines": len(self.lines) + 1})
        return self.lines

    def lines_of(self, call: Call, keeps: Keeps) -> list[Line]:
        """The lines of a call, as far as they are kept."""
        if call in self.waiting:
            self.waiting.remove(call)
        texts = self.tool.texts_of(call, keeps)
        self.begin()
        return self.tool.lines_in(texts)

    def joined(self) -> Sources:
        """The catalogue that the sources are joined to, so that they are read once. Which of them is damaged it doesn't
        tell, so that is asked for if the join says that there may be one. Ranges of which bytes are at hand alone are asked
        themselves."""
        if self.named.has_ranges() and not are_put_together(self.tool.pieces(self.named.sources), self.named.sources):
            return self.named.sources
        folder = self.opened.enter_context(temporary_folder("mxf_archive."))
        joined = os.path.join(folder, "joined")
        join = self.tool.call(["join", "--strict", "--out", joined], self.named.sources)
        self.tool.texts_of(join)
        if join.status == 1:
            self.lines.append({"line": "asked", "command": "check"})
            self.lines += [line for line in self.tool.ask(["check"], self.named.sources) if line["line"] == "stop"]
        return Sources([Source("cat", "", joined).word()])

    def skimming(self) -> list[str]:
        """The option that passes over essence, if it is meant."""
        return ["--skim"] if self.named.is_skim else []

    def add_show(self, call: Call) -> None:
        """Adds what show says, with the number of packets in place of those that aren't in dispute. Of items identifiers
        are kept."""
        packets = 0

        def keeps(block: bytes) -> list[bytes]:
            """The lines that are kept. All packets are counted."""
            nonlocal packets
            packets += block.count(NOTE)
            return KEPT.findall(block)

        said = self.lines_of(call, keeps)
        self.lines += [{"line": "asked", "command": "show"}, {"line": "packets", "packets": packets}, *said]

    def indexes(self) -> list[int]:
        """The indexes of which segments are held, the first of them."""
        return sorted({line["index-sid"] for line in self.lines if line["line"] == "segment"})[:INDEXES]

    def units_words(self, index_sid: int, *span: str) -> list[str]:
        """The words that ask how many edit units of an index are held."""
        return ["units", "--index", str(index_sid), *span, *self.skimming()]

    def units_of(self, index_sid: int, call: Call, sources: Sources) -> Line:
        """The last line of units, or why there is none. If the index doesn't say its last unit, the header metadata
        may."""
        said = self.counted(call)
        if said["line"] != "uncounted" or said["said"] != NO_LAST:
            return said
        last = last_unit(self.lines, index_sid)
        if last is None or last >= UNITS:
            return said if last is None else uncounted(TOO_MANY)
        return self.counted(self.tool.call(self.units_words(index_sid, "--from", "0", "--to", str(last)), sources))

    def counted(self, call: Call) -> Line:
        """The last line of a call of units, or why there is none."""
        try:
            return self.lines_of(call, without(b'{"line":"unit"'))[-1]
        except ToolFault as fault:
            if fault.last_line() in (TOO_MANY, NO_LAST):
                return uncounted(fault.last_line())
            raise


def gathered(tool: Tool, named: Named, is_beside: bool = False) -> list[Line]:
    """The lines of a recording."""
    with contextlib.ExitStack() as opened:
        lines = Gathering(tool, named, opened, is_beside).gather()
    return lines


def without(beginning: bytes) -> Keeps:
    """What keeps the lines that don't begin so."""
    return lambda block: [text for text in block.splitlines() if not text.startswith(beginning)]


def last_unit(lines: Iterable[Line], index_sid: int) -> int | None:
    """The last edit unit of an index by what `describe` says among these lines."""
    packages = Packages()
    described, command = [], None
    for line in lines:
        command = line["command"] if line["line"] == "asked" else command
        described += [line] if command == "describe" else []
    take_lines(described, packages.takers())
    return packages.last_unit(index_sid)


def is_small_catalogue(sources: Sources) -> bool:
    """Whether the sources are one catalogue of which several calls may hold all at once."""
    (*others, last) = sources.each()
    return not others and last.startswith("cat:") and os.path.getsize(source_of(last).path) <= SMALL


def uncounted(said: str) -> Line:
    """The line that says why edit units aren't counted."""
    return {"line": "uncounted", "said": said}
