"""The summary of a recording: what it is, how much of it is held, and what to do next."""
from __future__ import annotations

import os
import re
import shlex
from collections.abc import Iterator, Mapping, Sequence
from typing import Protocol

from mxf.described import containers_of, containers_text
from mxf.labels.naming import container_text
from mxf.lines import Line, RestoreLine
from mxf.summary.calls import answers_of
from mxf.summary.judged import Asking, Judged, reason_text
from mxf.wording import bytes_text, count_text, length_text, times_text

PICTURES, SOUNDS, ORDERS, TAPES, NAMED, FOUND = 2, 3, 2, 2, 2, 4  # of which so many are told
LETTERS = 100  # of a text of the recording

# What a hint says of the file of a source: its path, and where it begins.
SHIFTED_TO = re.compile(r"by its partition packs (.*) begins at (\d+): OFFSET is ")

# A source with an OFFSET that is its only number: its form, and its path.
PLACED = re.compile(r"(at|range):[0-9]+:(.*)", re.DOTALL)

Row = tuple[str, str]  # its head and its text


class Stated(Protocol):
    """A picture or a sound, as it is stated."""

    def text(self) -> str:
        """It in words."""

    def members(self) -> dict[str, object]:
        """It as members of an object."""


Counts = Sequence[tuple[Stated, int]]  # how often each is stated


def word_of(order: RestoreLine) -> str:
    """The word by which what is ordered is handed in."""
    return f"{'range' if order['inside'] else 'at'}:{order['start']}:FILE"


class Summary:
    """What is told of a recording, by what mxf_tool says of its sources."""

    def __init__(self, asking: Asking) -> None:
        answers = answers_of(asking)
        self.sources = [os.fsencode(word).decode("utf-8", "replace") for word in asking.sources.each()]
        self.is_skimmed = asking.is_skimming
        self.judged = Judged(answers, asking.hints)
        self.described, self.written = self.judged.described, self.judged.written()
        self.pictures: Counts = [*self.described.pictures.items()]
        self.sounds: Counts = [*self.described.sounds.items()]

    def lines(self) -> Iterator[str]:
        """The lines for a terminal, whose heads stand in a column."""
        rows = [*self.description(), ("State", self.judged.sentence()), *self.found(), *self.advice()]
        width = max(len(head) for head, _ in rows) + 2
        yield from (f"{head:{width}}{text}" for head, text in rows)
        if self.is_skimmed:
            yield "Essence was not read; --read reads it."

    def description(self) -> Iterator[Row]:
        """What the recording is."""
        main, doubt = self.described.main(), self.judged.doubt()
        if main:
            yield "Name", cut(self.described.title() or "not stated")
            track = main.essence_track()
            yield "Length", length_text(track) if track else "not known"
            yield "Timecode", self.timecode_text()
        containers = containers_text(self.described, self.written)
        if containers:
            yield "Container", containers
        yield from told_rows("Picture", self.pictures, PICTURES)
        yield from told_rows("Sound", self.sounds, SOUNDS)
        writer = self.written.writer()
        if writer:
            yield "Written by", cut(writer) + self.written.earlier()
        tapes = self.described.tapes()
        if tapes:
            more = f", and {len(tapes) - TAPES} more" if len(tapes) > TAPES else ""
            yield "Tape", ", ".join(map(cut, tapes[:TAPES])) + more
        if main:
            yield "UMID", main.uid
        if doubt:
            yield "Note" if main else "What it is", doubt

    def timecode_text(self) -> str:
        """From which timecode to which the recording goes."""
        first, last = self.described.timecodes()
        if first is None:
            return "not stated"
        return f"{first} to {last}" if last else f"from {first} on"

    def found(self) -> Iterator[Row]:
        """What is found wrong or missing, and what is in doubt, in one row: what stands at several offsets is told once."""
        told = [one.text() for one in (*self.judged.found(), *self.judged.doubted())]
        rest = len(told) - FOUND
        more = [f"{count_text(rest, 'other')}, which {self.check()} tells"] if rest > 0 else []
        if told:
            yield "Found", "; ".join(told[:FOUND] + more)

    def advice(self) -> Iterator[Row]:
        """What to do: the hint of a wrong OFFSET, on which all orders rest, or else the first orders; and what to call
        next."""
        hints = self.judged.shifted()
        orders = [] if hints else self.judged.orders()[:ORDERS]
        for hint in hints[:1]:
            yield "Hint", hint
        for place, order in enumerate(orders):
            yield "" if place else "Restore", order_text(order)
        more = self.judged.order_count() - len(orders)
        if orders and more > 0:
            yield "", f"{count_text(more, 'more range')}, which mxf_tool plan names"
        call = self.next_call()
        if call:
            yield "Next", call

    def next_call(self) -> str | None:
        """What to call next, if anything is to be done: the call with the right OFFSET, what tells which source says what,
        the call with what was restored, or what tells the findings. If there are many sources, the first stand in the call.
        """
        righted = [righted_word(word, self.judged.shifted()) for word in self.sources]
        named = [shlex.quote(word) for word in righted[:NAMED]] + ["SRC.."] * (len(righted) > NAMED)
        if righted != self.sources:
            return " ".join(["mxf_report", *named])
        if self.judged.disputed():
            return " ".join(["mxf_tool sources", *named])
        if self.judged.order_count():
            return " ".join(["mxf_report", *named, *map(word_of, self.judged.orders()[:ORDERS])])
        return " ".join([self.check(), *named]) if self.judged.findings() or self.judged.doubts() else None

    def check(self) -> str:
        """The command that tells what is found, and what is in doubt if anything is."""
        return "mxf_tool check --doubts" if self.judged.doubts() else "mxf_tool check"

    def members(self) -> Mapping[str, object]:
        """The same as members of an object, with all pictures and sounds."""
        main = self.described.main()
        track = main.essence_track() if main else None
        writer = self.written.last
        first, last = self.described.timecodes()
        return {
            "sources": self.sources,
            "name": self.described.title(),
            "length": track and track["length"],
            "units": track and track["duration"],
            "rate": track and track["rate"],
            "first": first,
            "last": last,
            "pattern": self.written.pattern,
            "containers": [
                {"container": container_text(label), "label": label}
                for label in containers_of(self.described, self.written)
            ],
            "pictures": counted(self.pictures),
            "sounds": counted(self.sounds),
            "written": writer._asdict() if writer else None,
            "tapes": self.described.tapes(),
            "umid": main.uid if main else None,
            "doubt": self.judged.doubt(),
            "verdict": self.judged.verdict(),
            "state": self.judged.sentence(),
            "held": self.judged.held(),
            "end": self.judged.end(),
            "findings": self.judged.findings(),
            "found": [one.members() for one in self.judged.found()],
            "doubts": self.judged.doubts(),
            "doubted": [one.members() for one in self.judged.doubted()],
            "disputed": self.judged.disputed(),
            "hints": self.judged.shifted(),
            "ordered": self.judged.order_count(),
            "orders": [order_members(order) for order in self.judged.orders()],
            "next": self.next_call(),
            "skimmed": self.is_skimmed,
        }


def cut(text: str) -> str:
    """The front of a text of the recording."""
    return text if len(text) <= LETTERS else f"{text[:LETTERS]}.."


def righted_word(word: str, hints: Sequence[str]) -> str:
    """The word that names a source, with the OFFSET that a hint says of its file."""
    placed = PLACED.fullmatch(word)
    told = [said[2] for said in map(SHIFTED_TO.match, hints) if said and placed and said[1] == placed[2]]
    return f"{placed[1]}:{told[0]}:{placed[2]}" if placed and told else word


def told_rows(head: str, counts: Counts, most: int) -> Iterator[Row]:
    """The rows of pictures or sounds, like ones together."""
    rest = len(counts) - most
    for place, (one, count) in enumerate(counts[: most if rest <= 0 else most - 1]):
        yield "" if place else head, times_text(one.text(), count)
    if rest > 0:
        yield "", f"{rest + 1} others, which mxf_tool describe tells"


def order_text(order: RestoreLine) -> str:
    """An order in words: from where to where, and what lies there."""
    again = "; these bytes were handed in already, and don't do" if order["again"] else ""
    if order["end"] is None:
        return f"{order['start']} and on: {reason_text(order['reason'])}{again}"
    length = bytes_text(order["end"] - order["start"])
    return f"{order['start']} to {order['end']}, {length}: {reason_text(order['reason'])}{again}"


def order_members(order: RestoreLine) -> Line:
    """An order as members of an object, with the word by which what is restored is handed in."""
    return {
        "start": order["start"], "end": order["end"], "reason": order["reason"], "again": order["again"],
        "word": word_of(order),
    }  # fmt: skip


def counted(counts: Counts) -> Sequence[Mapping[str, object]]:
    """Pictures or sounds as members of objects, with how many of each there are."""
    return [{**one.members(), "count": count} for one, count in counts]
