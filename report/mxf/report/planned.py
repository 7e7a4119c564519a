"""What is found wrong and what is ordered, by what `check` and `plan` say."""
from __future__ import annotations

import re
from collections.abc import Iterable
from functools import partial

from mxf.lines import (
    DisputedPlaceLine, DoubtLine, DoubtsLine, FindingLine, FindingsLine, Line, PlannedLine, RestoreLine, StopLine,
    UnitsLine,
)  # fmt: skip
from mxf.reading import take_lines
from mxf.report.rows import Rows
from mxf.standing import is_damaged_at, is_doubt
from mxf.wording import are_text, count_text

# The hint of a source whose partition packs all say that it begins elsewhere.
SHIFTED = re.compile(r"(by its partition packs )(.*)( begins at \d+: OFFSET is \d+ too (?:high|low))")

FEW = 4  # places of a code that stand one by one


class Alike(Rows[FindingLine]):
    """The findings or the doubts of one code: the first of them, and the last."""

    last: FindingLine

    def add(self, row: FindingLine) -> None:
        """Counts one."""
        super().add(row)
        self.last = row

    def are_few(self) -> bool:
        """Whether all of them can stand one by one."""
        return self.count <= FEW

    def text(self) -> str:
        """What is found or in doubt, with its code, and how often."""
        word = "doubt " if is_doubt(self.last["code"]) else ""
        times = f" ({self.count} times)" if self.count > 1 else ""
        return f"{word}{self.last['code']} {self.last['text']}{times}"

    def members(self) -> Line:
        """The same as members of an object, with the first and the last offset."""
        first, last = self.kept[0], self.last
        places = {"count": self.count, "first": first["offset"], "last": last["offset"]}
        return {"code": last["code"], "text": last["text"], **places}


class Checked:
    """What `check` says: which pieces are damaged, of each code how often and where it is found or in doubt, and its hints."""

    def __init__(self, lines: Iterable[Line], hints: list[str]) -> None:
        self.hints = hints
        self.numbers: FindingsLine = {"findings": 0}
        self.damaged: Rows[StopLine] = Rows()
        self.doubts: DoubtsLine = {"doubts": 0}
        self.codes: dict[str, Alike] = {}
        self.doubted: dict[str, Alike] = {}
        take_lines(lines, {
            "stop": (StopLine, self.take_stop),
            "finding": (FindingLine, self.take_finding),
            "findings": (FindingsLine, partial(setattr, self, "numbers")),
            "doubt": (DoubtLine, self.take_doubt),
            "doubts": (DoubtsLine, partial(setattr, self, "doubts")),
        })  # fmt: skip

    def take_stop(self, line: StopLine) -> None:
        """How a source ends."""
        if is_damaged_at(line["stop"]):
            self.damaged.add(line)

    def take_finding(self, line: FindingLine) -> None:
        """A finding."""
        self.codes.setdefault(line["code"], Alike()).add(line)

    def take_doubt(self, line: DoubtLine) -> None:
        """A doubt."""
        self.doubted.setdefault(line["code"], Alike()).add(line)

    def by_code(self) -> Rows[tuple[str, Alike]]:
        """The codes of findings in their order, with their findings."""
        return rising(self.codes)

    def doubted_by_code(self) -> Rows[tuple[str, Alike]]:
        """The codes of doubts in their order, with their doubts."""
        return rising(self.doubted)

    def found_text(self) -> str:
        """How many things are found: what is found at several offsets is one."""
        kinds = count_text(len(self.codes), "thing is found wrong or missing", "things are found wrong or missing")
        return kinds + places_text(self.codes, self.numbers["findings"])

    def doubted_text(self) -> str:
        """How many things are in doubt."""
        return f"{are_text(len(self.doubted), 'thing')} in doubt{places_text(self.doubted, self.doubts['doubts'])}"

    def shifted(self) -> list[tuple[str, ...]]:
        """The hints that say how a wrong OFFSET would be right: what stands before the source, its name, and what follows."""
        return [known.groups() for known in map(SHIFTED.fullmatch, self.hints) if known]

    def other_hints(self) -> list[str]:
        """The other hints."""
        return [hint for hint in self.hints if not SHIFTED.fullmatch(hint)]


def rising(codes: dict[str, Alike]) -> Rows[tuple[str, Alike]]:
    """Codes in their order, with what has them."""
    rows: Rows[tuple[str, Alike]] = Rows()
    for code in sorted(codes.items()):
        rows.add(code)
    return rows


def places_text(codes: dict[str, Alike], count: int) -> str:
    """At how many places codes are found, if they are more."""
    return f" at {count} places" if count > len(codes) else ""


class Planned:
    """What `plan` says: the orders, the places in dispute, and their numbers; of a plan for edit units also how many of
    them there are, unless their timecodes aren't known yet."""

    def __init__(self, lines: Iterable[Line]) -> None:
        self.orders: Rows[RestoreLine] = Rows()
        self.disputed: Rows[DisputedPlaceLine] = Rows()
        self.units: UnitsLine | None = None
        self.numbers: PlannedLine = {"ranges": 0, "bytes": 0, "open": 0, "end": None}
        take_lines(lines, {
            "restore": (RestoreLine, self.orders.add),
            "disputed": (DisputedPlaceLine, self.disputed.add),
            "planned": (PlannedLine, partial(setattr, self, "numbers")),
            "units": (UnitsLine, partial(setattr, self, "units")),
        })  # fmt: skip
