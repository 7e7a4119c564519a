"""All that a page of one recording says, asked for in its order."""
from __future__ import annotations

from collections.abc import Sequence

from mxf.described import Described
from mxf.faults import ToolFault
from mxf.lines import ExtentLine, UnitLine
from mxf.reading import take_lines
from mxf.report.asked import Words
from mxf.report.asking import Asking
from mxf.report.bounds import CELLS, INDEXES, NAMES, UNITS
from mxf.report.clocks import Clock
from mxf.report.judging import Grounds
from mxf.report.planned import Checked, Planned
from mxf.report.shown import Mapped, Shown, between
from mxf.report.strips import OrderedUnits, Strip
from mxf.report.told import told_of
from mxf.report.verified import Verified
from mxf.timecodes import is_timecode
from mxf.wording import count_text

# What is said of edit units if header metadata are ordered in their place.
NO_TIMECODES = (
    "No timecode is known yet, since no finished header metadata are held. "
    "What is ordered for these edit units brings them."
)

# The command that has all lines beside a reference, whose sources a page doesn't repeat.
BESIDE = "verify --against SOURCE"


class Facts(Grounds):
    """All that is reported of a recording, the options that name edit units, and whether essence was passed over."""

    def __init__(self, tool: Asking, words: Words) -> None:
        mapped = Mapped(tool.ask("map", "--extents", "--columns", str(CELLS), "--rows", "1"))
        shown = Shown(tool.ask("show"), mapped.numbers["cell"])
        super().__init__(
            mapped,
            shown,
            Checked(tool.ask("check", "--doubts", "--hints", "always"), tool.hints),
            Planned(tool.ask("plan")),
        )
        self.tool, self.is_skimmed, self.span = tool, tool.is_skimming, words.span()
        self.told = told_of(tool, self.shown)
        self.described = Described(tool.ask("describe"))
        self.strips = [self.strip_of(index_sid, self.span) for index_sid in self.indexes(words)]
        self.verified = self.verified_by(words.against) if words.against else []

    def indexes(self, words: Words) -> Sequence[int | None]:
        """The indexes whose edit units are shown. If a timecode names units, that is the one that has a clock. If none has
        one, or several do, the program is asked without an index."""
        if words.index is not None:
            return [int(words.index)]
        if not any(map(is_timecode, self.span)):
            return sorted(self.shown.index_sids)[:INDEXES]
        clocked: list[int | None] = [*self.described.clocked()]
        return clocked if len(clocked) == 1 else [None]

    def clock_of(self, index_sid: int | None) -> Clock | None:
        """The clock of an index, if it has one."""
        runs = self.described.runs_of(index_sid)
        return Clock(runs) if runs else None

    def strip_of(self, index_sid: int | None, span: list[str]) -> Strip:
        """The edit units of an index, and what is ordered for those that are named. If they aren't reported, the strip says
        why."""
        strip = Strip(index_sid, "units", span, self.clock_of(index_sid))
        orders = self.planned.orders.kept
        try:
            if self.span:
                strip.planned = Planned(self.tool.ask("plan", *strip.named))
                orders = orders + strip.planned.orders.kept
                if not strip.planned.units:
                    strip.remark = NO_TIMECODES
                    return strip
            strip.ordered = OrderedUnits(orders)
            strip.take_units(self.tool.ask("units", *strip.options))
        except ToolFault as fault:
            return self.strip_without(fault, strip, span)
        return strip

    def first_unit(self, index_sid: int | None, span: list[str]) -> int:
        """The first edit unit that is asked for: the number that is named, or the first unit of the timecode, or 0."""
        word = span[1] if span[:1] == ["--from"] else "0"
        if not is_timecode(word):
            return int(word)
        units: list[int] = []
        lines = self.tool.ask("units", "--index", str(index_sid), "--from", word, "--to", word)
        take_lines(lines, {"unit": (UnitLine, lambda line: units.append(line["unit"]))})
        return min(units)

    def strip_without(self, fault: ToolFault, strip: Strip, span: list[str]) -> Strip:
        """The strip of an index whose last unit isn't known, up to the last one of its track if the header metadata says
        that; or of the first units of one that has too many."""
        is_endless = fault.last_line() == "no last unit"
        if not is_endless and fault.last_line() != "too many units":
            raise fault
        first = self.first_unit(strip.index_sid, span)
        last, has_more, told = first + UNITS - 1, True, []
        if is_endless:
            stated = self.described.last_unit(strip.index_sid)
            if stated is None or stated < first:
                strip.remark = "The last unit of this index isn't known. Name the units by --from and --to."
                return strip
            last, has_more = min(stated, last), last < stated
            told.append(f"By the header metadata the last unit of this index is {stated}.")
        strip = self.strip_of(strip.index_sid, ["--from", str(first), "--to", str(last)])
        if has_more:
            told.append(f"The index has more units. These are {UNITS} of them; name others by --from and --to.")
        strip.remark = " ".join(told)
        return strip

    def verified_by(self, sources: list[str]) -> list[Verified]:
        """What is reported beside a reference of these sources, with the edit units of each index that has any."""
        against = [part for source in sources for part in ("--against", source)]
        strips = []
        for one in self.strips:
            span = ["--from", str(one.first), "--to", str(one.last())]
            clock = self.clock_of(one.index_sid)
            strips += [Strip(one.index_sid, BESIDE, span, clock)] if one.codes else []
        strips = strips or [Strip(None, BESIDE, [])]
        return [Verified(self.tool.ask("verify", *against, *strip.options), strip) for strip in strips]

    def begun_in(self, extent: ExtentLine) -> str:
        """What begins in bytes that are held, by offset: the random index pack, the first packets in dispute, the first
        partitions, by name if they are known; and how many more there are."""
        if extent["standing"] not in ("held", "disputed"):
            return ""
        rip, first, after = self.shown.rip, extent["start"], extent["end"]
        is_in = rip["standing"] == "one" and first <= rip["offset"] < after
        begun = [(rip["offset"], "random index pack")] if is_in else []
        disputed = between(self.told.readings.offsets, first, after)
        begun += [(place, "in dispute") for place in disputed[:NAMES]]
        places = between(self.shown.rising, first, after)
        parts = {pack["offset"]: pack["part"] for pack in self.shown.partitions.kept}
        named = [(place, f"{parts[place]} partition") for place in places[: 2 * NAMES] if place in parts]
        names = [f"{name} {place}" for place, name in sorted(begun + named)]
        names += [f"{len(disputed) - NAMES} more in dispute"] if len(disputed) > NAMES else []
        left = len(places) - len(named)
        return ", ".join(names + ([count_text(left, "more partition")] if left else []))
