"""What a summary takes from the page: how the recording is judged. All imports of the page stand here."""
from __future__ import annotations

from collections.abc import Mapping, Sequence

from mxf.described import Described
from mxf.lines import Line, RestoreLine
from mxf.report.asking import HINT, JOINED, Asking, is_skim
from mxf.report.guide import REASONS
from mxf.report.judging import Grounds, parts_of, verdict_of
from mxf.report.planned import Alike, Checked, Planned
from mxf.report.shown import Mapped, Shown
from mxf.wording import count_text
from mxf.written import Written

__all__ = ["HINT", "JOINED", "Asking", "Judged", "is_skim", "reason_text"]


class Judged:
    """How a recording is judged by what mxf_tool says of it."""

    def __init__(self, answers: Mapping[str, Sequence[Line]], hints: list[str]) -> None:
        mapped = Mapped(answers["map"])
        shown = Shown(answers["show"], mapped.numbers["cell"])
        self.grounds = Grounds(mapped, shown, Checked(answers["check"], hints), Planned(answers["plan"]))
        self.described = Described(answers["describe"])

    def written(self) -> Written:
        """Who wrote the file."""
        return self.grounds.shown.written

    def verdict(self) -> str:
        """The word that the sentence begins with."""
        return verdict_of(self.grounds).words

    def sentence(self) -> str:
        """The sentence of the page: whole, or what is missing and disputed."""
        *parts, last = parts_of(self.grounds)
        return f"{self.verdict()}: {', '.join(parts)}, and {last}."

    def orders(self) -> Sequence[RestoreLine]:
        """The first orders."""
        return self.grounds.planned.orders.kept

    def order_count(self) -> int:
        """How many orders there are."""
        return self.grounds.planned.orders.count

    def disputed(self) -> int:
        """How many packets are in dispute."""
        return self.grounds.mapped.numbers["disputed"]

    def held(self) -> int:
        """How many bytes are held."""
        return self.grounds.mapped.numbers["held"]

    def end(self) -> int | None:
        """Where the recording ends, if that is known."""
        return self.grounds.planned.numbers["end"]

    def findings(self) -> int:
        """How many findings there are."""
        return self.grounds.checked.numbers["findings"]

    def found(self) -> Sequence[Alike]:
        """What is found wrong or missing, by the codes."""
        return [one for _, one in self.grounds.checked.by_code().kept]

    def doubts(self) -> int:
        """How many doubts there are."""
        return self.grounds.checked.doubts["doubts"]

    def doubted(self) -> Sequence[Alike]:
        """What is in doubt, by the codes."""
        return [one for _, one in self.grounds.checked.doubted_by_code().kept]

    def shifted(self) -> list[str]:
        """The hints that say which OFFSET is wrong."""
        return ["".join(parts) for parts in self.grounds.checked.shifted()]

    def doubt(self) -> str | None:
        """Why what the recording is isn't told, or not all of it."""
        described = self.described
        if not described.main():
            return f"isn't known: {described.why_unknown()}"
        if described.copy.get("state") != "finished":
            partition = described.copy.get("partition")
            return f"may not be all: the header metadata of the partition at {partition} aren't held whole and clear"
        if described.astray:
            return (
                f"may not be all: {count_text(described.astray, 'reference')} of the header metadata can't be followed"
            )
        return None


def reason_text(reason: str) -> str:
    """Why bytes are to be restored, in words."""
    return REASONS.get(reason, reason)
