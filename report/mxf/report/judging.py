"""The verdict of one recording."""
from __future__ import annotations

from collections.abc import Iterator

from mxf.reading import end_of_packet
from mxf.report.planned import Checked, Planned
from mxf.report.shown import Mapped, Shown
from mxf.report.verdicts import OF_RECORDING, Verdict, first_of
from mxf.standing import is_lacking
from mxf.report.verified import Verified
from mxf.wording import are_text, bytes_text, count_text


class Grounds:
    """What the verdict rests on: what is held of a recording, what is found wrong and ordered, and what is reported beside a
    reference, if one was named."""

    def __init__(self, mapped: Mapped, shown: Shown, checked: Checked, planned: Planned) -> None:
        self.mapped, self.shown, self.checked, self.planned = mapped, shown, checked, planned
        self.verified: list[Verified] = []

    def differs(self) -> int:
        """How many packets differ from the reference, if one was named."""
        return self.verified[0].numbers["differs"] if self.verified else 0


def has_nothing(grounds: Grounds) -> bool:
    """Whether the sources have no packet of a recording, and no bytes at hand."""
    return not grounds.shown.notes() and not grounds.mapped.numbers["hand"]


def advice_of(verified: Verified) -> str:
    """What to do about the packets that differ from the reference."""
    if not verified.numbers["packets"]:
        return "see first whether an OFFSET is wrong"
    if verified.is_all_there():
        return "another source has what differs as it says, so take that from there"
    if verified.numbers["differs"] > 1:
        return f"restore the {verified.numbers['differs']} packets below again"
    packet = verified.differs.kept[0]
    return f"restore the bytes from {packet['offset']} up to {end_of_packet(packet)} again"


def doubts_of(grounds: Grounds) -> list[str]:
    """Why not all is as the reference says, beside the packets that differ: nothing was compared, or not all."""
    if not grounds.verified:
        return []
    one = grounds.verified[0]
    lacking = one.unverified_bytes
    doubts = [] if one.numbers["packets"] else ["no packet is as the reference says"]
    doubts += [f"of the reference {are_text(lacking, 'byte')} not verified"] if lacking else []
    doubts += [f"{count_text(one.halts, 'piece')} of the reference can't be read to the end"] if one.halts else []
    return doubts


def parts_of(grounds: Grounds) -> Iterator[str]:
    """The parts of the sentence that the verdict is."""
    numbers, planned, differs = grounds.mapped.numbers, grounds.planned.numbers, grounds.differs()
    held = f"{numbers['held']} of {bytes_text(numbers['end'])} are held"
    yield "the sources have no packet of a recording" if has_nothing(grounds) else held
    if numbers["hand"]:
        yield f"{numbers['hand']} more are at hand"
    if numbers["disputed"]:
        yield f"{are_text(numbers['disputed'], 'packet')} in dispute"
    shifted = len(grounds.checked.shifted())
    if shifted:
        yield f"{count_text(shifted, 'OFFSET is', 'OFFSETs are')} wrong by the partition packs"
    if differs:
        count = count_text(differs, "packet differs", "packets differ")
        yield f"{count} from the reference: {advice_of(grounds.verified[0])}"
    doubts = doubts_of(grounds)
    yield from doubts
    if grounds.verified and grounds.verified[0].numbers["unknown"]:
        yield f"the reference says nothing of {bytes_text(grounds.verified[0].numbers['unknown'])}"
    damaged, found = grounds.checked.damaged.count, grounds.checked.numbers["findings"]
    if damaged:
        yield f"{count_text(damaged, 'piece')} can't be read to the end"
    in_doubt = grounds.checked.doubts["doubts"]
    nothing = "nothing else" if damaged or differs or doubts else "nothing"
    if found or not in_doubt:
        yield grounds.checked.found_text() if found else f"{nothing} is found wrong"
    if in_doubt:
        yield grounds.checked.doubted_text()
    orders = f"{are_text(planned['ranges'], 'other range' if differs else 'range')} to be restored"
    yield orders if planned["ranges"] else "nothing else is ordered" if differs else "nothing is to be restored"
    if planned["end"] is None:
        yield "where the recording ends isn't known"


def verdict_of(grounds: Grounds) -> Verdict:
    """The verdict that the sentence begins with, one of OF_RECORDING."""
    numbers, planned = grounds.mapped.numbers, grounds.planned.numbers
    holds = (
        has_nothing(grounds),
        numbers["disputed"],
        grounds.differs(),
        is_lacking(numbers["missing"], planned["ranges"]),
        doubts_of(grounds),
        grounds.checked.damaged.count,
        grounds.checked.numbers["findings"],
        grounds.checked.doubts["doubts"],
        planned["end"] is None,
    )
    return first_of(OF_RECORDING, holds)
