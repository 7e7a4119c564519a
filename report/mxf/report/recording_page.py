"""The page of one recording."""
from __future__ import annotations

import shlex

from mxf.described import containers_text
from mxf.faults import NO_PROGRAM, OwnFault
from mxf.reading import LineFault, end_of_packet, fields_of
from mxf.report import pages
from mxf.report.asked import Words
from mxf.report.asking import Asking
from mxf.report.drawings import drawing_of_bar, drawing_of_strip
from mxf.report.facts import BESIDE, Facts
from mxf.report.judging import parts_of, verdict_of
from mxf.report.partition_drawing import drawing_of_partitions
from mxf.report.strips import what_is_ordered
from mxf.report.told import Told, file_of
from mxf.running import temporary_folder
from mxf.wording import count_text


def title_of(told: Told) -> str:
    """The name of the first source's file, and how many more there are."""
    if not told.sources.kept:
        return "A recording"
    more = told.sources.count - 1
    return file_of(told.sources.kept[0]["word"]) + (f" and {count_text(more, 'more source')}" if more else "")


def page_of_recording(tool: Asking, words: Words) -> str:
    """The page of one recording."""
    with temporary_folder("mxf_report.") as folder:
        tool.join(folder)
        try:
            facts = Facts(tool, words)
        except LineFault as fault:
            raise OwnFault(NO_PROGRAM, f"{tool.tool.program} prints {fault}") from fault
    return pages.page_of(
        "recording.html", words.title or title_of(facts.told), facts=facts, **vars(facts), calls="; ".join(tool.calls),
        verdict=verdict_of(facts), parts=list(parts_of(facts)), bar=drawing_of_bar(facts), drawing_of_strip=drawing_of_strip,
        drawing=drawing_of_partitions(facts), what_is_ordered=what_is_ordered, end_of_packet=end_of_packet,
        fields_of=fields_of, container=containers_text(facts.described, facts.shown.written),
        beside=f"mxf_tool {BESIDE}", command=shlex.join,
    )  # fmt: skip
