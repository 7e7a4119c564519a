"""Asking mxf_tool of the ranges of a folder."""
from __future__ import annotations

from collections.abc import Sequence
from typing import NamedTuple

from mxf.calling import Call, Tool, program
from mxf.faults import NO_PROGRAM, OwnFault, ToolFault
from mxf.fetch.folder import Folder
from mxf.fetch.forms import formed
from mxf.lines import Line
from mxf.reading import LineFault, line_of
from mxf.sources import Sources


class Answer(NamedTuple):
    """The lines that a call of mxf_tool printed, what it said on standard error, and its status."""

    texts: list[bytes]
    said: bytes
    status: int

    def lines(self) -> list[Line]:
        """The lines, which are JSON."""
        try:
            return [formed(line_of(text)) for text in self.texts]
        except LineFault as fault:
            raise OwnFault(NO_PROGRAM, f"{program()} prints {fault}") from fault


class Asking:
    """mxf_tool with the ranges of a folder, and with sources that the words of the call name."""

    def __init__(self, tool: Tool, folder: Folder, sources: Sequence[str] = ()) -> None:
        self.tool = tool
        self.folder = folder
        self.sources = sources

    def ask(self, command: str, *options: str) -> Answer:
        """What a command answers. It passes over essence. A call that fails is a fault, with what it said."""
        sources = Sources([], [*self.sources, *self.folder.sources()])
        call = Call([self.tool.program, command, "--skim", *options, *sources.handed()], sources.given())
        with self.tool.begun(call):
            texts = [text for block in call.blocks() for text in block.split(b"\n")]
        if call.status not in (0, 1):
            raise ToolFault(call.status if call.status > 0 else 128 - call.status, call.said)
        return Answer(texts, call.said, call.status)

    def lines(self, command: str, *options: str) -> list[Line]:
        """The lines that a command prints."""
        return self.ask(command, "--json", *options).lines()
