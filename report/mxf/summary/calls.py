"""The calls of mxf_tool that a summary is made of."""
from __future__ import annotations

import contextlib
import os

from mxf.calling import Call, Keeps
from mxf.lines import Line
from mxf.running import temporary_folder
from mxf.sources import Source, Sources, source_of
from mxf.summary.judged import HINT, JOINED, Asking

# What is asked, and by which options.
COMMANDS = {
    "show": (),
    "describe": (),
    "check": ("--doubts", "--hints", "always"),
    "plan": (),
    "map": ("--columns", "1", "--rows", "1"),
}

# Lines of `show` that aren't needed, which are nearly all. One packet is needed.
NOTE = b'{"line":"note"'
PASSED = (NOTE, b'{"line":"item"', b'{"line":"piece"', b'{"line":"gap"')

SMALL = 1 << 24  # bytes of catalogues that several calls may hold at once


class FirstNote:
    """What is kept of `show`: the first packet, which says that there is one, and the lines that aren't passed over."""

    def __init__(self) -> None:
        self.has_note = False

    def __call__(self, block: bytes) -> list[bytes]:
        """The lines of a block that are kept. Most blocks have packets alone."""
        if self.has_note and block.count(NOTE) == block.count(b"\n"):
            return []
        lines = block.splitlines()
        first = [] if self.has_note else [text for text in lines if text.startswith(NOTE)][:1]
        self.has_note = self.has_note or bool(first)
        return first + [text for text in lines if not text.startswith(PASSED)]


def keeps_of(command: str) -> Keeps:
    """What is kept of the lines of a command."""
    if command == "show":
        return FirstNote()
    return bytes.splitlines


def is_small(sources: Sources) -> bool:
    """Whether the sources are catalogues that several calls may hold at once."""
    words = [source_of(word) if word.startswith("cat:") else Source("", "", "") for word in sources.each()]
    with contextlib.suppress(OSError):
        return all(word.form for word in words) and sum(os.path.getsize(word.path) for word in words) <= SMALL
    return False


def answers_of(asking: Asking) -> dict[str, list[Line]]:
    """What mxf_tool says of the sources, by the commands. The calls go side by side if they read little."""
    asking.tool.version()  # asks the program itself from now on, and not what makes it
    with contextlib.ExitStack() as opened:
        asking.join(opened.enter_context(temporary_folder("mxf_report.")))
        is_beside = asking.is_skimming or is_small(asking.sources)
        calls = {command: call_of(asking, command, is_beside) for command in COMMANDS}
        for call in calls.values() if is_beside else ():
            opened.enter_context(call).begin()
        texts = {command: asking.tool.texts_of(call, keeps_of(command)) for command, call in calls.items()}
        answers = {command: asking.tool.lines_in(kept) for command, kept in texts.items()}
    said = calls["check"].said.decode("utf-8", "replace").split("\n")
    asking.hints += [line[len(HINT) :] for line in said if line.startswith(HINT)]
    return answers


def call_of(asking: Asking, command: str, is_beside: bool) -> Call:
    """The call of a command, of the catalogue that the sources were joined to if it knows as much as they do."""
    is_joined = asking.catalogue is not None and command in JOINED
    sources = Sources([f"cat:{asking.catalogue}"]) if is_joined else asking.sources
    words = [command, *COMMANDS[command], *(["--skim"] if asking.is_skimming else [])]
    return asking.tool.call(words, sources, not is_beside)
