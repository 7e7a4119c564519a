"""Asking mxf_tool of the sources of one recording."""
from __future__ import annotations

import collections
import itertools
import os
import shlex
from collections.abc import Iterator

from mxf.calling import Tool
from mxf.lines import Line
from mxf.report.asked import Words
from mxf.sources import Sources, are_put_together

HINT = "hint: "  # before each hint
HINTS = 20  # that are kept

# The hint that a check read no essence, which the page says by itself.
UNREAD = "essence wasn't read"

# The commands that can pass over essence. The others tell what is in it.
SKIMMING = {"map", "show", "check", "plan", "describe", "units"}

# The commands that say of a catalogue of the sources what they say of these, unless one is a range; `show` does but for
# how the sources end.
JOINED = {"map", "show", "plan", "describe", "units"}


class Asking:
    """mxf_tool with the sources of a recording, and whether their essence is passed over. It keeps the calls that were
    made, for the page to name, and the hints that they said."""

    def __init__(self, sources: Sources, is_skimming: bool) -> None:
        self.tool = Tool()
        self.sources, self.is_skimming = sources, is_skimming
        self.catalogue: str | None = None
        self.calls: list[str] = []
        self.hints: list[str] = []

    def join(self, folder: str) -> None:
        """Reads the sources once into a catalogue, which is asked from now on where it knows as much as they do. Ranges of
        which bytes are at hand alone tell that themselves, and a skim reads little, as a catalogue does."""
        forms = {source.partition(":")[0] for source in self.sources.each()}
        if self.is_skimming or forms == {"cat"}:
            return
        if "range" in forms and not are_put_together(self.tool.pieces(self.sources), self.sources):
            return
        joined = os.path.join(folder, "joined")
        collections.deque(self.lines_by(["join", "--out", joined], self.sources), maxlen=0)
        self.catalogue = joined

    def ask(self, command: str, *options: str) -> Iterator[Line]:
        """The lines that a command prints of the sources. A call that fails is a fault after its last line."""
        if self.is_skimming and command in SKIMMING:
            options = (*options, "--skim")
        self.calls.append(shlex.join([command, *options]))
        if self.catalogue is None or command not in JOINED:
            return self.lines_by([command, *options], self.sources)
        lines = self.lines_by([command, *options], Sources([f"cat:{self.catalogue}"]))
        # How the sources end a catalogue of them doesn't say.
        return itertools.chain(self.tool.pieces(self.sources), lines) if command == "show" else lines

    def lines_by(self, words: list[str], sources: Sources) -> Iterator[Line]:
        """The lines of a call, whose hints are kept."""
        call = self.tool.call(words, sources)
        yield from self.tool.lines_of(call)
        said = [line[len(HINT) :] for line in call.said.decode("utf-8", "replace").split("\n") if line.startswith(HINT)]
        self.hints += [hint for hint in said if not hint.startswith(UNREAD)][:HINTS]


def is_skim(words: Words, sources: Sources) -> bool:
    """Whether essence is passed over: it is if no word asks for a reading. In catalogues alone there is none."""
    has_essence = any(not source.startswith("cat:") for source in sources.each())
    return has_essence and (words.skim or not (words.read or words.against))
