"""How mxf_fetch is run by its words."""
from __future__ import annotations

import sys
from collections.abc import Callable
from pathlib import Path

from mxf.calling import Tool
from mxf.faults import tell_own
from mxf.fetch import calls
from mxf.fetch.asking import Asking
from mxf.fetch.calls import Call
from mxf.fetch.clipping import clip
from mxf.fetch.faults import Bounded
from mxf.fetch.getting import Bounds
from mxf.fetch.opening import Where, opened
from mxf.fetch.words import Words, read_words
from mxf.running import end_by_signals, printed_by, temporary_folder

RUN: dict[str, Callable[[Call], int]] = {
    "look": calls.look, "units": calls.units, "clip": clip, "whole": calls.whole,
}  # fmt: skip


def run(words: Words) -> int:
    """Runs the command that the words name, and answers its status. Without a folder it has one of its own meanwhile."""
    if words.into is not None:
        return run_in(Path(words.into), words)
    with temporary_folder("mxf_fetch.") as path:
        return run_in(Path(path), words)


def run_in(path: Path, words: Words) -> int:
    """The same with a folder."""
    where = Where(words.where, words.headers, words.timeout, Bounds(words.most, words.jobs))
    with opened(where, path, words.into) as getting:
        asking = Asking(Tool(is_silent=True), getting.folder, words.source)
        return RUN[words.command](Call(words, getting, asking))


def run_bounded(given: list[str]) -> int:
    """Runs the command that the words of a call name. What would be more than it may get is said."""
    words = read_words(given)
    end_by_signals()
    try:
        return run(words)
    except Bounded as fault:
        tell_own(str(fault))
        return 1


def main() -> int:
    """Runs the program, and answers its status."""
    return printed_by(lambda: run_bounded(sys.argv[1:]))
