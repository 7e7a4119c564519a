"""The commands that ask mxf_tool of recordings."""
from __future__ import annotations

import contextlib
import functools
import os
import sys
import time
from collections.abc import Generator, Iterator

from mxf.archive import database, lists, origins, printing, storing
from mxf.archive.beside import Done, Outcome, beside
from mxf.archive.elsewhere import Elsewhere, How, Listed, Looking
from mxf.archive.gathering import Gathering, Named, gathered
from mxf.archive.rows import Recording, recordings_of
from mxf.archive.words import Words
from mxf.calling import Tool
from mxf.faults import NO_PROGRAM, USAGE, OwnFault, ToolFault, tell, tell_own
from mxf.fetch import words as fetch_words
from mxf.fetch.words import MOST_LOOKED, REQUESTS, TIMEOUT
from mxf.lines import Line
from mxf.sources import check_read_often


def named_by(words: Words) -> Named:
    """The recording that the words of add and lines name."""
    sources = origins.named_sources(words.source, words.sources)
    if not sources.each() and words.catalogue is None:
        raise OwnFault(USAGE, "no source is named")
    if words.catalogue is not None:
        check_read_often([f"cat:{os.path.abspath(words.catalogue)}"])
    return Named(words.name, sources, words.catalogue, words.skim)


def listed_by(words: Words) -> Listed:
    """The recording that the words of add name, by its sources or by where it lies."""
    if words.where is None:
        return named_by(words)
    place = Elsewhere(words.name, words.where, words.kept)
    place.check()
    return place


def begun(tool: Tool, named: Listed, how: How, opened: contextlib.ExitStack, is_beside: bool) -> Gathering | Looking:
    """What gathers a recording, as mxf_tool tells it, whose calls end with what is opened. One that lies elsewhere is looked at
    first."""
    if isinstance(named, Elsewhere):
        return Looking(tool, named, how, is_beside)
    return Gathering(tool, named, opened, is_beside)


def how_of(words: Words, jobs: int) -> How:
    """How recordings that lie elsewhere are looked at, with so many requests side by side."""
    most = MOST_LOOKED if words.most is None else words.most
    timeout = TIMEOUT if words.timeout is None else words.timeout
    return How(most, jobs, timeout, fetch_words.together(words.header))


def recording_of(tool: Tool, lines: list[Line]) -> Recording:
    """The recording of these lines."""
    try:
        (recording,) = recordings_of(lines, tool.program)
    except OwnFault as fault:
        raise OwnFault(NO_PROGRAM, f"{tool.program} prints lines that mxf_archive doesn't know") from fault
    return recording


def keep(writer: database.Writer, tool: Tool, recording: Recording) -> None:
    """Puts a recording into the database, and says so."""
    with writer.transaction() as connection, storing.bad_values(
        f"{tool.program} prints a value that is none", NO_PROGRAM
    ):
        was_known = storing.store(connection, recording)
    print("replaced" if was_known else "added", printing.cell(recording.name))


def add(words: Words) -> int:
    """Puts recordings into the database. All is asked of a recording before that is written to."""
    if words.listed is not None:
        return add_list(words.listed, words)
    named = listed_by(words)
    database.check_place(words.database)
    tool = Tool(is_silent=words.where is not None)
    how = how_of(words, words.jobs or REQUESTS)
    with contextlib.ExitStack() as opened:
        recording = recording_of(tool, begun(tool, named, how, opened, is_beside=True).gather())
    with database.writer(words.database, is_new=True) as writer:
        keep(writer, tool, recording)
    return 0


def lines(words: Words) -> int:
    """Prints the lines of a recording, which load takes."""
    printing.print_objects(gathered(Tool(), named_by(words), is_beside=True))
    return 0


def add_list(path: str, words: Words) -> int:
    """Puts the recordings of a list into the database, each by itself. Those of which something fails are told at the end."""
    listed = lists.recordings_in(path, words.skim)
    database.check_place(words.database)
    tool = Tool(is_silent=True)
    tool.version()
    failed: dict[str, str] = {}
    progress = Progress(len(listed))
    stream = functools.partial(recordings_ahead, tool, how_of(words, jobs=1))
    try:
        with beside(stream, listed, words.jobs or 1) as each, database.writer(words.database, is_new=True) as writer:
            for named, outcome in each:
                progress.clear()
                try:
                    keep(writer, tool, outcome.result())
                except (ToolFault, OwnFault, OSError) as fault:
                    # Where the database or the answer can't be written, no other recording can be kept either.
                    if not outcome.fault and not (isinstance(fault, OwnFault) and fault.status == NO_PROGRAM):
                        raise
                    failed[named.name] = cause_of(fault)
                progress.tell(len(failed))
    finally:
        progress.end()
        for named in listed:
            if named.name in failed:
                tell_own(f"{printing.cell(named.name)}: {failed[named.name]}")
    return 1 if failed else 0


def recordings_ahead(tool: Tool, how: How, each: Iterator[Listed]) -> Generator[Done[Listed, Recording], None, None]:
    """Recordings of a list. While the lines of one are taken apart, the first call of the next goes on."""
    former: Done[Listed, list[Line]] | None = None
    for named in each:
        with contextlib.ExitStack() as opened:
            asking = Outcome(functools.partial(begun, tool, named, how, opened, is_beside=False))
            if former is not None:
                yield recorded(tool, *former)
            former = named, Outcome(lambda: asking.result().gather())
    if former is not None:
        yield recorded(tool, *former)


def recorded(tool: Tool, named: Listed, gathered_lines: Outcome[list[Line]]) -> Done[Listed, Recording]:
    """The recording of lines that were gathered."""
    return named, Outcome(lambda: recording_of(tool, gathered_lines.result()))


def cause_of(fault: ToolFault | OwnFault | OSError) -> str:
    """What is said of a fault, in a line."""
    if isinstance(fault, ToolFault):
        return printing.shown(fault.last_line()) or f"mxf_tool ended with status {fault.status}"
    return str(fault)


class Progress:
    """How many recordings are done, for a terminal alone."""

    SECONDS = 0.1  # between two lines

    def __init__(self, count: int) -> None:
        self.count, self.done, self.told = count, 0, 0.0
        self.is_shown = sys.stderr.isatty()

    def tell(self, failed: int) -> None:
        """Says that one more is done, and how many failed."""
        self.done += 1
        now = time.monotonic()
        if self.is_shown and (now - self.told > self.SECONDS or self.done == self.count):
            self.told = now
            tell(f"\r{self.done} of {self.count} recordings{f', {failed} failed' if failed else ''}\033[K".encode())

    def clear(self) -> None:
        """Makes room for a line of the answer."""
        if self.is_shown and sys.stdout.isatty():
            tell(b"\r\033[K")

    def end(self) -> None:
        """Ends the line."""
        if self.is_shown and self.told:
            tell(b"\n")
