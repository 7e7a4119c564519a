"""Lists of recordings: a line for each, with its name, and its sources or where it lies."""
from __future__ import annotations

from collections.abc import Iterator

from mxf.archive import origins
from mxf.archive.elsewhere import Elsewhere, Listed
from mxf.archive.gathering import Named
from mxf.faults import READ, USAGE, OwnFault
from mxf.fetch.opening import is_elsewhere
from mxf.sources import Sources, check_read_often, source_of


def recordings_in(path: str, is_skim: bool) -> list[Listed]:
    """The recordings of a list; - is standard input. A line that is none is told by its number, before any is asked for."""
    recordings: dict[str, Listed] = {}
    places: dict[str, int] = {}
    for number, line in lines_of(path):
        try:
            named = named_by(line, is_skim)
        except (OwnFault, UnicodeDecodeError) as fault:
            said = "it isn't UTF-8" if isinstance(fault, UnicodeDecodeError) else fault
            raise OwnFault(USAGE, f"bad list: {path}: line {number}: {said}") from fault
        if named.name in places:
            said = f"line {places[named.name]} names the same recording"
            raise OwnFault(USAGE, f"bad list: {path}: line {number}: {said}")
        recordings[named.name], places[named.name] = named, number
    return list(recordings.values())


def lines_of(path: str) -> Iterator[tuple[int, bytes]]:
    """The lines of a list that aren't empty, with their numbers."""
    try:
        with open(0 if path == "-" else path, "rb", closefd=path != "-") as file:
            lines = file.read().split(b"\n")
    except OSError as fault:
        raise OwnFault(READ, f"read fault: {path}: {fault.strerror}") from fault
    return ((number, line) for number, line in enumerate(lines, 1) if line)


def named_by(line: bytes, is_skim: bool) -> Listed:
    """The recording that a line names: its name and its sources, with a tab before each source; or its name, a tab, and the
    URL or the command that has it."""
    name, *words = line.decode("utf-8").split("\t")
    if not name:
        raise OwnFault(USAGE, "no name")
    if not words:
        raise OwnFault(USAGE, "no source is named")
    if "\0" in name or any("\0" in word for word in words):
        raise OwnFault(USAGE, "it has a zero byte")
    if len(words) == 1 and is_elsewhere(words[0]):
        place = Elsewhere(name, words[0])
        place.check()
        return place
    origins.check_no_places(words)
    for word in words:
        source_of(word)
    check_read_often(words)
    return Named(name, Sources(words), None, is_skim)
