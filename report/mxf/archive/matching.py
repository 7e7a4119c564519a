"""The command that finds of which recording fragments are, by their identifiers and their packets."""
from __future__ import annotations

import os
from collections.abc import Iterable
from pathlib import Path
from sqlite3 import Connection
from typing import Any, NamedTuple

from mxf.archive import database, origins, printing
from mxf.calling import Tool
from mxf.faults import USAGE, OwnFault, tell_own
from mxf.lines import ItemLine, Line
from mxf.reading import checked
from mxf.running import temporary_folder
from mxf.sources import Sources
from mxf.archive.words import Words

# By which identifiers candidates are found: those of packages and modifications, and if none has one, those of any set,
# which some programs give to all their files.
RANKS = (("package", "generation"), ("instance",))

HAVING = "SELECT recording FROM identifiers WHERE uid = ? AND what = ?"
ALL = "SELECT id FROM recordings"
CATALOGUES = """
SELECT r.name, s.number, s.path FROM recordings r LEFT JOIN sources s ON s.recording = r.id AND s.form = 'cat'
WHERE r.id = ? ORDER BY s.number
"""

HEADS = ("fragment", "recording", "offset", "packets", "all_packets", "heads")


class Candidate(NamedTuple):
    """A catalogue of a recording."""

    recording: str
    path: str


def match(words: Words) -> int:
    """Prints of which recording each fragment is, and where it lies in it. The status is that of mxf_tool."""
    sources = origins.named_sources(words.source, words.sources)
    if not sources.each():
        raise OwnFault(USAGE, "no source is named")
    tool = Tool()
    held = {identifier for source in sources.each() for identifier in identifiers_of(tool, source)}
    with database.reading(words.database) as connection:
        candidates = [
            one for recording in candidates_of(connection, held) for one in catalogues_of(connection, recording)
        ]
    status, lines = found_in(tool, candidates, sources) if candidates else (1, [])
    rows = [row_of(line, sources.each(), candidates) for line in lines if line["line"] != "fragments"]
    printing.print_answer(words.form, HEADS, rows)
    return status


def identifiers_of(tool: Tool, source: str) -> Iterable[tuple[str, bytes]]:
    """What the sets of a fragment identify."""
    lines = tool.ask(["show"], Sources([source]), origins.identifiers_in)
    return filter(None, (origins.identifier_of(checked(line, ItemLine)) for line in lines))


def candidates_of(connection: Connection, held: set[tuple[str, bytes]]) -> list[int]:
    """The recordings that have one of the identifiers, of the first rank of which one is known; all if none is."""
    for rank in RANKS:
        asked = [(uid, what) for what, uid in held if what in rank]
        found = {row["recording"] for values in asked for row in connection.execute(HAVING, values)}
        if found:
            return sorted(found)
    return [row["id"] for row in connection.execute(ALL)]


def catalogues_of(connection: Connection, recording: int) -> list[Candidate]:
    """The catalogues of a recording that are there: the one that was asked in place of its sources, or else those among
    them. If there is none, that is told."""
    rows = [row for row in connection.execute(CATALOGUES, (recording,))]
    asked = [row for row in rows if row["number"] == 0] or rows
    there = [Candidate(row["name"], row["path"]) for row in asked if row["path"] and os.path.isfile(row["path"])]
    if not there:
        tell_own(f"no catalogue of {printing.cell(rows[0]['name'])} is there, so it isn't looked at")
    return there


def found_in(tool: Tool, candidates: list[Candidate], sources: Sources) -> tuple[int, list[Line]]:
    """The status of `find`, and what it prints of the fragments in the candidates, whose numbers are their places. A path
    with a newline stands in no list, so such candidates come first."""
    candidates.sort(key=lambda one: "\n" not in one.path)
    named = [part for one in candidates if "\n" in one.path for part in ("--in", f"cat:{one.path}")]
    with temporary_folder("mxf_archive.") as folder:
        listed = Path(folder, "recordings")
        listed.write_bytes("".join(f"cat:{one.path}\n" for one in candidates if "\n" not in one.path).encode())
        call = tool.call(["find", *named, "--recordings", str(listed)], sources)
        lines = list(tool.lines_of(call))
        return call.status, lines


def row_of(line: Line, fragments: list[str], candidates: list[Candidate]) -> tuple[Any, ...]:
    """The row of a fragment in a recording, or of one that is in none."""
    fragment = fragments[line["fragment"] - 1]
    if line["line"] == "unknown":
        return fragment, None, None, 0, line["packets"], 0
    recording = candidates[line["recording"] - 1].recording
    return fragment, recording, line["offset"], line["packets"], line["all-packets"], line["heads"]
