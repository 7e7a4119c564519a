"""The command that verifies recordings that were scanned against their first days, and keeps what comes of each."""
from __future__ import annotations

import os
from typing import NamedTuple

from mxf.archive import answering, database, folders, printing, scanned, storing, verifying
from mxf.archive.adding import Progress
from mxf.archive.catalogues import Catalogues
from mxf.archive.crew import Crew, Ended
from mxf.archive.folders import Found
from mxf.archive.joining import Reader
from mxf.archive.words import Words
from mxf.faults import USAGE, OwnFault, tell_own
from mxf.lines import Line
from mxf.reading import line_of

COUNTS = ("packets", "all-packets", "bytes", "all-bytes", "differs", "cut", "unknown")
HEADS = ("recording", *(name.replace("-", "_") for name in COUNTS), "why")


class Verified(NamedTuple):
    """What `verify` says of a recording: its status, its lines, the words of its sources, and its fault if it failed."""

    status: int
    lines: list[Line]
    words: list[str]
    fault: str

    def why(self) -> str:
        """Why the recording isn't as on its first day; an empty text if it is."""
        if self.fault:
            return self.fault
        differs = [line for line in self.lines if line["line"] in ("differs", "cut", "unverified")]
        return "; ".join(map(self.said_of, differs[:1])) + (f"; {len(differs) - 1} more" if len(differs) > 1 else "")

    def said_of(self, line: Line) -> str:
        """What differs, is cut or wasn't verified."""
        row = storing.difference_of(line, self.words)
        place = f" in {row['source']}" if row["source"] else ""
        return f"{row['what']} {row['start']} to {row['end']}{place}"

    def row(self, name: str) -> tuple[object, ...]:
        """The row that is printed."""
        counts = [self.lines[-1][count] for count in COUNTS] if not self.fault else [None] * len(COUNTS)
        return (name, *counts, self.why())


def verify(words: Words) -> int:
    """Verifies a recording against the sources that are named, or those that were scanned against their first days."""
    return verifying.verify(words) if words.against else verify_scanned(words)


def verify_scanned(words: Words) -> int:
    """Verifies recordings that were scanned: the one that is named, or all. The status is 1 if one isn't as on its first day."""
    catalogues = Catalogues.beside(words.database)
    with database.reading(words.database) as connection:
        known = scanned.all_of(connection)
    if words.name is not None and words.name not in known:
        raise OwnFault(USAGE, f"no recording that was scanned: {words.name}")
    asked = [name for name in known if words.name in (None, name) and os.path.exists(catalogues.first(name))]
    if not asked:
        raise OwnFault(USAGE, f"no first day: {words.name or words.database}")
    there = found_in({known[name].folder for name in asked})
    founds = [there[known[name].folder, name] for name in asked if (known[name].folder, name) in there]
    gone = [name for name in asked if (known[name].folder, name) not in there]
    database.check_place(words.database)
    rows = verify_all(words, catalogues, [found for found in founds if found.pieces()])
    for name in [*gone, *(found.name for found in founds if not found.pieces())]:
        tell_own(printing.shown(f"{name} is gone"))
    if rows:
        printing.print_answer(words.form, HEADS, sorted(rows))
    return 1 if rows or len(founds) < len(asked) else 0


def found_in(places: set[str]) -> dict[tuple[str, str], Found]:
    """The recordings of folders, which have to be mounted."""
    there = {}
    for folder in sorted(places):
        looked = folders.look(folder)
        folders.check_there(looked, folder)
        there.update({(folder, name): found for name, found in looked.recordings.items()})
    return there


def verify_all(words: Words, catalogues: Catalogues, founds: list[Found]) -> list[tuple[object, ...]]:
    """Verifies recordings side by side, and keeps what comes of each. The rows of those that fail."""
    crew = Crew(words.jobs)
    reader = Reader(crew)
    progress = Progress(len(founds))
    rows = []

    def verified(found: Found) -> Verified:
        """What `verify` says of a recording."""
        return verified_of(reader, found, catalogues.first(found.name))

    with crew.each(verified, founds) as each:
        for found, done in each:
            answer = done.result()
            if not answer.fault:
                against = {"program": reader.version, "against": f"cat:{catalogues.first(found.name)}"}
                keep(words.database, found.name, against, answer)
            if answer.status or answer.why():
                rows.append(answer.row(found.name))
            progress.tell(len(rows))
    progress.end()
    return rows


def verified_of(reader: Reader, found: Found, first: str) -> Verified:
    """What `verify` says of a recording."""
    pieces = reader.numbers_of(found, found.pieces())
    ended = reader.call(["verify", "--json", "--against", f"cat:{first}"], found, pieces)
    if ended.status not in (0, 1):
        return Verified(ended.status, [], [], cause_of(ended))
    lines = [line_of(text) for text in ended.printed.splitlines()]
    return Verified(ended.status, lines, [found.word_of(file) for file in pieces], "")


def cause_of(ended: Ended) -> str:
    """Why a call failed."""
    return f"verify ended with status {ended.status}: {ended.cause()}"


def keep(path: str, name: str, against: dict[str, str], answer: Verified) -> None:
    """Keeps what `verify` says of a recording, if the database has one of this name: one that couldn't be joined has no row."""
    with database.writing(path) as connection:
        if storing.is_known(connection, name) is not None:
            identity = answering.identity_of(connection, name)
            storing.store_verification(connection, identity, against, answer.lines, answer.words)
