"""The catalogues of the first days: made by the first scan that sees a piece or range of a recording, and never anew."""
from __future__ import annotations

import json
import os
import sys
from collections.abc import Sequence

from mxf.archive import crew, database, folders, joining, scanned
from mxf.archive.catalogues import Catalogues
from mxf.archive.words import Words
from mxf.faults import USAGE, OwnFault, ToolFault


def alone(reader: joining.Reader, found: folders.Found, folder: str) -> folders.Found:
    """The recording as a catalogue of its first day is made of it, and verified. Files are verified one by one. So if it has
    ranges, each file is joined by itself: a packet over the border of two is in neither."""
    pieces = found.pieces()
    if not found.has_ranges():
        return folders.Found(found.name, found.folder, pieces)
    each = []
    for number, file in enumerate(pieces):
        name = f"{number}.cat"
        reader.call(["join", "--out", os.path.join(folder, name)], found, [file]).checked()
        each.append(folders.File("cat", None, name, None, None))
    return folders.Found(found.name, folder, each)


def join_first(reader: joining.Reader, found: folders.Found, folder: str) -> str:
    """Makes a catalogue of the first day in a folder, and answers its path; none if a piece can't be read."""
    out = os.path.join(folder, "first")
    try:
        pieces = alone(reader, found, folder)
        reader.call(["join", "--out", out], pieces, pieces.files).checked()
    except ToolFault:
        return ""
    return out


def former_names(reader: joining.Reader, first: str, gone: Sequence[str], catalogues: Catalogues) -> list[str]:
    """Which of the recordings that are gone this is: those whose first day has most of its packets, where they lie now."""
    known = [name for name in gone if os.path.exists(catalogues.first(name))]
    if not known:
        return []
    listed = "".join(f"cat:{catalogues.first(name)}\n" for name in known)
    ended = reader.crew.call([reader.program, "find", "--json", "--recordings", "-", f"cat:{first}"], listed)
    found = [line for line in map(json.loads, ended.checked().printed.splitlines()) if line["line"] == "found"]
    are_most = [line for line in found if line["offset"] == 0 and 2 * line["packets"] > line["all-packets"]]
    return [known[line["recording"] - 1] for line in are_most]


def accept(words: Words) -> int:
    """Renews the catalogue of the first day of a recording by what is there, and prints what that drops. The status is that
    of mxf_tool."""
    catalogues = Catalogues.beside(words.database)
    with database.reading(words.database) as connection:
        found = found_of(scanned.all_of(connection), words.name)
    first = catalogues.first(words.name)
    if not os.path.exists(first):
        raise OwnFault(USAGE, f"no first day: {words.name}")
    reader = joining.Reader(crew.Crew(1))
    with catalogues.held(), catalogues.begun() as folder:
        pieces = alone(reader, found, folder)
        drop = ["--drop"] if words.drop else []
        ended = reader.call(["renew", *drop, "--out", first, "--old", f"cat:{first}"], pieces, pieces.files)
    sys.stdout.write(ended.checked().printed.decode("utf-8", "replace"))
    return ended.status


def found_of(known: dict[str, scanned.Scanned], name: str) -> folders.Found:
    """A recording that was scanned, as its folder holds it."""
    if name not in known:
        raise OwnFault(USAGE, f"no recording that was scanned: {name}")
    looked = folders.look(known[name].folder)
    folders.check_there(looked, known[name].folder)
    if name not in looked.recordings or not looked.recordings[name].pieces():
        raise OwnFault(USAGE, f"{name} is gone")
    return looked.recordings[name]
