"""A file that has what came of a recording at its offsets, and nothing else."""
from __future__ import annotations

import os
from collections.abc import Iterable, Iterator
from pathlib import Path
from typing import IO, NamedTuple

from mxf.fetch.folder import Folder
from mxf.fetch.forms import end_of
from mxf.fetch.places import read_blocks
from mxf.fetch.spans import Span, together
from mxf.lines import Line

# The keys of a fill packet (ST 377-1), and of a system item of a container (SMPTE 326M), which is no picture and no
# sound; and what says that a length has eight bytes more (ST 336).
FILL = bytes.fromhex("060e2b34010101020301021001000000")
SYSTEM = bytes.fromhex("060e2b34020501010d01030104010100")
LONG = b"\x88"
FRONT = len(FILL + LONG) + 8

PARTITIONS = {"header", "body", "footer"}
CONTAINED = "0d010301"  # bytes 9 to 12 of the keys of what an essence container holds


class Layout(NamedTuple):
    """The bytes that a player is to find: the packets of the structure, and what the container holds of the units. All else
    that came is essence of other units. A player counts the bytes of a partition from where its essence begins, so that is
    told too."""

    kept: list[Span]
    begins: list[int]


def layout_of(notes: Iterable[Line], units: Span) -> Layout:
    """The layout for units, by the lines of `show`."""
    kept, begins, is_first = [units], [], False
    for note in notes:
        if note["line"] != "note":
            continue
        span, is_contained = Span(note["offset"], end_of(note)), note["key"][16:24] == CONTAINED
        if not is_contained or (span.start < units.end and units.start < span.end):
            kept.append(span)
        elif is_first:
            begins.append(span.start)
        is_first = note["kind"] in PARTITIONS or (is_first and not is_contained)
    return Layout(together(kept), begins)


def copy(folder: Folder, span: Span, out: IO[bytes]) -> None:
    """Copies what came of a span to its offset."""
    for start, path in folder.files().items():
        with open(path, "rb") as file:
            begin, end = max(span.start, start), min(span.end, start + os.fstat(file.fileno()).st_size)
            if begin < end:
                file.seek(begin - start)
                out.seek(begin)
                out.writelines(read_blocks(file, end - begin))


def write_sparse(path: Path, folder: Folder, layout: Layout, size: int) -> None:
    """Writes the file. A packet leads from the end of what is kept to what is kept next, so that a player that goes from
    packet to packet passes the hole over."""
    with open(path, "wb") as out:
        for span in layout.kept:
            copy(folder, span, out)
        for hole in holes(layout, size):
            out.seek(hole.start)
            key = SYSTEM if hole.start in layout.begins else FILL
            out.write(key + LONG + (hole.length - FRONT).to_bytes(8, "big"))
        out.truncate(size)


def holes(layout: Layout, size: int) -> Iterator[Span]:
    """What lies between spans that are kept, each up to where the essence of a partition begins, and from there on."""
    for before, after in zip(layout.kept, [*layout.kept[1:], Span(size, size)]):
        places = [before.end, *(place for place in layout.begins if before.end < place < after.start), after.start]
        for start, end in zip(places, places[1:]):
            if end - start >= FRONT:
                yield Span(start, end)
