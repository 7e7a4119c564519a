"""Where a recording comes from: its files, and the identifiers that its sets hold."""
from __future__ import annotations

import contextlib
import os
import re
from collections.abc import Sequence

from mxf import moments
from mxf.faults import READ, USAGE, OwnFault
from mxf.fetch.opening import is_elsewhere
from mxf.lines import ItemLine, Line
from mxf.sources import Source, Sources, source_of, sources_of

# Tags of sets whose values tell recordings apart (ST 377-1), and what each is: the identifier of the set, of a package, and
# of the modification by which a set or a program came.
IDENTIFIERS = {"3c0a": "instance", "4401": "package", "3c09": "generation", "0102": "generation"}
IDENTIFIED = re.compile(rb'\{"line":"item","offset":\d+,"tag":"(?:%s)"' % "|".join(IDENTIFIERS).encode())


def check_no_places(words: Sequence[str]) -> None:
    """Sees that no source is a URL or a command. That isn't said, for it may have a password."""
    if any(map(is_elsewhere, words)):
        said = "a URL or a command is no source: it stands behind --from of add, or by itself in a line of a list"
        raise OwnFault(USAGE, said)


def named_sources(words: list[str], path: str | None) -> Sources:
    """The sources that the words and the list at a path name, all of them in the form of a source."""
    sources = sources_of(words, path)
    check_no_places(sources.each())
    for word in sources.each():
        source_of(word)
    return sources


def origin_of(number: int, source: Source) -> Line:
    """What is known of the file of a source without its bytes: its path, its size and the time of its last change. That
    of a catalogue has to be there."""
    named = {
        "number": number,
        "form": source.form,
        "offset": source.offset(),
        "path": source.path,
        "word": source.word(),
    }
    origin: Line = {"line": "origin", **named, "size": None, "modified": None, "sha256": None}
    with contextlib.suppress(OSError, ValueError):
        found = os.stat(source.path)
        origin.update(size=found.st_size, modified=moments.text_of(found.st_mtime))
    if source.form == "cat":
        try:
            open(source.path, "rb").close()
        except OSError as fault:
            raise OwnFault(READ, f"read fault: {source.path}: {fault.strerror}") from fault
    return origin


def identifiers_in(block: bytes) -> list[bytes]:
    """Those of some lines of show that are items with an identifier."""
    return list(filter(IDENTIFIED.match, block.splitlines()))


def identifier_of(line: ItemLine) -> tuple[str, bytes] | None:
    """What an item identifies, and the identifier; None if it has none. One of zeros is none."""
    if line["tag"] not in IDENTIFIERS or not (line["value"] or "").strip("0"):
        return None
    return IDENTIFIERS[line["tag"]], bytes.fromhex(line["value"] or "")
