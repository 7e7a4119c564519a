"""Opening a place, to get ranges of the recording that lies there into a folder."""
from __future__ import annotations

import contextlib
import os
import re
from collections.abc import Iterator
from pathlib import Path
from typing import NamedTuple

from mxf.faults import NO_PROGRAM, USAGE, OwnFault
from mxf.fetch.folder import Folder, Kind
from mxf.fetch.getting import Bounds, Getting
from mxf.fetch.places import CommandPlace, PathPlace, Place

COMMAND = "cmd:"
SCHEMES = ("http://", "https://")
SCHEME = re.compile("[A-Za-z][A-Za-z0-9+.-]*://")


class Where(NamedTuple):
    """Where a recording lies, as people name it, and how it is asked for: the headers of each request, the seconds in which
    something has to come, and what bounds the requests."""

    name: str
    headers: dict[str, str]
    timeout: float
    bounds: Bounds


def is_elsewhere(word: str) -> bool:
    """Whether a word names a command or a URL, of whichever scheme, and no file."""
    return word.startswith(COMMAND) or SCHEME.match(word) is not None


def is_web(word: str) -> bool:
    """Whether a word is a URL of a scheme that is known here."""
    return word.lower().startswith(SCHEMES)


def place_of(where: Where) -> tuple[Place, str]:
    """The place that is named, and how that is shown to people."""
    name = where.name
    if name.startswith(COMMAND):
        return CommandPlace(name[len(COMMAND) :]), name
    if not is_web(name):
        return PathPlace(name), os.path.abspath(name)
    try:
        from mxf.fetch.web import WebPlace  # the one part that needs more than Python itself
    except ImportError as fault:
        told = f"http needs requests of Python (python3-requests of Debian): {fault.msg}"
        raise OwnFault(NO_PROGRAM, told) from fault
    try:
        place = WebPlace(name, where.headers, where.timeout, where.bounds.jobs)
    except ValueError as fault:
        raise OwnFault(USAGE, f"bad URL: {fault}") from fault
    return place, place.shown


@contextlib.contextmanager
def opened(where: Where, path: Path, into: str | None) -> Iterator[Getting]:
    """What gets ranges of the recording into the folder at this path, which nobody else has until the block ends. It stays
    afterwards if people have named it."""
    place, shown = place_of(where)
    kind = Kind(stays=into is not None, adopts=isinstance(place, CommandPlace))
    folder = Folder(path, shown, into or "this call", kind)
    try:
        yield Getting(place, folder, where.bounds)
    finally:
        folder.close()
