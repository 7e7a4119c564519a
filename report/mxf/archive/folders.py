"""What a folder of recordings holds: a folder or a file NAME.mxf for each recording, with its pieces, ranges and catalogues."""
from __future__ import annotations

import dataclasses
import os
import re
import stat
from collections.abc import Iterator
from typing import NamedTuple

from mxf.faults import READ, OwnFault
from mxf.fetch.folder import STATE

# The first bytes of the key of a partition pack (ST 377-1), and the three behind them in a header partition pack.
PACK = bytes.fromhex("060e2b34020501010d0102")
HEADER = PACK + bytes.fromhex("010102")
LABEL = PACK[:4]  # the first bytes of each key of SMPTE
LONGEST_RUN_IN = 65_536  # bytes

FORMS = {".piece": "at", ".range": "range", ".cat": "cat"}
OFFSET = re.compile(r"0*[0-9]{1,19}")
GREATEST = 2**63 - 1  # an OFFSET that mxf_tool takes
PASSED_OVER = (".part", ".units")  # files that aren't done, and lines that mxf_tool printed of units
CATALOGUES = ".catalogues"  # behind the name of a database, the name of the folder of its catalogues

UNNAMED = "its name isn't UTF-8"
NO_RECORDING = "it is no folder, and no file NAME.mxf"
NO_PIECE = "in the folder of a recording these are OFFSET.piece, OFFSET.range or NAME.cat"


class File(NamedTuple):
    """A file of a recording: its form as a source, the offset of its first byte, its path from the folder of recordings on,
    its size, and when it was changed, in nanoseconds. Without a size it can't be looked at."""

    form: str
    offset: int | None
    path: str
    size: int | None
    modified: int | None

    def is_bytes(self) -> bool:
        """Whether it is bytes of the recording, and no catalogue."""
        return self.form != "cat"


@dataclasses.dataclass
class Found:
    """A recording that a folder holds: its files, and why it can't be gathered, if that is known."""

    name: str
    folder: str
    files: list[File] = dataclasses.field(default_factory=list)
    fault: str = ""

    def pieces(self) -> list[File]:
        """Its files that are bytes."""
        return [file for file in self.files if file.is_bytes()]

    def has_ranges(self) -> bool:
        """Whether the bytes of all its pieces and ranges are put together."""
        return any(file.form == "range" for file in self.files)

    def with_range(self) -> Found:
        """The same with the file that is all of it as a range, if there is one: it lies in no folder of its own."""
        files = [file if "/" in file.path else file._replace(form="range") for file in self.files]
        return dataclasses.replace(self, files=files)

    def path_of(self, file: File) -> str:
        """The path of a file of it, from the root on."""
        return os.path.join(self.folder, file.path)

    def word_of(self, file: File) -> str:
        """The source that a file of it is."""
        offset = "" if file.offset is None else f"{file.offset}:"
        return f"{file.form}:{offset}{self.path_of(file)}"


class Looked(NamedTuple):
    """What a folder holds: its recordings by their names, and what isn't looked at, each with the reason."""

    recordings: dict[str, Found]
    others: list[tuple[str, str]]


def look(folder: str) -> Looked:
    """What a folder of recordings holds. Hidden files are passed over, and so are the catalogues of a database there."""
    folder = os.path.abspath(folder)
    looked = Looked({}, [])
    for entry in sorted(entries_of(folder), key=lambda one: os.fsencode(one.name)):
        if not is_text(entry.name):
            looked.others.append((entry.name, UNNAMED))
        elif os.path.isdir(entry.path):
            if not entry.name.endswith(CATALOGUES):
                add_folder(looked, folder, entry.name)
        elif entry.name.lower().endswith(".mxf") and len(entry.name) > len(".mxf"):
            add_whole(looked, folder, entry.name)
        else:
            looked.others.append((entry.name, NO_RECORDING))
    return looked


def entries_of(folder: str) -> Iterator[os.DirEntry[str]]:
    """What isn't hidden in a folder, which has to be there."""
    try:
        with os.scandir(folder) as entries:
            yield from (entry for entry in entries if not entry.name.startswith("."))
    except OSError as fault:
        raise OwnFault(READ, f"read fault: {folder}: {fault.strerror}") from fault


def is_text(name: str) -> bool:
    """Whether a name of the file system is UTF-8."""
    try:
        name.encode()
    except UnicodeEncodeError:
        return False
    return True


def recording_in(looked: Looked, folder: str, name: str) -> Found:
    """The recording of a name, which may have a folder and a file."""
    return looked.recordings.setdefault(name, Found(name, folder))


def add_whole(looked: Looked, folder: str, name: str) -> None:
    """Adds a file that is all of a recording."""
    found = recording_in(looked, folder, name[: -len(".mxf")])
    file = file_at(folder, name, "at", 0)
    found.files.append(file)
    if file.size is None:
        found.fault = f"{name} is a link that leads to no file"


def add_folder(looked: Looked, folder: str, name: str) -> None:
    """Adds the folder of a recording."""
    found = recording_in(looked, folder, name)
    try:
        entries = sorted(entries_of(os.path.join(folder, name)), key=lambda one: os.fsencode(one.name))
    except OwnFault as fault:
        found.fault = str(fault)
        return
    for entry in entries:
        stem, form = os.path.splitext(entry.name)
        if not is_text(entry.name):
            looked.others.append((f"{name}/{entry.name}", UNNAMED))
        elif form == ".cat" or (form in FORMS and OFFSET.fullmatch(stem) and int(stem) <= GREATEST):
            offset = None if form == ".cat" else int(stem)
            found.files.append(file_at(folder, f"{name}/{entry.name}", FORMS[form], offset))
        elif form not in PASSED_OVER and entry.name != STATE:
            looked.others.append((f"{name}/{entry.name}", NO_PIECE))
    if not found.files and not found.fault:
        found.fault = "its folder has no piece, no range and no catalogue"


def file_at(folder: str, path: str, form: str, offset: int | None) -> File:
    """A file of a recording, looked at."""
    try:
        found = os.stat(os.path.join(folder, path))
    except OSError:
        return File(form, offset, path, None, None)
    return File(form, offset, path, found.st_size, found.st_mtime_ns)


def run_in_of(path: str) -> int:
    """How many bytes lie ahead of the header partition pack of a file (ST 377-1, run-in); 0 if the file begins with a key,
    or no such pack begins in so many bytes. A file that can't be read has none: mxf_tool says why."""
    try:
        if not stat.S_ISREG(os.stat(path).st_mode):
            return 0
        with open(path, "rb") as file:
            front = file.read(LONGEST_RUN_IN + len(HEADER))
    except OSError:
        return 0
    return 0 if front.startswith(LABEL) else max(front.find(HEADER), 0)


def check_there(looked: Looked, folder: str) -> None:
    """Sees that a folder holds a recording: one that isn't mounted is empty."""
    if not looked.recordings:
        raise OwnFault(READ, f"no recording in {folder}: is it mounted?")
