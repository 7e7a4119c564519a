"""The command that joins recordings of a folder on one of many machines, and how a scan takes what it made."""
from __future__ import annotations

import json
import os
import shutil

from mxf.archive import crew, folders, printing
from mxf.archive.catalogues import Catalogues
from mxf.archive.folders import Found
from mxf.archive.joining import Reader
from mxf.archive.words import LARGE, Words
from mxf.faults import READ, OwnFault, tell_own


class Joined:
    """A folder with catalogues of recordings, and beside each of which files it was made."""

    def __init__(self, folder: str) -> None:
        self.catalogues = Catalogues(folder)

    @classmethod
    def there(cls, folder: str) -> Joined:
        """A folder of catalogues that is there."""
        if not os.path.isdir(folder):
            raise OwnFault(READ, f"read fault: {folder}: No such folder")
        return cls(folder)

    def has(self, found: Found) -> bool:
        """Whether the catalogue of a recording is there, made of the files that are there now."""
        try:
            with open(self.files_of(found), encoding="utf-8") as file:
                return file.read() == said_of(found) and os.path.isfile(self.catalogues.of(found.name))
        except (OSError, UnicodeDecodeError):
            return False

    def files_of(self, found: Found) -> str:
        """The file that says of which files a catalogue was made."""
        return self.catalogues.of(found.name).removesuffix(".cat") + ".files"

    def take(self, found: Found, out: str) -> bool:
        """Copies the catalogue of a recording, if it is there."""
        return self.has(found) and bool(shutil.copyfile(self.catalogues.of(found.name), out))

    def make(self, reader: Reader, found: Found) -> str:
        """Joins a recording, and answers what keeps it from that. What may be damaged is left to the scan, which says so."""
        with self.catalogues.begun() as folder:
            out = os.path.join(folder, "cat")
            ended = reader.join(found, out, LARGE)
            if ended.status == 0:
                self.catalogues.place(out, self.catalogues.of(found.name))
                files = os.path.join(folder, "files")
                with open(files, "w", encoding="utf-8") as file:
                    file.write(said_of(found))
                self.catalogues.place(files, self.files_of(found))
        return "" if ended.status in range(5) else f"join ended with status {ended.status}: {ended.cause()}"


def said_of(found: Found) -> str:
    """The files of a recording, as they stand beside its catalogue."""
    return json.dumps(found.files)


def join(words: Words) -> int:
    """Joins recordings of a folder to catalogues in another, again only those that changed. The status is 1 if one fails."""
    looked = folders.look(words.folder)
    folders.check_there(looked, words.folder)
    joined = Joined(words.into)
    joined.catalogues.make()
    part, parts = words.part
    asked = [found for place, found in enumerate(looked.recordings.values()) if place % parts == part % parts]
    changed = [found for found in asked if not found.fault and not joined.has(found)]
    if not changed:
        return 0
    workers = crew.Crew(words.jobs)
    reader = Reader(workers)
    status = 0
    with workers.each(lambda found: joined.make(reader, found), changed) as each:
        for found, done in each:
            try:
                fault = done.result()
            except OwnFault as own:
                fault = str(own)
            if fault:
                tell_own(printing.shown(f"{found.name}: {fault}"))
                status = 1
    return status
