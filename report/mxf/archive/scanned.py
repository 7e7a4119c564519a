"""What the database has of the folders of recordings that were scanned."""
from __future__ import annotations

import json
from collections.abc import Iterable
from sqlite3 import Connection
from typing import NamedTuple

from mxf.archive import folders

UNREAD = 1000  # the status of a recording of which a call failed otherwise than by its pieces and catalogues


class Scanned(NamedTuple):
    """A recording as it was scanned: its folder, its files as JSON, the status of its join, and whether it is gone."""

    name: str
    folder: str
    files: str
    status: int
    is_gone: bool

    def found(self) -> folders.Found:
        """The recording as a folder holds it."""
        return folders.Found(self.name, self.folder, [folders.File(*file) for file in json.loads(self.files)])

    def is_joined(self) -> bool:
        """Whether its last join brought a catalogue, and its lines were kept."""
        return self.status <= 1


def names_in(files: str) -> set[str]:
    """The names of files that are pieces, ranges or catalogues in the folder of a recording."""
    return {folders.File(*file).path.partition("/")[2] for file in json.loads(files)}


def scanned_of(found: folders.Found, status: int) -> Scanned:
    """What is kept of a recording that a folder holds."""
    return Scanned(found.name, found.folder, json.dumps(found.files, ensure_ascii=False), status, False)


def all_of(connection: Connection) -> dict[str, Scanned]:
    """All that were scanned, by their names."""
    rows = connection.execute("SELECT name, folder, files, status, is_gone FROM scanned ORDER BY name")
    return {row[0]: Scanned(row[0], row[1], row[2], row[3], bool(row[4])) for row in rows}


def keep(connection: Connection, one: Scanned) -> None:
    """Keeps what was scanned of a recording."""
    connection.execute("INSERT OR REPLACE INTO scanned VALUES (?, ?, ?, ?, ?)", (*one[:4], int(one.is_gone)))


def mark_gone(connection: Connection, names: Iterable[str]) -> None:
    """Says of these that they are gone."""
    connection.executemany("UPDATE scanned SET is_gone = 1 WHERE name = ?", [(name,) for name in names])


def forget(connection: Connection, name: str) -> None:
    """Removes what is kept of a recording that was scanned."""
    connection.execute("DELETE FROM scanned WHERE name = ?", (name,))


def rename(connection: Connection, old: str, new: str) -> None:
    """Gives a recording that was scanned another name, by which its files are looked for from then on."""
    one = all_of(connection).get(old)
    if one is not None:
        found = one.found()
        files = [file._replace(path=renamed(file.path, old, new)) for file in found.files]
        forget(connection, old)
        keep(connection, scanned_of(folders.Found(new, one.folder, files), one.status)._replace(is_gone=one.is_gone))


def renamed(path: str, old: str, new: str) -> str:
    """The path of a file of a recording that has another name: that of its folder, or of the file."""
    return new + path[len(old) :]
