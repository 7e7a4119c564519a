"""The commands that take a recording out of the database, or give it another name."""
from __future__ import annotations

from sqlite3 import Connection

from mxf.archive import answering, database, printing, scanned, storing
from mxf.archive.catalogues import Catalogues
from mxf.archive.words import Words
from mxf.faults import USAGE, OwnFault


def rename_row(connection: Connection, old: str, new: str) -> None:
    """Gives a recording another name, under which its history and its verifications are kept. One of this name stays."""
    scanned.rename(connection, old, new)
    known = storing.is_known(connection, old)
    if known is None or storing.is_known(connection, new) is not None:
        return
    connection.execute("UPDATE recordings SET name = ? WHERE id = ?", (new, known))
    connection.execute("UPDATE texts SET text = ? WHERE recording = ? AND what = 'recording'", (new, known))


def check_known(connection: Connection, name: str) -> None:
    """Sees that a recording is there, or was scanned and couldn't be read."""
    if name not in scanned.all_of(connection):
        answering.identity_of(connection, name)


def remove(words: Words) -> int:
    """Takes recordings out of the database, all of them or none, and removes their catalogues."""
    catalogues = Catalogues.beside(words.database)
    with database.reading(words.database) as connection:
        for name in words.names:
            check_known(connection, name)
    database.check_place(words.database)
    with catalogues.held():
        with database.writing(words.database) as connection:
            for name in words.names:
                check_known(connection, name)
                connection.execute("DELETE FROM recordings WHERE name = ?", (name,))
                scanned.forget(connection, name)
        for name in words.names:
            catalogues.remove(name)
            print("removed", printing.cell(name))
    return 0


def rename(words: Words) -> int:
    """Gives a recording another name, with its catalogues. One that is there is never replaced."""
    catalogues = Catalogues.beside(words.database)
    with database.reading(words.database) as connection:
        check_names(connection, words.old, words.new)
    database.check_place(words.database)
    with catalogues.held():
        with database.writing(words.database) as connection:
            check_names(connection, words.old, words.new)
            catalogues.rename(words.old, words.new)
            rename_row(connection, words.old, words.new)
            rename_catalogue(connection, words.new, catalogues.of(words.old), catalogues.of(words.new))
        catalogues.remove(words.old)
    print(printing.cell(words.new), "is", printing.cell(words.old))
    return 0


def check_names(connection: Connection, old: str, new: str) -> None:
    """Sees that a recording can have another name."""
    check_known(connection, old)
    if new in scanned.all_of(connection) or storing.is_known(connection, new) is not None:
        raise OwnFault(USAGE, f"a recording has this name: {new}")


def rename_catalogue(connection: Connection, name: str, former: str, path: str) -> None:
    """Names the catalogue that is asked in place of the sources of a recording, by its path now."""
    known = storing.is_known(connection, name)
    connection.execute(
        "UPDATE sources SET path = ?, word = ? WHERE recording = ? AND number = 0 AND path = ?",
        (path, f"cat:{path}", known, former),
    )
