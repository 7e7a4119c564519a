"""The command that puts recordings into the database by lines that were printed."""
from __future__ import annotations

from sqlite3 import Connection

from mxf.archive import database, storing
from mxf.archive.rows import Recording, recordings_of
from mxf.archive.words import Words
from mxf.faults import DATA, READ, OwnFault, tell_own
from mxf.lines import Line
from mxf.reading import LineFault, line_of


def load(words: Words) -> int:
    """Puts the recordings of files into the database, those of each file together or not at all. A file that can't be
    loaded is told, and the others are."""
    database.check_place(words.database)
    status, loaded, older = 0, 0, 0
    for path in words.file:
        try:
            recordings = list(recordings_of(lines_of(path), path))
            with database.writing(words.database, is_new=True) as connection:
                news = sum(store_news(connection, recording, path) for recording in recordings)
            loaded, older = loaded + news, older + len(recordings) - news
        except OwnFault as fault:
            if fault.status not in (DATA, READ):
                raise
            tell_own(str(fault))
            status = status or fault.status
    print(f"loaded {loaded}, passed over {older} that are no newer than what is there")
    return status


def store_news(connection: Connection, recording: Recording, path: str) -> bool:
    """Puts a recording of a file into the database, if it is news. Whether it is."""
    with storing.bad_values(f"bad lines: {path}: {recording.name}", DATA):
        is_news = storing.is_news(connection, recording)
        if is_news:
            storing.store(connection, recording)
    return is_news


def lines_of(path: str) -> list[Line]:
    """The lines of a file; - is standard input."""
    try:
        with open(0 if path == "-" else path, "rb", closefd=path != "-") as file:
            return [line_of(text) for text in file]
    except OSError as fault:
        raise OwnFault(READ, f"read fault: {path}: {fault.strerror}") from fault
    except LineFault as fault:
        raise OwnFault(DATA, f"bad lines: {path}: a line is no JSON of mxf_archive") from fault
