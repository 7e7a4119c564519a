"""The schema of the database, and how one of an earlier version comes to it. docs/ARCHIVE.md says what each table is."""
from __future__ import annotations

import pathlib
import sqlite3
from collections.abc import Iterator

APPLICATION = 0x4D584641  # `MXFA`, the application_id of the file's header
VERSION = 3  # the user_version
SQLITE = (3, 37, 0)  # the least version that knows STRICT tables

# What is replaced if a recording is added again.
REPLACED = (
    "sources", "stops", "programs", "packages", "tracks", "clips", "timecodes", "pictures", "sounds", "clocks", "hours",
    "partitions", "indexes", "findings", "orders", "disputes", "identifiers", "texts",
)  # fmt: skip

# What a database of version 2 has beside one of version 1: finished lines of lists.
LISTED = """
DROP INDEX recordings_listed;
DROP INDEX recordings_verified;
DROP INDEX recordings_name_length;
DROP INDEX recordings_title_length;
ALTER TABLE recordings DROP COLUMN listed;
ALTER TABLE recordings DROP COLUMN listed_csv;
ALTER TABLE recordings DROP COLUMN listed_json;
CREATE INDEX recordings_verified ON recordings (verified, name);
"""

# What both have otherwise, before the parts of FILES that they lack are made; and what comes after them.
OTHERWISE = """
DROP VIEW damaged;
DROP VIEW named;
DROP TABLE words;
ALTER TABLE states ADD COLUMN digest TEXT;
ALTER TABLE recordings ADD COLUMN container TEXT;
ALTER TABLE recordings ADD COLUMN coding TEXT;
ALTER TABLE recordings ADD COLUMN picture TEXT;
ALTER TABLE recordings ADD COLUMN sound TEXT;
"""
REBUILT = "INSERT INTO words (words) VALUES ('rebuild');"

FILES = ("schema.sql", "damaged.sql", "words.sql", "scanned.sql")


def part(name: str) -> str:
    """A part of the schema."""
    return (pathlib.Path(__file__).parent / name).read_text(encoding="utf-8")


def steps_from(version: int) -> Iterator[str]:
    """The statements that bring a database of a version to the last one; from 0 on they make it."""
    lacking = FILES if version == 0 else FILES[1:]
    before = {0: "", 1: OTHERWISE, 2: LISTED + OTHERWISE}[version]
    statement = ""
    for line in (before + "".join(map(part, lacking)) + (REBUILT if version else "")).splitlines():
        statement += f"{line}\n"
        if sqlite3.complete_statement(statement):
            yield statement.strip()
            statement = ""
