"""The database file: opening it, its version, waiting for other writers, and transactions."""
from __future__ import annotations

import contextlib
import os
import pathlib
import sqlite3
import time
from collections.abc import Iterator
from sqlite3 import Connection, Row

from mxf.archive import essence, schema
from mxf.faults import DATA, NO_PROGRAM, READ, UNWRITTEN, OwnFault, tell_own

PATIENCE = 1  # seconds after which it is said that another writer is waited for
LONGEST = 600  # seconds that are waited at most


def check_library() -> None:
    """Sees that the library of SQLite knows what the schema needs."""
    if sqlite3.sqlite_version_info < schema.SQLITE:
        least = ".".join(str(part) for part in schema.SQLITE[:2])
        raise OwnFault(NO_PROGRAM, f"SQLite {least} is needed, and this Python has {sqlite3.sqlite_version}")
    with contextlib.closing(sqlite3.connect(":memory:")) as connection:
        if not connection.execute("SELECT sqlite_compileoption_used('ENABLE_FTS5')").fetchone()[0]:
            raise OwnFault(NO_PROGRAM, "SQLite with FTS5 is needed, and this Python has one without")


def address_of(path: str, mode: str) -> str:
    """The address of a database file, opened in this mode."""
    return f"{pathlib.PurePath(os.path.abspath(path)).as_uri()}?mode={mode}"


def is_locked(fault: sqlite3.Error) -> bool:
    """Whether another program holds the database."""
    return "locked" in str(fault)


@contextlib.contextmanager
def faults_of(path: str, status: int) -> Iterator[None]:
    """Says a fault of SQLite as one of this program: of reading or of writing the database, by the status."""
    try:
        yield
    except sqlite3.DatabaseError as fault:
        if "not a database" in str(fault) or "malformed" in str(fault):
            raise OwnFault(DATA, f"bad database: {path}: {fault}") from fault
        words = "write fault" if status == UNWRITTEN else "read fault"
        raise OwnFault(status, f"{words}: {path}: {fault}") from fault


@contextlib.contextmanager
def one_state(connection: Connection) -> Iterator[None]:
    """All answers are of one state of the database, also outside a transaction."""
    if connection.in_transaction:
        yield
        return
    connection.execute("BEGIN")
    try:
        yield
    finally:
        connection.execute("ROLLBACK")


def version_of(connection: Connection, path: str) -> int:
    """The version of the schema; 0 of a file that has nothing. Any other is none of this program's."""
    # Another program may be making the tables.
    with one_state(connection):
        application = connection.execute("PRAGMA application_id").fetchone()[0]
        version: int = connection.execute("PRAGMA user_version").fetchone()[0]
        is_ours = application == schema.APPLICATION and version > 0
        is_empty = not (
            is_ours or application or version or connection.execute("SELECT count(*) FROM sqlite_master").fetchone()[0]
        )
    if is_ours and version > schema.VERSION:
        said = f"it is of version {version}, and this program knows version {schema.VERSION}"
        raise OwnFault(DATA, f"bad database: {path}: {said}")
    if not is_ours and not is_empty:
        raise OwnFault(DATA, f"bad database: {path}: it isn't one of mxf_archive")
    return version if is_ours else 0


@contextlib.contextmanager
def reading(path: str) -> Iterator[Connection]:
    """The database, to be asked: all answers are of one state of it. It is written to only to make up for a writer that was
    killed. Of one of an earlier version a copy in memory is asked."""
    check_library()
    if not os.path.exists(path):
        raise OwnFault(READ, f"read fault: {path}: No such file or directory")
    with faults_of(path, READ), contextlib.ExitStack() as opened:
        mode = "rw" if os.access(path, os.W_OK) else "ro"
        connection = sqlite3.connect(address_of(path, mode), uri=True, isolation_level=None, timeout=LONGEST)
        opened.enter_context(contextlib.closing(connection))
        version = version_of(connection, path)
        if version == 0:
            raise OwnFault(DATA, f"bad database: {path}: it isn't one of mxf_archive")
        if version < schema.VERSION:
            former, connection = connection, sqlite3.connect(":memory:", isolation_level=None)
            opened.enter_context(contextlib.closing(connection))
            former.backup(connection)
            # A writer may have taken the steps meanwhile.
            take_steps(connection, version_of(connection, path))
        connection.row_factory = Row
        connection.execute("PRAGMA query_only = ON")
        connection.execute("BEGIN")
        yield connection


def check_place(path: str) -> None:
    """Sees that a database can be written there, before a recording is asked for, which may take an hour."""
    check_library()
    folder = os.path.dirname(os.path.abspath(path))
    is_there = os.path.exists(path)
    if not is_there and not os.path.isdir(folder):
        raise OwnFault(UNWRITTEN, f"write fault: {path}: No such file or directory")
    if is_there and os.path.getsize(path):
        with faults_of(path, UNWRITTEN), contextlib.closing(
            sqlite3.connect(address_of(path, "ro"), uri=True)
        ) as connection:
            version_of(connection, path)
    if not os.access(path if is_there else folder, os.W_OK):
        raise OwnFault(UNWRITTEN, f"write fault: {path}: Permission denied")


class Waiting:
    """A writer that waits for others, and says so once."""

    def __init__(self, path: str) -> None:
        self.path = path
        self.begun = time.monotonic()
        self.is_told = False

    def until(self, connection: Connection, statement: str) -> None:
        """Runs a statement as soon as no other program holds the database."""
        while True:
            connection.execute(f"PRAGMA busy_timeout = {1000 * PATIENCE}")
            try:
                connection.execute(statement)
                return
            except sqlite3.OperationalError as fault:
                waited = time.monotonic() - self.begun
                if not is_locked(fault) or waited > LONGEST:
                    raise
                if waited > PATIENCE and not self.is_told:
                    tell_own(f"{self.path}: another program writes to it, and is waited for")
                    self.is_told = True
                time.sleep(0.02)


class Writer:
    """A database that is open to be written to."""

    def __init__(self, path: str, connection: Connection) -> None:
        self.path, self.connection = path, connection

    @contextlib.contextmanager
    def transaction(self) -> Iterator[Connection]:
        """A transaction that writes to the database, all or nothing."""
        with faults_of(self.path, UNWRITTEN):
            Waiting(self.path).until(self.connection, "BEGIN IMMEDIATE")
            try:
                take_steps(self.connection, version_of(self.connection, self.path))
                yield self.connection
                self.connection.execute("COMMIT")
            except BaseException:
                if self.connection.in_transaction:
                    self.connection.execute("ROLLBACK")
                raise


@contextlib.contextmanager
def writer(path: str, is_new: bool = False) -> Iterator[Writer]:
    """A database that several transactions may write to. If it may be new, it is made."""
    check_library()
    if not is_new and not os.path.exists(path):
        raise OwnFault(READ, f"read fault: {path}: No such file or directory")
    with contextlib.ExitStack() as opened:
        with faults_of(path, UNWRITTEN):
            mode = "rwc" if is_new else "rw"
            connection = sqlite3.connect(address_of(path, mode), uri=True, isolation_level=None)
            opened.enter_context(contextlib.closing(connection))
            connection.row_factory = Row
            if version_of(connection, path) == 0:
                Waiting(path).until(connection, "PRAGMA journal_mode = WAL")
            connection.execute("PRAGMA synchronous = FULL")
            connection.execute("PRAGMA foreign_keys = ON")
        yield Writer(path, connection)


@contextlib.contextmanager
def writing(path: str, is_new: bool = False) -> Iterator[Connection]:
    """A transaction that writes to the database, all or nothing. If that may be new, it is made."""
    with writer(path, is_new) as opened, opened.transaction() as connection:
        yield connection


def take_steps(connection: Connection, version: int) -> None:
    """Brings the tables from a version of the schema to the last one; from 0 on they are made."""
    if version == schema.VERSION:
        return
    for statement in schema.steps_from(version):
        connection.execute(statement)
    if version:
        essence.fill(connection)
    connection.execute(f"PRAGMA application_id = {schema.APPLICATION}")
    connection.execute(f"PRAGMA user_version = {schema.VERSION}")
