"""What is written to the database: recordings, and what comes of verifying them."""
from __future__ import annotations

import contextlib
import functools
import sqlite3
from collections.abc import Iterator
from sqlite3 import Connection

from mxf import moments
from mxf.archive import schema
from mxf.archive.answering import identity_of
from mxf.archive.rows import Recording, Row, number_of
from mxf.faults import OwnFault
from mxf.lines import Line, PacketLine
from mxf.reading import checked, end_of_packet
from mxf.standing import UNREADABLE

# The counts of a state by which it is said to have changed.
COUNTS = ("packets", "held", "missing", "findings", "disputes", "orders")


@contextlib.contextmanager
def bad_values(what: str, status: int) -> Iterator[None]:
    """Says a value that the tables don't take as a fault of this status."""
    try:
        yield
    except (
        sqlite3.IntegrityError,
        sqlite3.InterfaceError,
        sqlite3.ProgrammingError,
        ValueError,
        OverflowError,
    ) as fault:
        raise OwnFault(status, f"{what}: {fault}") from fault


def insert(connection: Connection, table: str, recording: int, rows: list[Row]) -> None:
    """Adds rows of a recording to a table."""
    if rows:
        names = tuple(rows[0])
        values = [(recording, *map(row.__getitem__, names)) for row in rows]
        connection.executemany(insertion(table, ("recording", *names)), values)


@functools.lru_cache(maxsize=None)
def insertion(table: str, names: tuple[str, ...]) -> str:
    """The statement that adds a row with these columns to a table."""
    columns = ", ".join(f'"{name}"' for name in names)
    return f"INSERT INTO {table} ({columns}) VALUES ({', '.join('?' * len(names))})"


def is_known(connection: Connection, name: str) -> int | None:
    """The number of a recording, if the database has one of this name."""
    found = connection.execute("SELECT id FROM recordings WHERE name = ?", (name,)).fetchone()
    return found["id"] if found else None


def is_news(connection: Connection, recording: Recording) -> bool:
    """Whether a recording is newer than what the database has of its name, or was gathered at the same time and is none of
    the states of that time. A state that was kept by an earlier version has no digest, and is known by its counts."""
    question = "SELECT s.* FROM states s JOIN recordings r ON r.id = s.recording WHERE r.name = ? ORDER BY s.number"
    states = connection.execute(question, (recording.name,)).fetchall()
    gathered = moments.fine(recording.state["gathered"])
    last = moments.fine(states[-1]["gathered"]) if states else ""
    known = [state for state in states if moments.fine(state["gathered"]) == gathered]
    return gathered > last or gathered == last and not any(is_state(state, recording.state) for state in known)


def is_state(kept: sqlite3.Row, state: Row) -> bool:
    """Whether a state is one that is kept."""
    names = COUNTS if kept["digest"] is None else ("digest",)
    return all(kept[name] == state[name] for name in names)


def store(connection: Connection, recording: Recording) -> bool:
    """Puts a recording into the database, in the place of the one of its name. Whether there was one."""
    known = is_known(connection, recording.name)
    if known is None:
        connection.execute(
            "INSERT INTO recordings (name, state, is_missing, is_damaged, is_disputed, is_changed, verified)"
            " VALUES (?, 0, 0, 0, 0, 0, '')", (recording.name,)
        )  # fmt: skip
    identity = identity_of(connection, recording.name)
    if known is not None:
        for table in schema.REPLACED:
            connection.execute(f"DELETE FROM {table} WHERE recording = ?", (identity,))
    for table, rows in recording.rows.items():
        insert(connection, table, identity, rows)
    texts = [(identity, what, text) for what, text in recording.texts]
    connection.executemany("INSERT INTO texts (recording, what, text) VALUES (?, ?, ?)", texts)
    number = connection.execute(
        "SELECT coalesce(max(number), 0) + 1 FROM states WHERE recording = ?", (identity,)
    ).fetchone()[0]
    insert(connection, "states", identity, [{"number": number, **recording.state}])
    facts = {**recording.facts, "state": number}
    changes = ", ".join(f"{name} = :{name}" for name in facts)
    connection.execute(f"UPDATE recordings SET {changes} WHERE id = :id", {**facts, "id": identity})
    settle(connection, identity)
    return known is not None


def settle(connection: Connection, identity: int) -> None:
    """Sets what follows of a recording from its states and its verifications: whether its counts are others than on the
    first day, when it was last found whole as its reference says, and whether it is damaged."""
    differs = " OR ".join(f"a.{name} IS NOT z.{name}" for name in COUNTS)
    codes = ", ".join(f"'{code}'" for code in UNREADABLE)
    last = "(SELECT max(number) FROM verifications WHERE recording = :id)"
    connection.execute(
        f"""UPDATE recordings SET
          is_changed = (SELECT {differs} FROM states a, states z WHERE a.recording = :id AND z.recording = :id
            AND a.number = 1 AND z.number = recordings.state),
          verified = (SELECT coalesce(max(verified), '') FROM verifications
            WHERE recording = :id AND differs = 0 AND bytes = all_bytes),
          is_damaged = EXISTS (SELECT 1 FROM stops WHERE recording = :id)
            OR EXISTS (SELECT 1 FROM findings WHERE recording = :id AND code IN ({codes}))
            OR EXISTS (SELECT 1 FROM verifications WHERE recording = :id AND number = {last} AND differs > 0)
          WHERE id = :id""", {"id": identity}
    )  # fmt: skip


def store_verification(
    connection: Connection, identity: int, told: dict[str, str], lines: list[Line], words: list[str]
) -> None:  # fmt: skip
    """Adds what `verify` says: when and against what, its counts, and what differs. Its sources stand with their words."""
    number = connection.execute(
        "SELECT coalesce(max(number), 0) + 1 FROM verifications WHERE recording = ?", (identity,)
    ).fetchone()[0]
    total = next(line for line in lines if line["line"] == "verified")
    names = ("packets", "all-packets", "bytes", "all-bytes", "differs", "cut", "unknown")
    counts = {name.replace("-", "_"): number_of(total[name]) for name in names}
    insert(
        connection,
        "verifications",
        identity,
        [{"number": number, "verified": moments.text_of(moments.now()), **told, **counts}],
    )
    differing = [line for line in lines if line["line"] in ("differs", "cut", "unknown", "unverified")]
    rows = [difference_of(line, words) for line in differing]
    numbered = [{"verification": number, "number": place, **row} for place, row in enumerate(rows, 1)]
    insert(connection, "differences", identity, numbered)
    settle(connection, identity)


def difference_of(line: Line, words: list[str]) -> Row:
    """What differs, is cut, unknown or unverified, as a row: from where to where its bytes go."""
    row = {"what": line["line"], "source": words[line["source"] - 1] if "source" in line else None}
    if "start" in line:
        return {**row, "start": line["start"], "end": line["end"], "kind": None, "key": None}
    end = end_of_packet(checked(line, PacketLine))
    return {**row, "start": line["offset"], "end": end, "kind": line["kind"], "key": line["key"]}
