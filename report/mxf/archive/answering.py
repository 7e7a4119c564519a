"""What is asked of the database: lists, all of one recording, and orders."""
from __future__ import annotations

from collections.abc import Sequence
from sqlite3 import Connection, Row
from typing import Any

from mxf import moments
from mxf.archive import scanned
from mxf.archive.printing import number_or_none, width_of
from mxf.faults import USAGE, OwnFault

# The columns of a list.
HEADS = (
    "recording", "name", "length", "timecode", "end", "missing", "orders", "findings", "disputes", "verified", "coding",
)  # fmt: skip

# How a line of a list is laid out between the name of the recording and its own name, and the time of its verification.
LAYOUT = "%-12s  %-11s  %13s  %13s  %6s  %8s  %8s"

# What a list has of recordings, by their last states.
ROW = """r.name, r.title, r.length, r.timecode, s."end", s.missing, s.orders, s.findings, s.disputes,
  nullif(r.verified, '') AS verified, r.coding"""
STATED = "recordings r JOIN states s ON s.recording = r.id AND s.number = r.state"
LISTED = f"SELECT {ROW} FROM {STATED} "

# The recordings of which something is in doubt. Doubts stand among the findings, by codes of their own.
DOUBTED = "SELECT recording FROM findings WHERE code >= 'G' AND code < 'H'"

# What is listed, by the option.
LISTS = {
    "all": "ORDER BY r.name",
    "missing": "WHERE r.is_missing = 1 ORDER BY r.name",
    "damaged": f"WHERE r.id IN (SELECT id FROM recordings WHERE is_damaged = 1 UNION {DOUBTED}) ORDER BY r.name",
    "disputed": "WHERE r.is_disputed = 1 ORDER BY r.name",
    "changed": "WHERE r.is_changed = 1 ORDER BY r.name",
    "unverified": "WHERE r.verified < :since ORDER BY r.verified, r.name",
}

# What a page of all recordings shows: the row of a list, whether each is damaged, how many packets differed when it was
# last verified, and whether bytes of its reference weren't verified then; whether something is in doubt; whether it is gone,
# or couldn't be read, by the last scan.
OVERVIEW = f"""
SELECT {ROW}, r.is_damaged,
  coalesce((SELECT v.differs FROM verifications v WHERE v.recording = r.id ORDER BY v.number DESC LIMIT 1), 0) AS differs,
  coalesce((SELECT v.bytes <> v.all_bytes FROM verifications v WHERE v.recording = r.id ORDER BY v.number DESC LIMIT 1), 0)
    AS is_partly_verified,
  r.id IN ({DOUBTED}) AS is_in_doubt,
  coalesce((SELECT c.is_gone FROM scanned c WHERE c.name = r.name), 0) AS is_gone,
  coalesce((SELECT c.status > 1 FROM scanned c WHERE c.name = r.name), 0) AS is_unread
FROM {STATED} ORDER BY r.name
"""

# What `show` prints of a recording, table by table.
SHOWN = {
    "recordings": """SELECT name, title, length, timecode, pattern, metadata, chain, is_missing, is_damaged, is_disputed,
        is_changed, nullif(verified, '') AS verified, container, coding, picture, sound FROM recordings WHERE id = ?""",
    "states": """SELECT number, gathered, program, is_skim, packets, "end", held, hand, missing, findings, disputes, orders,
        ordered, open FROM states WHERE recording = ? ORDER BY number""",
    "sources": """SELECT number, word, size, modified, sha256 FROM sources WHERE recording = ? ORDER BY number""",
    "stops": """SELECT source, "offset", stop, at FROM stops WHERE recording = ? ORDER BY number""",
    "programs": """SELECT company, product, version, modified FROM programs WHERE recording = ? ORDER BY number""",
    "packages": """SELECT number, kind, uid, name, created, body_sid, index_sid FROM packages WHERE recording = ?
        ORDER BY number""",
    "tracks": """SELECT package, track, kind, rate, origin, duration, length, name FROM tracks WHERE recording = ?
        ORDER BY number""",
    "clips": """SELECT package, track, start, duration, of_uid, of_track, of_position FROM clips WHERE recording = ?
        ORDER BY number""",
    "timecodes": """SELECT package, track, start, duration, at, base FROM timecodes WHERE recording = ? ORDER BY number""",
    "pictures": """SELECT package, track, rate, width, height, display_width, display_height, layout, aspect, depth, coding
        FROM pictures WHERE recording = ? ORDER BY number""",
    "sounds": """SELECT package, track, rate, channels, bits, coding FROM sounds WHERE recording = ? ORDER BY number""",
    "clocks": """SELECT index_sid, position, count, first, last, base, told_by FROM clocks WHERE recording = ?
        ORDER BY number""",
    "partitions": """SELECT "offset", part, status, this, previous, footer, header_bytes, index_bytes, index_sid,
        body_offset, body_sid, pattern, link FROM partitions WHERE recording = ? ORDER BY "offset" """,
    "indexes": """SELECT index_sid, units, held, hand, said FROM indexes WHERE recording = ? ORDER BY index_sid""",
    "findings": """SELECT code, "offset", text FROM findings WHERE recording = ? ORDER BY number""",
    "orders": """SELECT start, "end", length, reason, pack, is_inside, is_again FROM orders WHERE recording = ?
        ORDER BY number""",
    "disputes": """SELECT "offset", "end", kind, width, length, key, is_head FROM disputes WHERE recording = ?
        ORDER BY number""",
    "verifications": """SELECT number, verified, program, against, packets, all_packets, bytes, all_bytes, differs, cut,
        unknown FROM verifications WHERE recording = ? ORDER BY number""",
    "differences": """SELECT verification, what, source, start, "end", kind, key FROM differences WHERE recording = ?
        ORDER BY verification, number""",
}

# What of it a table says otherwise: a finding that stands at several offsets is one row.
TABLED = {
    "findings": """SELECT DISTINCT code, count(*) OVER alike AS times, first_value("offset") OVER alike AS first,
        last_value("offset") OVER alike AS last, text FROM findings WHERE recording = ?
        WINDOW alike AS (PARTITION BY code, text ORDER BY number ROWS BETWEEN UNBOUNDED PRECEDING AND UNBOUNDED FOLLOWING)
        ORDER BY code, text""",
}

ORDERS = """
SELECT r.name AS recording, o.start, o."end", o.reason, o.is_inside, o.is_again, c.files
FROM recordings r JOIN orders o ON o.recording = r.id LEFT JOIN scanned c ON c.name = r.name
WHERE r.is_missing = 1 AND coalesce(c.is_gone, 0) = 0 ORDER BY r.name
"""

Rows = list[tuple[Any, ...]]
Answer = tuple[list[str], Rows]


def answer_of(connection: Connection, question: str, values: Sequence[object] | dict[str, str] = ()) -> Answer:
    """The heads and the rows that a question answers."""
    cursor = connection.cursor()
    cursor.row_factory = None
    rows = cursor.execute(question, values).fetchall()
    return [column[0] for column in cursor.description], rows


def listed(connection: Connection, what: str, days: int | None) -> Rows:
    """The rows of a list. Those that weren't verified for so many days go by the time of their last verification."""
    return answer_of(connection, LISTED + LISTS[what], {} if days is None else {"since": before(days)})[1]


def layout_of(rows: Rows) -> str:
    """How a list is laid out: the two names and the time of a verification are as wide as the widest that has room."""
    name, title, verified = (
        width_of(HEADS[place], (row[place] for row in rows)) for place in (0, 1, HEADS.index("verified"))
    )
    return f"%-{name}s  %-{title}s  {LAYOUT}  %-{verified}s  %s"


def before(days: int) -> str:
    """The time so many days ago. A recording that was never verified goes before all times."""
    return moments.text_of(moments.now() - days * moments.DAY) or "0"


def shown(connection: Connection, identity: int, form: str) -> list[tuple[str, list[str], Rows]]:
    """All of a recording: each table that has something of it, for this form of an answer."""
    questions = {**SHOWN, **TABLED} if form == "table" else SHOWN
    parts = [(table, *answer_of(connection, question, (identity,))) for table, question in questions.items()]
    return [part for part in parts if part[2]]


def identity_of(connection: Connection, name: str) -> int:
    """The number of a recording, which has to be there."""
    row = connection.execute("SELECT id FROM recordings WHERE name = ?", (name,)).fetchone()
    if row is None:
        raise OwnFault(USAGE, f"no recording: {name}")
    identity: int = row["id"]
    return identity


class Stretch:
    """Orders of a recording that are restored as one: from where to where, why, the form of source that takes what comes, and
    whether some of it was handed in and doesn't do."""

    def __init__(self, row: Row) -> None:
        self.recording, self.start, self.end = row["recording"], int(row["start"]), number_or_none(row["end"])
        self.reasons = {row["reason"]: None}
        self.form = "range" if row["is_inside"] else "at"
        self.is_again = bool(row["is_again"])
        self.files = row["files"]

    def takes(self, order: Stretch, apart: int) -> bool:
        """Whether an order that doesn't begin ahead of it touches it, or lies less than so many bytes apart."""
        return self.recording == order.recording and (self.end is None or order.start - self.end < max(apart, 1))

    def add(self, order: Stretch) -> None:
        """Restores an order with it."""
        self.end = None if self.end is None or order.end is None else max(self.end, order.end)
        self.reasons.update(order.reasons)
        self.is_again = self.is_again or order.is_again

    def file(self) -> str:
        """The name under which the folder of the recording takes what comes."""
        return f"{self.start}.{'range' if self.form == 'range' else 'piece'}"

    def row(self) -> tuple[Any, ...]:
        """The row that is printed. A file that is there is never named: its bytes or its OFFSET may be wrong."""
        length = None if self.end is None else self.end - self.start
        is_taken = self.files is not None and self.file() in scanned.names_in(self.files)
        file, again = None if is_taken else self.file(), "again" if self.is_again else None
        return self.recording, self.start, self.end, length, ",".join(self.reasons), self.form, file, again


def ordered(connection: Connection, by: str, apart: int) -> Answer:
    """All orders, of which those of one recording are one that touch or lie less than so many bytes apart. A recording that
    was scanned and is gone has none."""
    stretches: list[Stretch] = []
    for order in sorted(map(Stretch, connection.execute(ORDERS)), key=lambda one: (one.recording, one.start)):
        if stretches and stretches[-1].takes(order, apart):
            stretches[-1].add(order)
        else:
            stretches.append(order)
    if by == "offset":
        stretches.sort(key=lambda one: (one.start, one.recording))
    heads = ["recording", "start", "end", "length", "reason", "form", "file", "again"]
    return heads, [one.row() for one in stretches]
