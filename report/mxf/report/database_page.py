"""The page of the recordings of a database."""
from __future__ import annotations

import base64
import collections
import functools
import hashlib
import os
import pathlib
import urllib.parse
from sqlite3 import Row
from typing import NamedTuple

from mxf.archive import answering, database
from mxf.archive.printing import number_or_none
from mxf.names import coded
from mxf.report import pages
from mxf.report.asked import Words
from mxf.report.bounds import RECORDINGS
from mxf.report.rows import Rows
from mxf.report.verdicts import OF_DATABASE, WHOLE, Verdict, first_of
from mxf.standing import is_lacking


class Kept(NamedTuple):
    """What a database has of a recording: its name; the name, length and first timecode of its main package; numbers of its
    last state; when it was last verified whole; whether it is damaged; how many packets differed when it was last verified,
    and whether bytes weren't verified then; whether something is in doubt; and whether the last scan didn't find it, or
    couldn't read it."""

    name: str
    title: str | None
    length: str | None
    timecode: str | None
    end: int | None
    missing: int
    orders: int
    findings: int
    disputes: int
    verified: str | None
    is_damaged: int
    differs: int
    is_partly_verified: int
    is_in_doubt: int
    is_gone: int
    is_unread: int

    def verdict(self) -> Verdict:
        """The recording in few words, one of OF_DATABASE."""
        is_short = is_lacking(self.missing, self.orders)
        holds = self.is_gone, self.is_unread, self.differs, self.is_damaged, self.disputes, is_short
        doubts = self.findings, self.is_in_doubt, self.end is None
        return first_of(OF_DATABASE, (*holds, self.is_partly_verified, *doubts))

    def there(self) -> int:
        """How many bytes are held or at hand, if the end of the recording is known."""
        return max(0, (self.end or 0) - self.missing)

    def share(self) -> float:
        """The share of the bytes that are held or at hand, in per cent."""
        return 100 * self.there() / (self.end or 1)


def kept_of(row: Row) -> Kept:
    """A recording by its row. A number that is large stands as text."""
    kept = Kept(*(row[name] for name in Kept._fields))
    missing, orders, findings, disputes = (int(row[name]) for name in ("missing", "orders", "findings", "disputes"))
    end = number_or_none(row["end"])
    return kept._replace(end=end, missing=missing, orders=orders, findings=findings, disputes=disputes)


def link_to(page: pathlib.Path, name: str) -> str | None:
    """The address of the page of a recording, if that lies beside the page of all, by the name of the recording or by the
    name that mxf_archive gives to the page that it makes."""
    names = [name] if "/" not in name and "\0" not in name else []
    paths = [page.parent / f"{one}.html" for one in (*names, coded(name))]
    path = next((path for path in paths if os.path.isfile(path) and path.resolve() != page.resolve()), None)
    if path is None:
        return None
    return urllib.parse.quote(os.fsencode("./" + os.path.relpath(path.resolve(), page.resolve().parent)))


def page_of_database(path: str, words: Words) -> str:
    """The page of many recordings, a row each, of a database. The worst verdicts come first."""
    with database.reading(path) as connection:
        recordings = [kept_of(row) for row in connection.execute(answering.OVERVIEW)]
    recordings.sort(key=lambda one: OF_DATABASE.index(one.verdict()))
    rows: Rows[Kept] = Rows(RECORDINGS)
    for one in recordings:
        rows.add(one)
    digest = base64.b64encode(hashlib.sha256(b"\n" + pages.source_of("page.js").encode()).digest()).decode()
    counts = collections.Counter(one.verdict() for one in recordings)
    return pages.page_of(
        "database.html", words.title or f"Recordings of {pathlib.Path(path).name}", recordings=rows, counts=counts.items(),
        frame="sound" if set(counts) == {WHOLE} else "doubt", digest=digest,
        link_to=functools.partial(link_to, pathlib.Path(os.path.realpath(words.out))),
    )  # fmt: skip
