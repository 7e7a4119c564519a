"""What the trials of mxf_archive with a folder of recordings share: calls, verdicts, and a folder with its database."""
from __future__ import annotations

import contextlib
import dataclasses
import html
import json
import os
import pathlib
import re
import sqlite3
import subprocess
from collections.abc import Callable, Iterable
from typing import Any

ROW = """SELECT r.name, s.findings > 0, EXISTS (SELECT 1 FROM stops p WHERE p.recording = r.id), s.orders, s.missing
FROM recordings r JOIN states s ON s.recording = r.id AND s.number = r.state ORDER BY r.name"""
WHOLE, PARTS = ("whole", 0, 0, 0, 0), ("parts", 1, 0, 2, 336)


@dataclasses.dataclass
class Ended:
    """A call that has ended: its status, what it printed, and what it said of faults."""

    status: int
    out: str
    err: str


class Trial:
    """What is tried, and how much of it was right."""

    def __init__(self, top: str, tool: str, work: str) -> None:
        self.top, self.tool, self.work = pathlib.Path(top), tool, pathlib.Path(work)
        self.m = (self.top / "tests/worked/M.bin").read_bytes()
        self.w = (self.top / "tests/worked/W.bin").read_bytes()
        self.long = (self.top / "examples/op1a_mpeg2_long_gop.mxf").read_bytes()
        self.intra = (self.top / "examples/op1a_mpeg2_intra.mxf").read_bytes()
        self.atom = (self.top / "examples/opatom_pcm.mxf").read_bytes()
        self.passed = self.failed = 0

    def verdict(self, name: str, is_right: bool, *said: object) -> None:
        """Counts what was tried as passed or failed."""
        self.passed, self.failed = self.passed + is_right, self.failed + (not is_right)
        if not is_right:
            print(f"FAILED: {name}", *said, sep="\n")

    def equal(self, name: str, found: object, wanted: object) -> None:
        """Counts it as passed if what is found is what is wanted."""
        self.verdict(name, found == wanted, f"found  {found!r}", f"wanted {wanted!r}")

    def run(
        self, words: Iterable[object], tool: str = "", before: Callable[[], None] | None = None, **more: Any
    ) -> Ended:
        """Calls a program, which asks mxf_tool or the stand-in that is named."""
        environment = {**os.environ, "MXF_TOOL": tool or self.tool, "TOOL": tool or self.tool}
        ended = subprocess.run(
            list(map(str, words)), capture_output=True, env=environment, preexec_fn=before, check=False, **more
        )
        return Ended(ended.returncode, ended.stdout.decode(), ended.stderr.decode())

    def archive(self, *words: object, **more: Any) -> Ended:
        """Calls mxf_archive."""
        return self.run([self.top / "report/mxf_archive", *words], **more)

    def asked(self, *words: object) -> str:
        """What mxf_tool prints."""
        return self.run([self.tool, *words]).out

    def stand_in(self, words: str, action: str) -> str:
        """A program that does this if it is called with these words first, and otherwise is mxf_tool."""
        path = self.work / "stand_in"
        path.write_text(f"#!/bin/bash\ncase \"$*\" in '{words}'*) {action} ;; esac\nexec '{self.tool}' \"$@\"\n")
        path.chmod(0o755)
        return str(path)


class Folder:
    """A folder of recordings with its database."""

    def __init__(self, trial: Trial, name: str) -> None:
        self.trial, self.root = trial, trial.work / name
        self.recordings, self.db = self.root / "recordings", self.root / "archive.db"
        self.catalogues = self.root / "archive.db.catalogues"
        self.recordings.mkdir(parents=True)

    def put(self, path: str, data: bytes) -> pathlib.Path:
        """Writes a file of a recording."""
        file = self.recordings / path
        file.parent.mkdir(parents=True, exist_ok=True)
        file.write_bytes(data)
        return file

    def scan(self, *words: object, **more: Any) -> Ended:
        """Scans the folder."""
        return self.trial.archive("scan", self.db, self.recordings, *words, **more)

    def sql(self, question: str, *values: object) -> list[tuple[Any, ...]]:
        """What the database answers."""
        with contextlib.closing(sqlite3.connect(self.db)) as connection:
            return connection.execute(question, values).fetchall()

    def rows(self, name: str, *wanted: tuple[object, ...]) -> None:
        """Scans, and compares whether `check` finds something, whether a piece is damaged, how many ranges are ordered and
        how many bytes are missing."""
        self.scan()
        self.trial.equal(name, self.sql(ROW), list(wanted))

    def orders(self) -> list[tuple[object, ...]]:
        """What is to be restored."""
        lines = map(json.loads, self.trial.archive("orders", self.db, "--json").out.splitlines())
        return [tuple(one[key] for key in ("recording", "start", "end", "reason", "file", "again")) for one in lines]

    def verify(self, *words: object) -> tuple[int, list[tuple[object, ...]], Ended]:
        """The status of verify, the rows that it prints of those that fail, and all."""
        ended = self.trial.archive("verify", self.db, *words, "--json")
        lines = [json.loads(line) for line in ended.out.splitlines() if line.startswith("{")]
        keys = ("recording", "packets", "all_packets", "bytes", "all_bytes", "differs", "cut", "unknown")
        return ended.status, [tuple(one[key] for key in keys) for one in lines], ended

    def kept(self, name: str) -> tuple[Any, ...]:
        """The counts of the last verification of a recording."""
        return self.sql("""SELECT packets, all_packets, bytes, all_bytes, differs, cut, unknown FROM verifications v
            JOIN recordings r ON r.id = v.recording WHERE r.name = ? ORDER BY number DESC LIMIT 1""", name)[0]  # fmt: skip

    def differs(self, name: str) -> list[tuple[Any, ...]]:
        """What differed then."""
        return self.sql(
            """SELECT what, start, "end" FROM differences d JOIN recordings r ON r.id = d.recording
            WHERE r.name = ? AND verification = (SELECT max(number) FROM verifications v WHERE v.recording = r.id)""",
            name,
        )

    def cat(self, name: str) -> bytes:
        """A catalogue."""
        return (self.catalogues / f"{name}.cat").read_bytes()

    def joined(self, *sources: object) -> bytes:
        """The catalogue that one call of mxf_tool makes."""
        out = self.root / "one.cat"
        out.unlink(missing_ok=True)
        self.trial.asked("join", "--out", out, *sources)
        return out.read_bytes()


def flipped(data: bytes, at: int) -> bytes:
    """Bytes of which one bit is another."""
    return data[:at] + bytes([data[at] ^ 1]) + data[at + 1 :]


def touch(path: pathlib.Path) -> None:
    """Gives a file another time."""
    found = path.stat()
    os.utime(path, ns=(found.st_atime_ns, found.st_mtime_ns + 1))


def said_in(pages: pathlib.Path) -> dict[str, str]:
    """The verdicts of the recordings on the page of all, by their names."""
    rows = re.findall("<tr>(.*?)</tr>", (pages / "index.html").read_text(), re.DOTALL)
    cells = [
        [re.sub("<[^>]*>", "", cell) for cell in re.findall("<td[^>]*>(.*?)</td>", row, re.DOTALL)] for row in rows
    ]
    return {html.unescape(row[0]): html.unescape(row[4]) for row in cells if row}
