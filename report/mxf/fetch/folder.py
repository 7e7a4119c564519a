"""The folder of what came of a recording: a file OFFSET.range for each range, and fetched.json, which says of what."""
from __future__ import annotations

import contextlib
import fcntl
import json
import os
import re
import threading
from collections.abc import Iterator
from pathlib import Path
from typing import IO, Any, NamedTuple

from mxf.faults import OUTPUT, READ, USAGE, OwnFault
from mxf.fetch.recording import Identity, Recording
from mxf.fetch.spans import OPEN, Span

STATE = "fetched.json"
RANGE = re.compile(r"(0|[1-9][0-9]{0,18})\.range")


class Kind(NamedTuple):
    """Whether a folder stays after the call, and whether it takes ranges that were there before as those of its recording."""

    stays: bool
    adopts: bool


class Folder:
    """A folder that no other run has. The bytes of a range are written to its file in their order, so whatever ends a run
    leaves the front of a range. What is held is what the files have."""

    def __init__(self, path: Path, shown: str, begun: str, kind: Kind) -> None:
        self.path = path
        self.kind = kind
        self.recording = Recording(shown, begun)
        self.saved: Identity | None = None
        self.lock = threading.Lock()
        self.is_closed = False
        if "\n" in str(path) or not is_text(str(path)):
            raise OwnFault(USAGE, f"bad folder: {path}: mxf_tool takes no such path in a list")
        with self.faults_named():
            self.is_made = not path.exists()
            path.mkdir(parents=True, exist_ok=True)
            self.opened = os.open(path, os.O_RDONLY | os.O_DIRECTORY)
        try:
            fcntl.flock(self.opened, fcntl.LOCK_EX | fcntl.LOCK_NB)
        except BlockingIOError as fault:
            raise OwnFault(OUTPUT, f"write fault: {path}: another run of mxf_fetch has it") from fault
        except OSError:
            pass  # a file system that locks nothing
        self.load()

    @contextlib.contextmanager
    def faults_named(self) -> Iterator[None]:
        """Names a fault of writing into the folder."""
        try:
            yield
        except OSError as fault:
            raise OwnFault(OUTPUT, f"write fault: {fault.filename or self.path}: {fault.strerror}") from fault

    def load(self) -> None:
        """Takes what an earlier run has left. Of whom ranges are that nothing says of is known only to who handed them in: a
        folder adopts them where no answer would tell either."""
        path = self.path / STATE
        try:
            state = json.loads(path.read_bytes())
            where, identity = state["where"], Identity(state["size"], state["etag"], state["modified"])
        except FileNotFoundError:
            if self.files() and not self.kind.adopts:
                raise OwnFault(
                    USAGE, f"bad folder: {self.path}: it has ranges, and no {STATE} that says of what"
                ) from None
            return
        except OSError as fault:
            raise OwnFault(READ, f"read fault: {path}: {fault.strerror}") from fault
        except (ValueError, KeyError, TypeError) as fault:
            raise OwnFault(READ, f"read fault: {path}: it isn't as mxf_fetch writes it") from fault
        if where != self.recording.shown:
            raise OwnFault(USAGE, f"bad folder: {self.path}: it has ranges of {where}")
        self.recording.identity = self.saved = identity

    def know(self) -> None:
        """Writes what is known of the recording, if that isn't written yet. It stands there before the first of its bytes."""
        with self.open_lock():
            if self.saved != self.recording.identity:
                self.save()

    @contextlib.contextmanager
    def open_lock(self) -> Iterator[None]:
        """The folder isn't closed meanwhile. If it was, a request that goes on longer than its call makes no file any more."""
        with self.lock:
            if self.is_closed:
                raise KeyboardInterrupt
            yield

    def save(self) -> None:
        """Writes what is known of the recording and which ranges are held, beside and then in place."""
        size, etag, modified = self.recording.identity
        ranges = [{"start": span.start, "end": span.end} for span in self.held()]
        state = {"where": self.recording.shown, "size": size, "etag": etag, "modified": modified, "ranges": ranges}
        beside = self.path / f"{STATE}.part"
        with self.faults_named():
            with open(beside, "w", encoding="utf-8") as file:
                json.dump(state, file, indent=1)
                file.write("\n")
                self.secure(file)
            os.replace(beside, self.path / STATE)
        self.saved = Identity(size, etag, modified)

    def secure(self, file: IO[Any]) -> None:
        """Brings a file to the disk, if it is to be there later."""
        file.flush()
        if self.kind.stays:
            os.fsync(file.fileno())

    def files(self) -> dict[int, Path]:
        """The files of ranges, by the offset of their first byte."""
        with self.faults_named():
            names = [RANGE.fullmatch(name) for name in os.listdir(self.path)]
        return {
            int(name[1]): self.path / name[0] for name in sorted(filter(None, names), key=lambda name: int(name[1]))
        }

    def held(self) -> list[Span]:
        """The ranges that are there, in order."""
        with self.faults_named():
            spans = [Span(start, start + path.stat().st_size) for start, path in self.files().items()]
        return [span for span in spans if span.start < span.end <= OPEN]

    def sources(self) -> list[str]:
        """The ranges as sources of mxf_tool."""
        return [f"range:{span.start}:{self.path}/{span.start}.range" for span in self.held()]

    @contextlib.contextmanager
    def taking(self, start: int) -> Iterator[IO[bytes]]:
        """The file of a range that is to come, from this offset on. What came of it is there when it ends, however that is.
        One of which nothing came is none."""
        path = self.path / f"{start}.range"
        with self.faults_named():
            with self.open_lock():
                file = open(path, "ab")
            with file:
                try:
                    yield file
                finally:
                    self.secure(file)
                    if os.fstat(file.fileno()).st_size == 0:
                        path.unlink()

    def close(self) -> None:
        """Lets others have the folder. One that was made and has nothing goes."""
        with self.lock:
            self.is_closed = True
        os.close(self.opened)
        if self.is_made:
            with contextlib.suppress(OSError):
                self.path.rmdir()


def is_text(path: str) -> bool:
    """Whether a path is UTF-8."""
    try:
        path.encode()
    except UnicodeEncodeError:
        return False
    return True
