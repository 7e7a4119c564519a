"""Where a recording may lie: behind a command that restores, or in a file. Behind HTTP it lies by `web`."""
from __future__ import annotations

import contextlib
import os
import signal
import stat
import subprocess
import threading
from collections.abc import Generator, Iterator
from typing import IO, Protocol

from mxf.faults import READ, OwnFault
from mxf.fetch.recording import Identity, Recording
from mxf.fetch.spans import OPEN, Span

BLOCK = 65536  # bytes of an answer that are in memory


class Place(Protocol):
    """What gives ranges of a recording."""

    def blocks(self, span: Span, recording: Recording) -> Generator[bytes, None, None]:
        """The bytes of a span one after another, fewer if the recording ends before the span does. What the place says of
        the recording is met before its first byte is given."""

    def stop(self) -> None:
        """Ends what is under way."""


def read_blocks(file: IO[bytes], length: int) -> Iterator[bytes]:
    """The next bytes of a file, so many at most."""
    left = length
    while left:
        block = file.read(min(BLOCK, left))
        if not block:
            return
        left -= len(block)
        yield block


class CommandPlace:
    """A command, called with the first byte and the end, or - in place of the end, which prints the bytes."""

    def __init__(self, command: str) -> None:
        self.command = command
        self.running: set[subprocess.Popen[bytes]] = set()
        self.lock = threading.Lock()
        self.is_stopped = False

    def blocks(self, span: Span, recording: Recording) -> Generator[bytes, None, None]:
        """The bytes that the command prints, up to the end of the span. One that prints fewer says where the recording ends,
        and so does one that has nothing behind a byte. One that fails says nothing."""
        end = "-" if span.end == OPEN else str(span.end)
        process = self.begun([str(span.start), end])
        printed, left = process.stdout, span.length
        assert printed is not None  # it is a pipe
        try:
            for block in read_blocks(printed, span.length):
                left -= len(block)
                yield block
        except BaseException:
            end_group(process)
            raise
        finally:
            self.end(process, printed)
        if process.returncode and left:
            told = f"{self.command} {span.start} {end} ended with status {process.returncode}"
            raise OwnFault(READ, f"read fault: {recording.shown}: {told}")
        if left and (left < span.length or (span.start and span.end == OPEN)):
            recording.meet(Identity(size=span.end - left))

    def begun(self, words: list[str]) -> subprocess.Popen[bytes]:
        """Starts the command, which the shell reads, with these words behind its own."""
        called = ["/bin/sh", "-c", f'{self.command} "$@"', "mxf_fetch", *words]
        with self.lock:
            if self.is_stopped:
                raise KeyboardInterrupt
            process = subprocess.Popen(called, stdin=subprocess.DEVNULL, stdout=subprocess.PIPE, start_new_session=True)
            self.running.add(process)
            return process

    def end(self, process: subprocess.Popen[bytes], printed: IO[bytes]) -> None:
        """Waits for a command. What it prints behind the end of the span nobody reads."""
        printed.close()
        process.wait()
        with self.lock:
            self.running.discard(process)

    def stop(self) -> None:
        """Ends the commands that run."""
        with self.lock:
            self.is_stopped = True
            for process in self.running:
                end_group(process)


def end_group(process: subprocess.Popen[bytes]) -> None:
    """Ends a command and what it has started."""
    with contextlib.suppress(ProcessLookupError):
        os.killpg(process.pid, signal.SIGTERM)


class PathPlace:
    """A file, or a device, read at its offsets."""

    def __init__(self, path: str) -> None:
        self.path = path

    def blocks(self, span: Span, recording: Recording) -> Generator[bytes, None, None]:
        """The bytes that lie there."""
        try:
            with open(self.path, "rb", buffering=0) as file:
                found = os.fstat(file.fileno())
                if not (stat.S_ISREG(found.st_mode) or stat.S_ISBLK(found.st_mode)):
                    raise OwnFault(READ, f"read fault: {self.path}: it is no file")
                recording.meet(Identity(size=file.seek(0, os.SEEK_END), modified=str(found.st_mtime_ns)))
                file.seek(span.start)
                yield from read_blocks(file, span.length)
        except OSError as fault:
            raise OwnFault(READ, f"read fault: {self.path}: {fault.strerror}") from fault

    def stop(self) -> None:
        """Nothing of it goes on by itself."""
