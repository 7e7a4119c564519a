"""How a program runs: its standard streams, the signals that end it, and its status."""
from __future__ import annotations

import contextlib
import errno
import io
import os
import shutil
import signal
import sys
import tempfile
from collections.abc import Callable, Iterator
from types import FrameType

from mxf.faults import OUTPUT, OwnFault, ToolFault, tell, tell_own

SIGNALS = (signal.SIGHUP, signal.SIGINT, signal.SIGTERM)  # that end this program


class Ending:
    """What signals do that end this process. While they are held back, the last that came waits. Only handlers of Python wait:
    in a process of several threads any thread takes a signal, whatever the main one blocks."""

    def __init__(self) -> None:
        self.blocks, self.come = 0, 0

    def handle(self, number: int, _: FrameType | None = None) -> None:
        """Ends the main thread by a signal, or has the signal wait."""
        if self.blocks:
            self.come = number
            return
        self.come = 0
        raise KeyboardInterrupt() if number == signal.SIGINT else SystemExit(128 + number)

    def release(self) -> None:
        """Ends the main thread by the signal that waits, if one does."""
        if self.come:
            self.handle(self.come)


ENDING = Ending()

# The temporary folders that this process has made and not removed.
FOLDERS: set[str] = set()


def open_streams() -> None:
    """Puts the null device where a standard stream is closed, so that no file that is opened takes its place. Nothing can be
    answered without standard output."""
    is_closed = sys.stdout is None
    for stream in (sys.stdin, sys.stdout, sys.stderr):
        if stream is None:
            os.open(os.devnull, os.O_RDWR)
    sys.stderr = sys.stderr or open(2, "w", encoding="utf-8", closefd=False)
    if is_closed:
        raise OSError(errno.EBADF, os.strerror(errno.EBADF))
    if isinstance(sys.stdout, io.TextIOWrapper):
        sys.stdout.reconfigure(encoding="utf-8", newline="", write_through=False)


def end_by_signals() -> None:
    """Lets a signal that ends this program end its calls too, and remove what they wrote, as an interrupt does."""
    for number in SIGNALS:
        if signal.getsignal(number) in (signal.SIG_DFL, signal.default_int_handler):
            signal.signal(number, ENDING.handle)


def begin_process() -> None:
    """Has a process that was forked end by signals that come, and have no folder of the one that forked it."""
    FOLDERS.clear()
    ENDING.blocks = 0
    ENDING.release()


@contextlib.contextmanager
def held_back() -> Iterator[None]:
    """Signals that would end this process come after the block, so that it knows of what it has begun. Only the main thread
    holds them back."""
    ENDING.blocks += 1
    try:
        yield
    finally:
        ENDING.blocks -= 1
        if not ENDING.blocks:
            ENDING.release()


@contextlib.contextmanager
def temporary_folder(prefix: str) -> Iterator[str]:
    """A folder that goes at the end of the block, or else at that of the process, whenever a signal comes."""
    with held_back():
        path = tempfile.mkdtemp(prefix=prefix)
        FOLDERS.add(path)
    try:
        yield path
    finally:
        with held_back():
            shutil.rmtree(path, ignore_errors=True)
            FOLDERS.discard(path)


def remove_folders() -> None:
    """Removes the temporary folders that are left, since a signal came as their blocks began or ended."""
    with held_back():
        while FOLDERS:
            shutil.rmtree(FOLDERS.pop(), ignore_errors=True)


def status_of(run: Callable[[], int]) -> int:
    """Runs a program, says what went wrong, and answers its status."""
    try:
        return run()
    except ToolFault as fault:
        tell(fault.message)
        return fault.status
    except OwnFault as fault:
        tell_own(str(fault))
        return fault.status
    except KeyboardInterrupt:
        return 130
    finally:
        remove_folders()


def printed_by(run: Callable[[], int]) -> int:
    """Runs a program that prints its answer, and answers its status. All that it prints is written then."""
    try:
        open_streams()
        status = status_of(run)
        sys.stdout.flush()
        return status
    except OSError as fault:
        # Nothing that is left for a closed standard output may be written at the end.
        os.dup2(os.open(os.devnull, os.O_WRONLY), 1)
        tell_own(f"write fault: {fault.filename or 'standard output'}: {fault.strerror}")
        return OUTPUT
