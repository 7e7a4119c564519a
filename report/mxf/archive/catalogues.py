"""The folder of catalogues beside a database: what each file is named, and how it comes to its place whole."""
from __future__ import annotations

import contextlib
import fcntl
import os
import shutil
import tempfile
from collections.abc import Iterator

from mxf.archive.folders import CATALOGUES
from mxf.faults import UNWRITTEN, USAGE, OwnFault, tell_own
from mxf.names import coded

BEGUN = ".begun."  # before the names of files that aren't in their place yet


class Catalogues:
    """A folder of catalogues: one of each recording, and in the folder first those of the first days."""

    def __init__(self, folder: str) -> None:
        self.folder = os.path.abspath(folder)
        if "\n" in self.folder:
            raise OwnFault(USAGE, "the path of a folder of catalogues has no line end")

    @classmethod
    def beside(cls, database: str) -> Catalogues:
        """The catalogues beside a database, DB.catalogues."""
        return cls(os.path.abspath(database) + CATALOGUES)

    def make(self) -> None:
        """Makes the folder, if there is none."""
        with self.faults():
            os.makedirs(os.path.join(self.folder, "first"), exist_ok=True)

    def of(self, name: str) -> str:
        """The catalogue of a recording."""
        return os.path.join(self.folder, f"{coded(name)}.cat")

    def first(self, name: str) -> str:
        """The catalogue of its first day."""
        return os.path.join(self.folder, "first", f"{coded(name)}.cat")

    @contextlib.contextmanager
    def held(self) -> Iterator[None]:
        """No other program changes the catalogues meanwhile. What one that was killed left isn't kept."""
        self.make()
        with self.faults():
            lock = open(os.path.join(self.folder, ".lock"), "w", encoding="utf-8")
        with lock:
            try:
                fcntl.flock(lock, fcntl.LOCK_EX | fcntl.LOCK_NB)
            except OSError:
                tell_own(f"{self.folder}: another program changes the catalogues, and is waited for")
                fcntl.flock(lock, fcntl.LOCK_EX)
            for entry in os.scandir(self.folder):
                if entry.name.startswith(BEGUN):
                    shutil.rmtree(entry.path, ignore_errors=True)
            yield

    @contextlib.contextmanager
    def begun(self) -> Iterator[str]:
        """A folder for files that aren't in their place yet."""
        with self.faults():
            made = tempfile.TemporaryDirectory(prefix=BEGUN, dir=self.folder)
        with made as folder:
            yield folder

    def place(self, file: str, path: str) -> None:
        """Brings a file to the disk, and to its place."""
        with self.faults():
            folder = os.path.dirname(path)
            os.makedirs(folder, exist_ok=True)
            flush(file)
            os.replace(file, path)
            flush(folder)

    def copy(self, former: str, path: str) -> None:
        """Puts a copy of a catalogue in its place."""
        with self.begun() as folder, self.faults():
            self.place(shutil.copyfile(former, os.path.join(folder, "copy")), path)

    def remove(self, name: str) -> None:
        """Removes the catalogues of a recording that are there."""
        with self.faults():
            for path in (self.of(name), self.first(name)):
                with contextlib.suppress(FileNotFoundError):
                    os.unlink(path)

    def rename(self, old: str, new: str) -> None:
        """Copies the catalogues of a recording for its new name. The former ones are removed when nothing asks for them."""
        for former, path in ((self.of(old), self.of(new)), (self.first(old), self.first(new))):
            if os.path.exists(former):
                self.copy(former, path)

    @contextlib.contextmanager
    def faults(self) -> Iterator[None]:
        """Says what keeps a catalogue from being written."""
        try:
            yield
        except OSError as fault:
            raise OwnFault(UNWRITTEN, f"write fault: {fault.filename or self.folder}: {fault.strerror}") from fault


def flush(path: str) -> None:
    """Brings a file or a folder to the disk."""
    number = os.open(path, os.O_RDONLY)
    try:
        os.fsync(number)
    finally:
        os.close(number)
