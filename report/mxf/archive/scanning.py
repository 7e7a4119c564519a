"""The command that gathers a folder of recordings, and again only those that changed."""
from __future__ import annotations

import dataclasses
import os
import shutil
from collections.abc import Sequence

from mxf.archive import database, first_days, folders, printing, renaming, scanned, storing
from mxf.archive.adding import Progress, cause_of
from mxf.archive.beside import Outcome
from mxf.archive.catalogues import Catalogues
from mxf.archive.crew import Crew, Ended
from mxf.archive.folders import Found, Looked
from mxf.archive.gathering import Named, gathered
from mxf.archive.joining import Reader
from mxf.archive.parts import Joined
from mxf.archive.rows import Recording, recordings_of
from mxf.archive.scanned import UNREAD, Scanned
from mxf.archive.words import Words
from mxf.faults import OwnFault, ToolFault, tell_own
from mxf.lines import Line
from mxf.reading import line_of
from mxf.sources import Sources

MOST_OTHERS = 20  # that are named of what isn't looked at


@dataclasses.dataclass
class Gathered:
    """What a scan finds of a recording: the status of its join, what mxf_tool says of it, a catalogue of its first day if it
    has none, and which recordings that are gone it may be."""

    status: int
    fault: str = ""
    recording: Recording | None = None
    first: str = ""
    former: list[str] = dataclasses.field(default_factory=list)
    run_ins: list[int] = dataclasses.field(default_factory=list)


class Scan:
    """A scan of a folder: what was known, and what the folder holds."""

    def __init__(self, words: Words, looked: Looked, catalogues: Catalogues) -> None:
        self.database, self.folder = words.database, os.path.abspath(words.folder)
        self.looked, self.catalogues = looked, catalogues
        self.large = words.large
        self.elsewhere = Joined.there(words.joined) if words.joined is not None else None
        self.crew = Crew(words.jobs)
        self.known = known_in(words.database)
        self.gone = [
            name for name, one in self.known.items() if one.folder == self.folder and name not in looked.recordings
        ]
        self.faults: list[str] = []
        self.reader: Reader | None = None
        self.joined = 0

    def has_changed(self, found: Found) -> bool:
        """Whether a recording isn't as it was scanned, its last join failed, or what was made of it isn't there."""
        known = self.known.get(found.name)
        if known is None or not known.is_joined() or known.is_gone:
            return True
        is_first_there = not found.pieces() or os.path.exists(self.catalogues.first(found.name))
        is_same = known == scanned.scanned_of(found, known.status)
        return not (is_same and is_first_there and os.path.exists(self.catalogues.of(found.name)))

    def is_elsewhere(self, found: Found) -> bool:
        """Whether a recording of this name lies in another folder too."""
        known = self.known.get(found.name)
        if known is None or os.path.realpath(known.folder) == os.path.realpath(self.folder):
            return False
        return any(os.path.exists(os.path.join(known.folder, file.path)) for file in known.found().files)

    def is_of_database(self, name: str) -> bool:
        """Whether a file of the folder is one of the database."""
        path = os.path.abspath(self.database)
        return os.path.join(self.folder, name) in (path, f"{path}-wal", f"{path}-shm")

    def run(self) -> int:
        """Gathers what changed. The status is 1 if a recording couldn't be gathered."""
        changed = []
        for found in self.looked.recordings.values():
            if self.is_elsewhere(found):
                self.fail(found.name, f"a recording of this name is in {self.known[found.name].folder}")
            elif found.fault:
                self.fail(found.name, found.fault)
            elif self.has_changed(found):
                changed.append(found)
        if changed:
            self.gather_all(changed)
        self.tell_gone()
        tell_others([one for one in self.looked.others if not self.is_of_database(one[0])])
        count, failed = len(self.looked.recordings), len(self.faults)
        stayed = f"{count - self.joined - failed} as they were"
        said = f"{self.joined} gathered, {stayed}, {failed} failed, {len(self.gone)} gone"
        print(f"{count} recording{'s' if count > 1 else ''}: {said}")
        for fault in self.faults:
            tell_own(fault)
        return 1 if self.faults else 0

    def fail(self, name: str, cause: str) -> None:
        """Keeps why a recording couldn't be gathered."""
        self.faults.append(printing.shown(f"{name}: {cause}"))

    def gather_all(self, changed: list[Found]) -> None:
        """Gathers recordings side by side, and stores each by itself."""
        self.reader = Reader(self.crew)
        progress = Progress(len(changed))
        with self.catalogues.begun() as folder:
            places = [(found, os.path.join(folder, str(number))) for number, found in enumerate(changed)]
            with self.crew.each(self.gathered, places) as each:
                for (found, place), done in each:
                    progress.clear()
                    self.finish(found, done)
                    shutil.rmtree(place, ignore_errors=True)
                    progress.tell(len(self.faults))
            progress.end()

    def gathered(self, given: tuple[Found, str]) -> Gathered:
        """Joins a recording, and asks for its lines."""
        found, folder = given
        reader = self.reader
        assert reader is not None
        os.mkdir(folder)
        out = os.path.join(folder, "cat")
        is_taken = self.elsewhere is not None and self.elsewhere.take(found, out)
        ended = Ended(0, b"", b"") if is_taken else reader.join(found, out, self.large)
        run_ins = [one.run_in for one in reader.behind_in(found)]
        # Where a packet of a whole file is damaged, a range goes on behind.
        read = found.with_range() if ended.status == 1 and not run_ins else found
        if read.has_ranges() and not found.has_ranges():
            ended = reader.join(read, out, self.large)
        if ended.status not in range(5):
            return failed("join", ended)
        answer = Gathered(ended.status, run_ins=run_ins)
        if ended.status <= 1:
            self.catalogues.place(out, self.catalogues.of(found.name))
        else:
            answer.fault = f"join ended with status {ended.status}: {ended.cause()}"
        self.add_first_day(reader, found, folder, answer)
        if ended.status <= 1:
            answer.recording = self.recording_of(reader, read, ended.status == 1)
        return answer

    def add_first_day(self, reader: Reader, found: Found, folder: str, answer: Gathered) -> None:
        """Adds a catalogue of the first day, if there is none, and of a recording that is new which it may have been."""
        first = self.catalogues.first(found.name)
        if not found.pieces():
            return
        if not os.path.exists(first):
            is_alike = answer.status <= 1 and not found.has_ranges() and found.pieces() == found.files
            first = answer.first = (
                shutil.copyfile(self.catalogues.of(found.name), os.path.join(folder, "first")) if is_alike
                else first_days.join_first(reader, found, folder)
            )  # fmt: skip
        if first and self.gone and found.name not in self.known:
            answer.former = first_days.former_names(reader, first, self.gone, self.catalogues)

    def recording_of(self, reader: Reader, found: Found, is_damaged: bool) -> Recording:
        """What mxf_tool says of a recording, by its catalogue, unless it has ranges. Which file is damaged the catalogue
        doesn't tell."""
        words = [found.word_of(file) for file in reader.numbers_of(found, found.files)]
        sources = Sources([word for word in words if "\n" in word], [word for word in words if "\n" not in word])
        named = Named(found.name, sources, self.catalogues.of(found.name))
        lines = gathered(self.crew.tool, named)
        if is_damaged and not found.has_ranges():
            add_stops(lines, reader, found, len(named.origins()))
        (recording,) = recordings_of(lines, reader.program)
        return recording

    def finish(self, found: Found, done: Outcome[Gathered]) -> None:
        """Stores what came of a recording."""
        try:
            answer = done.result()
        except (ToolFault, OwnFault, OSError) as fault:
            answer = Gathered(UNREAD, cause_of(fault))
        for length in answer.run_ins:
            print(f"{printing.cell(found.name)} begins behind a run-in of {length} bytes")
        old = next((name for name in answer.former if name in self.gone), None)
        self.keep_first_day(found.name, old, answer.first)
        self.store(found, old, answer)
        if old is not None:
            self.gone.remove(old)
            self.catalogues.remove(old)
            print(printing.cell(found.name), "is", printing.cell(old))
        if answer.fault:
            self.fail(found.name, answer.fault)
        else:
            self.joined += 1

    def keep_first_day(self, name: str, old: str | None, made: str) -> None:
        """Puts the catalogue of the first day in its place: that of the recording that it was, or the one that was made."""
        if old is not None:
            self.catalogues.copy(self.catalogues.first(old), self.catalogues.first(name))
        elif made:
            self.catalogues.place(made, self.catalogues.first(name))

    def store(self, found: Found, old: str | None, answer: Gathered) -> None:
        """Stores a recording in a transaction of its own. One that couldn't be read stays as it was."""
        with database.writing(self.database, is_new=True) as connection:
            if old is not None:
                renaming.rename_row(connection, old, found.name)
            if answer.recording is not None:
                was_known = storing.store(connection, answer.recording)
            scanned.keep(connection, scanned.scanned_of(found, answer.status))
        if answer.recording is not None and old is None:
            print("replaced" if was_known else "added", printing.cell(found.name))

    def tell_gone(self) -> None:
        """Says which recordings are gone."""
        news = [name for name in self.gone if not self.known[name].is_gone]
        if news:
            with database.writing(self.database) as connection:
                scanned.mark_gone(connection, news)
        for name in self.gone:
            print("gone:", printing.cell(name))


def known_in(path: str) -> dict[str, Scanned]:
    """What was scanned by now. A database that is new is made."""
    with database.writing(path, is_new=True) as connection:
        return scanned.all_of(connection)


def add_stops(lines: list[Line], reader: Reader, found: Found, origins: int) -> None:
    """Adds behind the lines of the sources how each of them ends, as `add` does."""
    ended = reader.call(["check", "--json"], found, found.files).checked()
    stops = [line for line in map(line_of, ended.printed.splitlines()) if line["line"] == "stop"]
    lines[1 + origins : 1 + origins] = [{"line": "asked", "command": "check"}, *stops]
    lines[-1]["lines"] = len(lines)


def failed(step: str, ended: Ended) -> Gathered:
    """A recording of which a call failed otherwise than by its pieces and catalogues."""
    return Gathered(UNREAD, f"{step} ended with status {ended.status}: {ended.cause()}")


def tell_others(others: Sequence[tuple[str, str]]) -> None:
    """Names what wasn't looked at, the first of them."""
    for name, reason in others[:MOST_OTHERS]:
        print(f"not looked at: {printing.cell(os.fsencode(name).decode('utf-8', 'replace'))}: {reason}")
    if len(others) > MOST_OTHERS:
        print(f"not looked at: {len(others) - MOST_OTHERS} more")


def scan(words: Words) -> int:
    """Gathers the recordings of a folder."""
    looked = folders.look(words.folder)
    folders.check_there(looked, words.folder)
    database.check_place(words.database)
    catalogues = Catalogues.beside(words.database)
    with catalogues.held():
        return Scan(words, looked, catalogues).run()
