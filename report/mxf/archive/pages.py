"""The command that makes a page of each recording that was scanned, and one of all."""
from __future__ import annotations

import os
import sys

from mxf.archive import crew, database, printing, scanned
from mxf.archive.adding import Progress
from mxf.archive.catalogues import Catalogues
from mxf.archive.words import Words
from mxf.faults import READ, UNWRITTEN, OwnFault, tell_own
from mxf.names import coded


class Pages:
    """The folder of pages, and what makes them: mxf_report, which lies beside this program."""

    def __init__(self, words: Words) -> None:
        self.folder = os.path.abspath(words.folder)
        self.catalogues = Catalogues.beside(words.database)
        self.crew = crew.Crew(words.jobs)
        self.report = os.path.join(os.path.dirname(os.path.realpath(sys.argv[0])), "mxf_report")
        if not os.path.isfile(self.report):
            raise OwnFault(READ, f"read fault: {self.report}: No such file or directory")

    def of(self, name: str) -> str:
        """The page of a recording."""
        return os.path.join(self.folder, f"{coded(name)}.html")

    def is_new(self, one: scanned.Scanned) -> bool:
        """Whether the page of a recording was made of its catalogue as that is: it has the time of that."""
        try:
            return os.stat(self.of(one.name)).st_mtime_ns == os.stat(self.catalogues.of(one.name)).st_mtime_ns
        except OSError:
            return False

    def make(self, one: scanned.Scanned) -> crew.Ended:
        """Makes the page of a recording: of its catalogue, or of its files if one is a range."""
        found, page, catalogue = one.found(), self.of(one.name), self.catalogues.of(one.name)
        modified = os.stat(catalogue).st_mtime_ns
        sources = [found.word_of(file) for file in found.files] if found.has_ranges() else [f"cat:{catalogue}"]
        listed = "".join(f"{word}\n" for word in sources if "\n" not in word)
        named = [word for word in sources if "\n" in word]
        os.makedirs(os.path.dirname(page), exist_ok=True)
        ended = self.call(["--read", "--out", page, f"--title={one.name}", "--sources", "-", *named], listed)
        if ended.status == 0:
            os.utime(page, ns=(modified, modified))
        return ended

    def call(self, words: list[str], given: str = "") -> crew.Ended:
        """Calls mxf_report."""
        return self.crew.call([sys.executable, "-B", self.report, *words], given)


def pages(words: Words) -> int:
    """Makes the pages of what changed, and that of all. The status is 1 if one couldn't be made."""
    with database.reading(words.database) as connection:
        known = [one for one in scanned.all_of(connection).values() if not one.is_gone]
    made = Pages(words)
    try:
        os.makedirs(made.folder, exist_ok=True)
    except OSError as fault:
        raise OwnFault(UNWRITTEN, f"write fault: {made.folder}: {fault.strerror}") from fault
    joined = [one for one in known if one.is_joined() and os.path.exists(made.catalogues.of(one.name))]
    faults = make_all(made, [one for one in joined if not made.is_new(one)])
    ended = made.call(["--out", os.path.join(made.folder, "index.html"), "--archive", words.database])
    if ended.status:
        faults.append(f"index.html: {ended.cause()}")
    for said in faults:
        tell_own(printing.shown(said))
    return 1 if faults else 0


def make_all(made: Pages, changed: list[scanned.Scanned]) -> list[str]:
    """Makes pages side by side, and answers why some couldn't be made."""
    faults = []
    progress = Progress(len(changed))
    with made.crew.each(made.make, changed) as each:
        for one, done in each:
            try:
                ended = done.result()
                cause = ended.cause() if ended.status else ""
            except OSError as fault:
                cause = f"{fault.filename}: {fault.strerror}"
            faults += [f"{one.name}: {cause}"] if cause else []
            progress.tell(len(faults))
    progress.end()
    return faults
