"""Recordings that lie elsewhere, which are looked at by the code of mxf_fetch, and added as far as they came."""
from __future__ import annotations

import contextlib
import email.utils
import os
from collections.abc import Iterator
from pathlib import Path
from typing import NamedTuple, Union

from mxf import moments
from mxf.archive.gathering import Gathering, Named
from mxf.archive.origins import origin_of
from mxf.calling import Tool
from mxf.faults import USAGE, OwnFault
from mxf.fetch import looking
from mxf.fetch.asking import Asking
from mxf.fetch.faults import Bounded
from mxf.fetch.folder import Folder
from mxf.fetch.getting import Bounds, Getting
from mxf.fetch.opening import COMMAND, Where, is_elsewhere, is_web, opened
from mxf.lines import Line
from mxf.running import temporary_folder
from mxf.sources import Source, Sources

# What is said of a place that is none, without the place: a URL may have a password in it.
NO_PLACE = "a place is a URL of http or https, or cmd:COMMAND, or the path of a file"
BEYOND = 1  # the status of a recording of which more is wanted than may be got


class How(NamedTuple):
    """How recordings are looked at: the most bytes of each, how many requests go on side by side, the seconds in which
    something has to come, and the headers of each request."""

    most: int
    jobs: int
    timeout: int
    headers: dict[str, str]


class Elsewhere(NamedTuple):
    """A recording that lies elsewhere: its name, where that is, and the folder that keeps what comes, if it is kept."""

    name: str
    where: str
    into: str | None = None

    def check(self) -> None:
        """Sees that the place can be one, without saying what may be secret."""
        if is_elsewhere(self.where) and not is_web(self.where) and not self.where.startswith(COMMAND):
            raise OwnFault(USAGE, NO_PLACE)


Listed = Union[Named, Elsewhere]  # a recording by its sources, or by where it lies


class Looking:
    """A recording that is looked at: what comes are its sources."""

    def __init__(self, tool: Tool, named: Elsewhere, how: How, is_beside: bool) -> None:
        self.tool, self.named, self.how, self.is_beside = tool, named, how, is_beside

    def gather(self) -> list[Line]:
        """The lines of the recording, as of one whose essence is passed over."""
        self.tool.version()  # nothing is got where nobody can be asked
        with self.folder() as path, self.opened(path) as getting, contextlib.ExitStack() as opened_calls:
            try:
                looking.look(getting, Asking(self.tool, getting.folder))
            except Bounded as fault:
                raise OwnFault(BEYOND, f"{getting.folder.recording.shown}: {fault}") from fault
            folder = getting.folder
            named = Named(self.named.name, Sources(folder.sources()), None, is_skim=True)
            gathering = Gathering(self.tool, named, opened_calls, self.is_beside)
            if self.named.into is None:
                gathering.origins = [origin_at(folder, line) for line in gathering.origins]
            lines = gathering.gather()
        return lines

    @contextlib.contextmanager
    def folder(self) -> Iterator[Path]:
        """The folder of what comes. One that nobody has named goes at the end."""
        if self.named.into is not None:
            yield Path(os.path.abspath(self.named.into))
            return
        with temporary_folder("mxf_archive.") as path:
            yield Path(path)

    def opened(self, path: Path) -> contextlib.AbstractContextManager[Getting]:
        """What gets ranges into the folder. Beside others it says nothing on a terminal."""
        bounds = Bounds(self.how.most, self.how.jobs, is_silent=not self.is_beside)
        return opened(Where(self.named.where, self.how.headers, self.how.timeout, bounds), path, self.named.into)


def origin_at(folder: Folder, line: Line) -> Line:
    """The origin of a range whose file goes: as the slice that it is of the place, which has neither password nor query."""
    recording = folder.recording
    source = Source("slice", f"{line['offset']}:{line['size']}", recording.shown)
    if os.path.isabs(recording.shown):
        return origin_of(line["number"], source)
    told = {"size": recording.identity.size, "modified": modified_text(recording.identity.modified)}
    return {**line, "form": source.form, "path": source.path, "word": source.word(), **told}


def modified_text(told: str | None) -> str | None:
    """The time of the last change, as a server says it; None of one that isn't understood."""
    with contextlib.suppress(TypeError, ValueError, OverflowError):
        return moments.text_of(email.utils.parsedate_to_datetime(told).timestamp()) if told else None
    return None
