"""Calls of mxf_tool that read the files of a recording, which may begin behind a run-in."""
from __future__ import annotations

import contextlib
import json
import os
import subprocess
from collections.abc import Iterator, Sequence
from typing import IO, NamedTuple

from mxf.archive.crew import Crew, Ended
from mxf.archive.folders import File, Found, run_in_of


class Behind(NamedTuple):
    """A file that begins behind a run-in, and how long that is."""

    file: File
    run_in: int


class Reader:
    """What calls mxf_tool of the files of recordings."""

    def __init__(self, crew: Crew) -> None:
        self.crew, self.version = crew, crew.tool.version()
        self.program = crew.tool.program

    def behind_in(self, found: Found) -> list[Behind]:
        """The files of a recording that begin behind a run-in. Beside ranges none is looked for, since each call reads them
        by themselves."""
        first = [file for file in found.files if file.form == "at" and file.offset == 0 and not found.has_ranges()]
        lengths = [Behind(file, run_in_of(found.path_of(file))) for file in first]
        return [one for one in lengths if one.run_in]

    def call(self, words: Sequence[str], found: Found, files: Sequence[File]) -> Ended:
        """Calls mxf_tool of files of a recording. A path with a line end stands in no list."""
        behind = {one.file: one.run_in for one in self.behind_in(found)}
        with contextlib.ExitStack() as opened:
            pipes = [
                opened.enter_context(read_from(found.path_of(file), behind[file])) for file in files if file in behind
            ]
            numbers = [pipe.fileno() for pipe in pipes]
            named = [f"at:0:/dev/fd/{number}" for number in numbers]
            sources = [found.word_of(file) for file in files if file not in behind]
            named += [word for word in sources if "\n" in word]
            listed = "".join(f"{word}\n" for word in sources if "\n" not in word)
            ended = self.crew.call([self.program, *words, "--sources", "-", *named], listed, numbers)
        return ended

    def numbers_of(self, found: Found, files: Sequence[File]) -> list[File]:
        """The files in the order in which a call numbers them."""
        behind = {one.file for one in self.behind_in(found)}
        ranks = {file: 0 if file in behind else 1 if "\n" in found.path_of(file) else 2 for file in files}
        return sorted(files, key=lambda file: ranks[file])

    def join(self, found: Found, out: str, large: int) -> Ended:
        """Writes the catalogue of a recording, with the status of join --strict."""
        path = self.large_file(found, large)
        if path:
            return self.join_slices(path, out)
        return self.call(["join", "--strict", "--out", out], found, found.files)

    def large_file(self, found: Found, large: int) -> str:
        """The path of the only file of a recording, if that is at 0, has more than so many bytes, and begins with its
        header; an empty text otherwise."""
        file = found.files[0]
        is_large = len(found.files) == 1 and file.form == "at" and file.offset == 0 and (file.size or 0) > large
        return found.path_of(file) if is_large and not self.behind_in(found) else ""

    def join_slices(self, path: str, out: str) -> Ended:
        """Writes the catalogue of a file of which slices are joined side by side, as examples/archive/side_by_side does.
        The status is the highest of these calls."""
        size = os.path.getsize(path)
        parts = os.cpu_count() or 1
        skimmed = self.crew.call([self.program, "show", "--skim", "--json", f"at:0:{path}"])
        if skimmed.status > 1 or skimmed.status < 0:
            return skimmed
        borders = [0, *borders_of(skimmed.printed, size, parts), size]
        spans = [(start, end) for start, end in zip(borders, borders[1:]) if end > start]
        if len(spans) < 2:
            return self.crew.call([self.program, "join", "--strict", "--out", out, f"at:0:{path}"])
        with Crew(parts).each(lambda span: self.join_slice(path, span, out), spans) as joined:
            each = [done.result() for _, done in joined]
        worst = max(each, key=lambda one: one.status if one.status >= 0 else 256 - one.status)
        if worst.status not in (0, 1):
            return worst
        catalogues = [f"cat:{out}.{start}" for start, _ in spans]
        whole = self.crew.call([self.program, "join", "--out", out, *catalogues])
        return whole if whole.status else worst

    def join_slice(self, path: str, span: tuple[int, int], out: str) -> Ended:
        """Writes the catalogue of a slice."""
        start, end = span
        word = f"slice:{start}:{end - start}:{path}"
        return self.crew.call([self.program, "join", "--strict", "--out", f"{out}.{start}", word])


def borders_of(printed: bytes, size: int, parts: int) -> list[int]:
    """The first packet that begins at or above each of the parts of a file, by the lines of a skim."""
    lines = map(json.loads, printed.splitlines())
    offsets = [line["offset"] for line in lines if line["line"] == "note"]
    firsts = (next((at for at in offsets if at * parts >= size * part), size) for part in range(1, parts))
    return sorted({at for at in firsts if 0 < at < size})


@contextlib.contextmanager
def read_from(path: str, start: int) -> Iterator[IO[bytes]]:
    """A pipe with the bytes of a file from an offset on."""
    words = ["tail", "-c", f"+{start + 1}", "--", path]
    with subprocess.Popen(
        words, stdin=subprocess.DEVNULL, stdout=subprocess.PIPE, stderr=subprocess.DEVNULL
    ) as process:
        assert process.stdout is not None  # it is a pipe
        try:
            yield process.stdout
        finally:
            process.stdout.close()
            process.terminate()
