"""Calls of mxf_tool, of which several may go on side by side."""
from __future__ import annotations

import contextlib
import io
import os
import pathlib
import re
import subprocess
from collections.abc import Callable, Iterator, Sequence
from types import TracebackType

from mxf.faults import NO_PROGRAM, OwnFault, ToolFault
from mxf.lines import Line
from mxf.reading import LineFault, lines_in
from mxf.sources import Sources

# The line that each command prints whatever it finds.
CLOSING = {
    "join": "joined", "map": "map", "show": "chain", "check": "findings", "plan": "planned", "sources": "sources",
    "units": "units", "verify": "verified", "describe": "packages", "find": "fragments",
}  # fmt: skip

# The same of a command with an option.
CLOSING_WITH = {("check", "--doubts"): "doubts"}

# A line that says how a source ends.
PIECE = re.compile(rb'^\{"line":"piece".*$', re.MULTILINE)

BLOCK = 1 << 16  # bytes of lines that are looked at together, at least

# What of whole lines is kept, each by itself. That of many lines takes less time together than of each.
Keeps = Callable[[bytes], list[bytes]]


def program() -> str:
    """The program that is asked: the one that MXF_TOOL names, the one beside this one, or the one on the PATH."""
    named = os.environ.get("MXF_TOOL")
    if named:
        return named
    folder = pathlib.Path(__file__).resolve().parent.parent
    # In a folder of packaging/release, in the repository, and below a prefix.
    places = (folder / "mxf_tool", folder.parent / "mxf_tool", folder.parent.parent / "bin" / "mxf_tool")
    return next((str(place) for place in places if place.is_file()), "mxf_tool")


def current(name: str, version: str) -> str:
    """The program itself in place of the launcher of the repository, which looks at each call whether that is current."""
    crates = pathlib.Path(name).resolve().parent / "crates"
    built = crates / "mxf_tool" / "out" / ("checked" if version.endswith(" checked") else "") / "mxf_tool"
    return str(built) if built.is_file() else name


class Call:
    """A call of a program, which may have further files of this one open. It begins when it is told to, at the latest when its
    lines are asked for. What it says of faults is kept, or goes where that of this program goes. The call is over when its
    block ends, and is ended if that ends by a fault."""

    def __init__(
        self, words: Sequence[str], given: bytes = b"", is_kept: bool = True, passed: Sequence[int] = ()
    ) -> None:
        self.words, self.given, self.is_kept, self.passed = list(words), given, is_kept, passed
        self.process: subprocess.Popen[bytes] | None = None
        self.faults: int | None = None  # the file that takes what the program says of them, if that is kept
        self.said = b""
        self.status = 0

    def begin(self) -> subprocess.Popen[bytes]:
        """Starts the program, if that wasn't done. What it is given and what it says of faults are files in memory, so neither
        program waits for the other."""
        if self.process is None:
            self.faults = os.memfd_create("mxf") if self.is_kept else None
            given = os.memfd_create("mxf") if self.given else subprocess.DEVNULL
            try:
                if self.given:
                    os.pwrite(given, self.given, 0)
                self.process = self.started(given)
            finally:
                if self.given:
                    os.close(given)
        return self.process

    def started(self, given: int) -> subprocess.Popen[bytes]:
        """The program, which reads this file."""
        pipe = subprocess.PIPE
        try:
            return subprocess.Popen(self.words, stdin=given, stdout=pipe, stderr=self.faults, pass_fds=self.passed)
        except OSError as fault:
            raise OwnFault(NO_PROGRAM, f"{self.words[0]} can't be run: {fault.strerror}") from fault

    def blocks(self) -> Iterator[bytes]:
        """What it prints, some whole lines at once. After the last one its status is known, and what it said."""
        printed = self.begin().stdout
        assert isinstance(printed, io.BufferedReader)  # it is a pipe
        rest = b""
        while read := printed.read1(BLOCK):
            whole, end, begun = read.rpartition(b"\n")
            if end:
                yield rest + whole
            rest = begun if end else rest + begun
        if rest:
            yield rest
        self.end()

    def end(self) -> None:
        """Waits until the program has ended. What it prints from now on nobody reads, as it is told."""
        if self.process is not None:
            with self.process:
                pass  # its end closes standard output and waits
            self.status = self.process.returncode
            self.process = None
        if self.faults is not None:
            self.said = os.pread(self.faults, os.fstat(self.faults).st_size, 0)
            os.close(self.faults)
            self.faults = None

    def checked(self) -> None:
        """Sees that a call that is over has ended with status 0 or 1."""
        if self.status not in (0, 1):
            raise ToolFault(self.status if self.status > 0 else 128 - self.status, self.said)

    def __enter__(self) -> Call:
        return self

    def __exit__(
        self, kind: type[BaseException] | None, fault: BaseException | None, trace: TracebackType | None
    ) -> None:
        if kind is not None and self.process is not None:
            self.process.terminate()
        self.end()


class Closing:
    """The line that a call prints whatever it finds."""

    def __init__(self, call: Call) -> None:
        self.program, self.command, *options = call.words
        named = [CLOSING_WITH[self.command, option] for option in options if (self.command, option) in CLOSING_WITH]
        self.line = named[0] if named else CLOSING[self.command]
        self.begin = b'{"line":"%s"' % self.line.encode()

    def begins_in(self, block: bytes) -> bool:
        """Whether the line is among these."""
        return self.begin in block

    def fault(self) -> OwnFault:
        """The fault of a call that doesn't print the line."""
        return OwnFault(NO_PROGRAM, f"{self.program} {self.command} prints no line {self.line}")


class Tool:
    """mxf_tool. Unless it is silent, its first call of sources says its faults and how far it is by itself."""

    def __init__(self, is_silent: bool = False) -> None:
        self.program = program()
        self.has_called = is_silent
        self.told: str | None = None

    def version(self) -> str:
        """What the program calls itself. From then on the program that is current is asked."""
        if self.told is None:
            with Call([self.program, "--version"], is_kept=False) as call:
                texts = list(call.blocks())
            if call.status != 0:
                raise OwnFault(NO_PROGRAM, f"{self.program} --version ended with status {call.status}")
            self.told = b"\n".join(texts).decode("utf-8", "replace").strip()
            self.program = current(self.program, self.told)
        return self.told

    def call(self, words: Sequence[str], sources: Sources, is_alone: bool = True) -> Call:
        """The call of a command of the sources, which goes on alone or beside others."""
        is_kept = self.has_called or not is_alone
        self.has_called = True
        return Call([self.program, *words, "--json", *sources.handed()], sources.given(), is_kept)

    @contextlib.contextmanager
    def begun(self, call: Call) -> Iterator[None]:
        """A call that goes on until the block ends."""
        with call:
            call.begin()
            yield

    def blocks_of(self, call: Call) -> Iterator[bytes]:
        """The lines of a call, which may have begun, some at once. A call that fails is a fault after its last line."""
        with self.begun(call):
            yield from call.blocks()
        call.checked()

    def lines_of(self, call: Call) -> Iterator[Line]:
        """The lines of a call as they come. One that prints what isn't of mxf_tool is a fault too, and so is one that doesn't
        print the line that it prints whatever it finds."""
        closing, is_whole, fault = Closing(call), False, None
        for block in self.blocks_of(call):
            is_whole = is_whole or closing.begins_in(block)
            try:
                yield from () if fault else lines_in(block.splitlines())
            except LineFault as bad:
                fault = bad
        if fault:
            raise self.other(fault)
        if not is_whole:
            raise closing.fault()

    def texts_of(self, call: Call, keeps: Keeps = bytes.splitlines) -> list[bytes]:
        """The lines of a call as texts, as far as they are kept. Its faults are those of its lines."""
        closing, is_whole, texts = Closing(call), False, []
        for block in self.blocks_of(call):
            is_whole = is_whole or closing.begins_in(block)
            texts += keeps(block)
        if not is_whole:
            self.lines_in(texts)  # what isn't of mxf_tool is told first
            raise closing.fault()
        return texts

    def lines_in(self, texts: Sequence[bytes]) -> list[Line]:
        """The lines of texts that the program printed."""
        try:
            return lines_in(texts)
        except LineFault as fault:
            raise self.other(fault) from fault

    def other(self, fault: LineFault) -> OwnFault:
        """The fault of a program that isn't mxf_tool."""
        return OwnFault(NO_PROGRAM, f"{self.program} prints {fault}")

    def pieces(self, sources: Sources) -> list[Line]:
        """How sources end. A skim says it as a reading does."""
        return self.ask(["show", "--skim"], sources, PIECE.findall)

    def ask(self, words: Sequence[str], sources: Sources, keeps: Keeps = bytes.splitlines) -> list[Line]:
        """The lines that a command prints of the sources, as far as they are kept."""
        return self.lines_in(self.texts_of(self.call(words, sources), keeps))
