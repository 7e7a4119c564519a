"""Work on several recordings side by side, whose calls of programs end if this one is ended."""
from __future__ import annotations

import contextlib
from collections.abc import Callable, Iterator, Sequence
from typing import NamedTuple

from mxf.archive.beside import Answer, Done, Item, beside, one_by_one
from mxf.calling import Call, Tool
from mxf.faults import ToolFault


class Ended(NamedTuple):
    """A call that has ended: its status, what it printed, and what it said of faults."""

    status: int
    printed: bytes
    said: bytes

    def cause(self) -> str:
        """The last line that it said of faults."""
        return ToolFault(self.status, self.said).last_line()

    def checked(self) -> Ended:
        """The call, which has to have ended with status 0 or 1."""
        if self.status not in (0, 1):
            raise ToolFault(self.status if self.status > 0 else 128 - self.status, self.said)
        return self


class Crew:
    """Processes that call mxf_tool and other programs."""

    def __init__(self, jobs: int) -> None:
        self.jobs = jobs
        self.tool = Tool(is_silent=True)

    def call(self, words: Sequence[str], given: str = "", passed: Sequence[int] = ()) -> Ended:
        """Calls a program, which reads what is given, and has these files open."""
        call = Call(words, given.encode(), passed=passed)
        with self.tool.begun(call):
            printed = b"".join(block + b"\n" for block in call.blocks())
        return Ended(call.status, printed, call.said)

    def each(
        self, work: Callable[[Item], Answer], items: Sequence[Item]
    ) -> contextlib.AbstractContextManager[Iterator[Done[Item, Answer]]]:
        """The items, each when the work on it is done, whatever comes of it, until the block ends."""
        return beside(one_by_one(work), items, self.jobs)
