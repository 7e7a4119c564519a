"""What can go wrong, the statuses of it, and how it is said."""
from __future__ import annotations

import contextlib
import os
import sys

# The statuses that are those of the programs in Python. Any other is of mxf_tool.
USAGE, READ, OUTPUT, DATA, NO_PROGRAM, UNWRITTEN = 2, 3, 6, 65, 69, 73


class ToolFault(Exception):
    """A call of mxf_tool that failed: its status, and what it said."""

    def __init__(self, status: int, message: bytes) -> None:
        super().__init__(status, message)  # all that makes it anew, where it comes from another process
        self.status = status
        self.message = message

    def last_line(self) -> str:
        """The last line that it said."""
        return self.message.decode("utf-8", "replace").rstrip("\n").split("\n")[-1]


class OwnFault(Exception):
    """A fault of a program in Python: its status, and its line."""

    def __init__(self, status: int, message: str) -> None:
        super().__init__(status, message)
        self.status = status
        self.message = message

    def __str__(self) -> str:
        return self.message


def tell(said: bytes) -> None:
    """Says something on standard error. If that takes nothing, nobody is told."""
    with contextlib.suppress(OSError):
        sys.stderr.buffer.write(said)
        sys.stderr.buffer.flush()


def tell_own(said: str) -> None:
    """Says a line of the program that runs, by its name."""
    tell(f"{os.path.basename(sys.argv[0])}: {said}\n".encode("utf-8", "replace"))
