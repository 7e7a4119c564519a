"""How mxf_archive is run by its words."""
from __future__ import annotations

import importlib
import sys
from collections.abc import Sequence

from mxf.archive.words import WordFault, read_words
from mxf.faults import USAGE, tell
from mxf.running import end_by_signals, printed_by

# The module that has each command as a function of its name. It is loaded for that command alone.
MODULES = {
    "add": "adding", "list": "listing", "find": "finding", "show": "listing", "orders": "listing",
    "verify": "verifying_all", "match": "matching", "lines": "adding", "load": "loading", "scan": "scanning",
    "accept": "first_days", "pages": "pages", "rename": "renaming", "remove": "renaming", "join": "parts",
}  # fmt: skip


def run(given: Sequence[str]) -> int:
    """Runs the command that the words name, and answers its status."""
    try:
        words = read_words(given)
    except WordFault as fault:
        tell(str(fault).encode("utf-8", "replace"))
        return USAGE
    if words is None:
        return 0  # help was asked for, and is printed
    end_by_signals()
    status: int = getattr(importlib.import_module(f"mxf.archive.{MODULES[words.command]}"), words.command)(words)
    return status


def main() -> int:
    """Runs the program, and answers its status."""
    return printed_by(lambda: run(sys.argv[1:]))
