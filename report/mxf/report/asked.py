"""What a page is asked for."""
from __future__ import annotations

import argparse


class Words(argparse.Namespace):
    """The words of a call."""

    page: str | None
    out: str  # the page, if there is one
    json: bool
    compare: bool
    title: str | None
    index: str | None
    first: str | None
    last: str | None
    against: list[str]
    read: bool
    skim: bool
    sources: str | None
    archive: str | None
    source: list[str]

    def span(self) -> list[str]:
        """The options that name the first and the last edit unit."""
        named = (("--from", self.first), ("--to", self.last))
        return [part for option, word in named if word is not None for part in (option, word)]
