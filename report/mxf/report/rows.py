"""Rows of which a page shows the first."""
from __future__ import annotations

from typing import Generic, TypeVar

from mxf.report.bounds import ROWS

Row = TypeVar("Row")


class Rows(Generic[Row]):
    """Rows of which the first are kept. All are counted."""

    def __init__(self, most: int = ROWS) -> None:
        self.most = most
        self.kept: list[Row] = []
        self.count = 0

    def add(self, row: Row) -> None:
        """Counts a row, and keeps it if there is room."""
        self.count += 1
        if len(self.kept) < self.most:
            self.kept.append(row)

    def left(self) -> int:
        """How many aren't kept."""
        return self.count - len(self.kept)
