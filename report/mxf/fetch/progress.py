"""How far a call is, in one line of a terminal."""
from __future__ import annotations

import sys
import threading
import time

EVERY = 0.2  # seconds between two lines
MEGA = 1_000_000


class Progress:
    """Counts bytes that came, of how many that are asked for. If standard error is a terminal, it says so there, unless it is
    silent."""

    def __init__(self, is_silent: bool = False) -> None:
        self.lock = threading.Lock()
        self.is_told = sys.stderr.isatty() and not is_silent
        self.begun = self.last = time.monotonic()
        self.came = 0
        self.asked = 0
        self.has_told = False

    def ask(self, length: int) -> None:
        """So many more bytes are asked for."""
        with self.lock:
            self.asked += length

    def take(self, length: int) -> None:
        """So many more bytes came."""
        with self.lock:
            self.came += length
            if self.is_told and time.monotonic() - self.last >= EVERY:
                self.last = time.monotonic()
                self.tell()

    def tell(self) -> None:
        """Writes the line."""
        rate = self.came / max(self.last - self.begun, EVERY)
        said = f"{self.came / MEGA:.1f} of {self.asked / MEGA:.1f} MB, {rate / MEGA:.1f} MB a second"
        print(f"\r{said}\x1b[K", end="", file=sys.stderr, flush=True)
        self.has_told = True

    def clear(self) -> None:
        """Takes the line away."""
        if self.has_told:
            print("\r\x1b[K", end="", file=sys.stderr, flush=True)
            self.has_told = False
