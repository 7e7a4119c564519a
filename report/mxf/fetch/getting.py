"""Getting spans of a recording into its folder, a few of them side by side."""
from __future__ import annotations

import contextlib
import itertools
import queue
import threading
from collections.abc import Iterable
from typing import NamedTuple

from mxf.fetch.faults import Bounded
from mxf.fetch.folder import Folder
from mxf.fetch.places import Place
from mxf.fetch.progress import Progress
from mxf.fetch.recording import Identity
from mxf.fetch.spans import OPEN, Span, missing, requests_for, together
from mxf.running import held_back

PATIENCE = 2.0  # seconds that the other requests have to end, after one has failed


class Bounds(NamedTuple):
    """The most bytes that a call may get, how many requests it makes side by side, and whether it says on no terminal how far
    it is."""

    most: int
    jobs: int
    is_silent: bool = False


class Getting:
    """Gets what isn't there yet. It counts its requests and the bytes that came, and keeps to the most that a call may get."""

    def __init__(self, place: Place, folder: Folder, bounds: Bounds) -> None:
        self.place = place
        self.folder = folder
        self.most, self.jobs, _ = bounds
        self.requests = 0
        self.progress = Progress(bounds.is_silent)

    @property
    def size(self) -> int | None:
        """The size of the recording, if it is known."""
        return self.folder.recording.identity.size

    @property
    def came(self) -> int:
        """How many bytes came."""
        return self.progress.came

    def get(self, wanted: Iterable[Span]) -> bool:
        """Gets the bytes of the spans that the recording has and that aren't there. Answers whether any came."""
        within = [Span(span.start, span.end if self.size is None else min(span.end, self.size)) for span in wanted]
        spans = requests_for(within, self.folder.held())
        # How much an open span has isn't known before it came.
        length = sum(span.length for span in spans if span.end < OPEN)
        if self.came + length > self.most:
            raise Bounded(self.came + length, self.most)
        before = self.came
        self.progress.ask(length)
        try:
            Round(self, spans).run()
        finally:
            self.progress.clear()
            if self.folder.saved is not None:
                self.folder.save()
        return self.came > before

    def lacks(self, wanted: Iterable[Span]) -> list[Span]:
        """What of the spans isn't there."""
        return missing(together(wanted), self.folder.held())


class Round:
    """Requests that go on side by side. If one fails the others end, and what came is kept."""

    def __init__(self, getting: Getting, spans: list[Span]) -> None:
        self.getting = getting
        self.spans: queue.SimpleQueue[Span] = queue.SimpleQueue()
        self.workers = [threading.Thread(target=self.work, daemon=True) for _ in range(min(getting.jobs, len(spans)))]
        self.is_over = threading.Event()
        self.fault: BaseException | None = None
        for span in spans:
            self.spans.put(span)

    def run(self) -> None:
        """Goes on until all have come, or one has failed."""
        try:
            with held_back():  # a signal that ends the start of a thread leaves Python's locks in disorder
                for worker in self.workers:
                    worker.start()
            for worker in self.workers:
                while worker.is_alive() and not self.is_over.is_set():
                    worker.join(0.1)
        finally:
            self.is_over.set()
            left = [worker for worker in self.workers if worker.is_alive()]
            if left:
                self.getting.place.stop()
            for worker in left:
                worker.join(PATIENCE / len(left))
        if self.fault is not None:
            raise self.fault

    def work(self) -> None:
        """Answers one request after another."""
        while not self.is_over.is_set():
            try:
                self.take(self.spans.get_nowait())
            except queue.Empty:
                return
            except BaseException as fault:  # whatever it is, it is raised where the round is run
                if not self.is_over.is_set():
                    self.fault = fault
                self.is_over.set()

    def take(self, span: Span) -> None:
        """Gets a span into its file, as its bytes come."""
        getting, folder = self.getting, self.getting.folder
        getting.requests += 1
        with contextlib.closing(getting.place.blocks(span, folder.recording)) as blocks:
            first = next(blocks, b"")
            if first or folder.recording.identity != Identity():
                folder.know()
            if not first:
                return
            with folder.taking(span.start) as file:
                for block in itertools.chain([first], blocks):
                    file.write(block)
                    file.flush()
                    getting.progress.take(len(block))
                    if self.is_over.is_set():
                        return
