"""What the answers of a place say of a recording, by which a later answer is known to be of the same one."""
from __future__ import annotations

import threading
from typing import NamedTuple

from mxf.faults import READ, OwnFault
from mxf.fetch.faults import changed
from mxf.fetch.spans import OPEN


class Identity(NamedTuple):
    """The size of a recording, and what names this state of it: an ETag, and the time of its last change. What isn't known
    is None."""

    size: int | None = None
    etag: str | None = None
    modified: str | None = None


class Recording:
    """A recording that lies somewhere: how that is shown to people, the name of what was begun of it, and its identity by
    the answers so far."""

    def __init__(self, shown: str, begun: str, identity: Identity = Identity()) -> None:
        self.shown = shown
        self.begun = begun
        self.identity = identity
        self.lock = threading.Lock()

    def meet(self, told: Identity) -> bool:
        """Takes what an answer says of the recording, and answers whether more is known by it. If it is another recording
        than before, that is a fault."""
        if told.size is not None and told.size >= OPEN:
            raise OwnFault(READ, f"read fault: {self.shown}: its size {told.size} is above the greatest of a recording")
        with self.lock:
            before = self.identity
            if not is_one(before, told):
                raise changed(self.shown, self.begun)
            self.identity = Identity(
                told.size if before.size is None else before.size,
                told.etag if before.etag is None else before.etag,
                told.modified if before.modified is None else before.modified,
            )
            return self.identity != before


def is_one(first: Identity, second: Identity) -> bool:
    """Whether two answers can be of one state of a recording. Where both have an ETag, that says it, and else the time of the
    last change."""
    pairs = [(first.size, second.size), (first.etag, second.etag)]
    if first.etag is None or second.etag is None:
        pairs.append((first.modified, second.modified))
    return all(old is None or new is None or old == new for old, new in pairs)
