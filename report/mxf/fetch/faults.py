"""What can go wrong when a recording is got, beside what is wrong for any program here."""
from __future__ import annotations

from mxf.faults import OwnFault

CHANGED = 4  # the status of a recording that is another than it was


class Bounded(Exception):
    """A round would get more bytes than a call may get. Nothing of it is begun."""

    def __init__(self, wanted: int, most: int) -> None:
        super().__init__(f"{wanted} bytes are wanted so far, and --most is {most}")


def changed(shown: str, begun: str) -> OwnFault:
    """The recording has changed since its ranges were begun."""
    return OwnFault(CHANGED, f"{shown} has changed since {begun} was begun")
