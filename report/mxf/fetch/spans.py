"""Spans of bytes of a recording: what of them lies where others don't, and which of them are got together."""
from __future__ import annotations

from collections.abc import Iterable, Iterator
from typing import NamedTuple

# The end of a span that goes on as far as the recording does. No recording has a byte there (docs/FORMATS.md).
OPEN = 2**63 - 1

NEAR = 65536  # spans that lie less apart are got by one request


class Span(NamedTuple):
    """Bytes of a recording, from the first up to the end, which is excluded."""

    start: int
    end: int

    @property
    def length(self) -> int:
        """How many bytes it has."""
        return self.end - self.start


def together(spans: Iterable[Span]) -> list[Span]:
    """The bytes that the spans have together, as the fewest spans, in order."""
    joined: list[Span] = []
    for span in sorted(span for span in spans if span.length > 0):
        if joined and span.start <= joined[-1].end:
            joined[-1] = Span(joined[-1].start, max(joined[-1].end, span.end))
        else:
            joined.append(span)
    return joined


def missing(wanted: Iterable[Span], held: Iterable[Span]) -> list[Span]:
    """The wanted bytes that aren't held, in order."""
    there = together(held)
    return [part for span in together(wanted) for part in parts_outside(span, there)]


def parts_outside(span: Span, there: list[Span]) -> Iterator[Span]:
    """The parts of a span that lie outside of others, which are in order and apart."""
    start = span.start
    for other in there:
        if other.end <= start:
            continue
        if other.start >= span.end:
            break
        if other.start > start:
            yield Span(start, other.start)
        start = other.end
    if start < span.end:
        yield Span(start, span.end)


def requests_for(wanted: Iterable[Span], held: Iterable[Span]) -> list[Span]:
    """The spans to ask for, so that all wanted bytes are held. Two that lie near each other are one, unless bytes between
    them are held."""
    there = together(held)
    asked: list[Span] = []
    for span in missing(wanted, there):
        between = Span(asked[-1].end, span.start) if asked else None
        if between and between.length < NEAR and missing([between], there) == together([between]):
            asked[-1] = Span(asked[-1].start, span.end)
        else:
            asked.append(span)
    return asked
