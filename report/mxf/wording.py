"""Numbers, rates and lengths in words."""
from __future__ import annotations

from mxf.lines import TrackLine


def bytes_text(number: int) -> str:
    """A number of bytes in words, with its size if it is large."""
    sizes = [(10**12, "TB"), (10**9, "GB"), (10**6, "MB")]
    for size, name in sizes:
        if number >= size:
            return f"{number} bytes ({number / size:.1f} {name})"
    return "1 byte" if number == 1 else f"{number} bytes"


def count_text(number: int, one: str, many: str | None = None) -> str:
    """A number of things in words."""
    return f"{number} {one if number == 1 else many or one + 's'}"


def are_text(number: int, one: str) -> str:
    """A number of things in words, with the verb after it."""
    return f"{count_text(number, one)} {'is' if number == 1 else 'are'}"


def rate_text(rate: str) -> str:
    """How many there are of something in a second, by a rate of two numbers."""
    above, _, below = rate.partition("/")
    if below == "1":
        return above
    try:
        return f"{int(above) / int(below):.2f} ({rate})" if below.isdigit() else rate
    except (ValueError, ArithmeticError):
        return rate


def times_text(text: str, count: int) -> str:
    """A text that is said so many times."""
    return f"{text} ({count} times)" if count > 1 else text


def length_text(track: TrackLine) -> str:
    """How long a track lasts, and how many edit units of what rate that is."""
    rate = f"{rate_text(track['rate'])} a second"
    if track["duration"] is None:
        return f"not known (edit units: {rate})"
    count = f"{count_text(track['duration'], 'edit unit')}, {rate}"
    return f"{track['length']} ({count})" if track["length"] else count
