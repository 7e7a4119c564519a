"""Times in UTC, as seconds since 1970 and by ISO 8601."""
from __future__ import annotations

import os
import re
import time
from typing import TYPE_CHECKING

if TYPE_CHECKING:
    from mxf.lines import StampLine

DAY = 24 * 60 * 60  # seconds
TIMES = range(-62_135_596_800, 253_402_300_800)  # from the first second of the year 1 to the last of 9999

# A time by ISO 8601, to the second or to the thousandth.
TIME = re.compile(r"[0-9]{4}-[0-9]{2}-[0-9]{2}T[0-9]{2}:[0-9]{2}:[0-9]{2}(\.[0-9]{3})?Z")


def now() -> float:
    """The time of this call; that of SOURCE_DATE_EPOCH if it says one that can be."""
    epoch = os.environ.get("SOURCE_DATE_EPOCH", "")
    is_time = epoch.isascii() and epoch.isdigit() and len(epoch) <= 12 and int(epoch) in TIMES
    return int(epoch) if is_time else time.time()


def text_of(seconds: float) -> str | None:
    """A time to the second; None of one outside the years 1 to 9999."""
    if int(seconds) not in TIMES:
        return None
    return "{:04}-{:02}-{:02}T{:02}:{:02}:{:02}Z".format(*time.gmtime(int(seconds)))


def fine_text_of(seconds: float) -> str:
    """A time within these years, to the thousandth of a second."""
    whole, part = divmod(int(seconds * 1000), 1000)
    return f"{(text_of(whole) or '')[:-1]}.{part:03}Z"


def fine(text: str) -> str:
    """A time to the second, or to the thousandth, as one to the thousandth: such texts go as their times do."""
    return text if "." in text else f"{text[:-1]}.000Z"


def text_of_stamp(line: StampLine) -> str | None:
    """A timestamp of header metadata, as it is stored; None of one that is all zeros, which says that none is known."""
    day = line["year"], line["month"], line["day"]
    clock = line["hour"], line["minute"], line["second"], 4 * line["quarter"]
    if not any(day + clock):
        return None
    return "{:04}-{:02}-{:02}T{:02}:{:02}:{:02}.{:03}".format(*day, *clock)
