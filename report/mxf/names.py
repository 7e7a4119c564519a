"""The names of files that are made of recordings, which may have any name."""
from __future__ import annotations

import os

# Signs of a name that stand for themselves in the names of files, as letters beyond ASCII do. Any other stands as ^ and its
# two hexadecimal digits.
PLAIN = frozenset("abcdefghijklmnopqrstuvwxyzABCDEFGHIJKLMNOPQRSTUVWXYZ0123456789._+,@-")

LONGEST = 200  # bytes of a name of a file that stand in one folder


def coded(name: str) -> str:
    """The path by which the files of a recording are named: signs are coded, a hyphen and a point at the front alone. A long
    name goes on in a folder, whose name has ^ at its end."""
    lines = [b""]
    for place, letter in enumerate(name):
        is_plain = letter in PLAIN and (place > 0 or letter not in "-.")
        part = letter.encode() if is_plain or not letter.isascii() else b"^%02X" % ord(letter)
        if len(lines[-1]) + len(part) > LONGEST:
            lines.append(b"")
        lines[-1] += part
    return os.fsdecode(b"^/".join(lines))
