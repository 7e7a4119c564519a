"""Files: read to the end for their digest, and written whole or not at all."""
from __future__ import annotations

import contextlib
import hashlib
import os
import pathlib

from mxf.faults import READ, OwnFault

BLOCK = 1 << 20  # bytes that are read at once


def sha256_of(path: str) -> str:
    """The SHA-256 of a file."""
    digest = hashlib.sha256()
    try:
        with open(path, "rb") as file:
            for block in iter(lambda: file.read(BLOCK), b""):
                digest.update(block)
    except OSError as fault:
        raise OwnFault(READ, f"read fault: {path}: {fault.strerror}") from fault
    return digest.hexdigest()


def beside_of(path: pathlib.Path) -> pathlib.Path:
    """The file beside another that this is written to first. A name has 255 bytes at most."""
    name = os.fsdecode(os.fsencode(path.name)[:200])
    return path.with_name(f".{name}.{os.getpid()}.part")


def check_place(path: pathlib.Path) -> None:
    """Sees that a file can be made beside this one, before it is known what is written there, which may take an hour."""
    beside = beside_of(path)
    beside.touch(exist_ok=False)
    beside.unlink()


def write_whole(path: pathlib.Path, data: bytes) -> None:
    """Writes a file whole or not at all: beside its place, and then into it."""
    beside = beside_of(path)
    try:
        with open(beside, "xb") as file:
            file.write(data)
            file.flush()
            os.fsync(file.fileno())
        os.replace(beside, path)
    finally:
        with contextlib.suppress(OSError):
            beside.unlink()
