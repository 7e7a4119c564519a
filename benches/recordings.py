"""Recordings, pieces, saved catalogues and printed note lines to measure with, by docs/FORMATS.md.

All bytes are the same in each run. Files are written part by part, so that this takes little memory.
"""

import hashlib
import struct
from collections.abc import Iterable, Iterator
from pathlib import Path

import packets

ESSENCE_KEY = packets.digits(packets.KEYS["essence"])

# The notes of saved catalogues: whole packets of PACKET_SIZE bytes, one after another. Each offset has thirteen digits
# up to some 89 million notes, so that lines that are sorted as text are sorted by offset.
FIRST_OFFSET = 1_000_000_000_000
PACKET_SIZE = 100_020
GREATEST_NOTES = 10_000_000

# The greatest end of a packet, up to which heads claim their bytes. The key and the length of a head have 25 bytes
# here.
GREATEST_END = 2**63 - 1
HEAD_SIZE = 25


def laid(line: str, offset: int = 0) -> bytes:
    """The packet at this offset that a line of a case states, as tests/packets.py lays it."""
    return packets.bytes_of(packets.packet(line, offset))


def small_head(header_bytes: int) -> bytes:
    """The packets of a partition pack that states `header_bytes` of header metadata and of a primer pack without an
    entry, each with its length in one byte."""
    return laid(f"header header-bytes={header_bytes} width=1") + laid("primer width=1 value=0000000000000012")


def essence_packet(value: bytes) -> bytes:
    """An essence packet with this value, four bytes that spell its length."""
    return ESSENCE_KEY + packets.length_field(4, len(value)) + value


def essence_value(size: int) -> bytes:
    """Bytes without a pattern: the digests of the numbers from 0 on."""
    digests = (hashlib.sha256(number.to_bytes(8, "big")).digest() for number in range(size // 32 + 1))
    return b"".join(digests)[:size]


def write_recording(path: Path, count: int, value_size: int) -> None:
    """A header partition pack, then `count` essence packets."""
    essence = essence_packet(essence_value(value_size))
    with open(path, "wb") as file:
        file.write(laid("header"))
        for _ in range(count):
            file.write(essence)


def write_sparse_recording(path: Path, count: int, value_size: int) -> None:
    """The same with values of zero bytes, which are holes of the file."""
    head = essence_packet(bytes(value_size))[:20]
    with open(path, "wb") as file:
        file.write(laid("header"))
        for _ in range(count):
            file.write(head)
            file.seek(value_size, 1)
        file.truncate()


def write_small_packets(path: Path, count: int, value_size: int = 0) -> None:
    """`count` essence packets with values of `value_size` bytes, 32 at most."""
    head = ESSENCE_KEY + bytes([value_size])
    with open(path, "wb") as file:
        for number in range(count):
            file.write(head + number.to_bytes(32, "big")[32 - value_size :])


def write_pieces(folder: Path, pieces: int, count: int, value_size: int) -> list[str]:
    """A recording of a header partition pack and essence packets, `count` in all, in pieces as equal as can be. Answers
    the sources of the pieces, in the order of the recording."""
    header = laid("header")
    essence = essence_packet(essence_value(value_size))
    sources = []
    offset = 0
    for number in range(pieces):
        first, last = count * number // pieces, count * (number + 1) // pieces
        path = folder / f"piece_{number}"
        size = 0
        with open(path, "wb") as file:
            for index in range(first, last):
                size += file.write(header if index == 0 else essence)
        sources.append(f"at:{offset}:{path}")
        offset += size
    return sources


def catalogue_start(count: int) -> bytes:
    """What is ahead of `count` notes in the file of a catalogue."""
    return b"MXFCAT\0\x02" + struct.pack(">Q", count)


def write_catalogue(path: Path, count: int, indexes: Iterable[int]) -> None:
    """A saved catalogue of `count` notes of essence packets, which have the indexes, rising."""
    with open(path, "wb") as file:
        file.write(catalogue_start(count))
        for index in indexes:
            numbers = struct.pack(">Q16sBQB", FIRST_OFFSET + index * PACKET_SIZE, ESSENCE_KEY, 4, PACKET_SIZE - 20, 0)
            file.write(numbers + hashlib.sha256(index.to_bytes(8, "big")).digest())


def write_heads(path: Path, count: int, indexes: Iterable[int]) -> None:
    """A saved catalogue of the heads of the same packets."""
    with open(path, "wb") as file:
        file.write(catalogue_start(count))
        for index in indexes:
            file.write(struct.pack(">Q16sBQB", FIRST_OFFSET + index * PACKET_SIZE, ESSENCE_KEY, 4, PACKET_SIZE - 20, 1))


def write_heads_under_one_another(path: Path, count: int, indexes: Iterable[int]) -> None:
    """A saved catalogue of `count` heads that all claim the bytes up to the greatest end, each from its own place."""
    with open(path, "wb") as file:
        file.write(catalogue_start(count))
        for index in indexes:
            offset = FIRST_OFFSET + index * HEAD_SIZE
            file.write(struct.pack(">Q16sBQB", offset, ESSENCE_KEY, 9, GREATEST_END - HEAD_SIZE - offset, 1))


def write_lines(path: Path, indexes: Iterable[int]) -> None:
    """The printed lines of the same notes."""
    with open(path, "w", encoding="ascii") as file:
        for index in indexes:
            offset = FIRST_OFFSET + index * PACKET_SIZE
            file.write(f"note {offset} essence 4 {PACKET_SIZE - 20} {ESSENCE_KEY.hex()}\n")


def half_shared(notes: int, part: int) -> Iterator[int]:
    """The indexes of one of two sets of `notes` notes, an even number, which share half of them: of each three indexes
    in a row the first is in part 0, the second in both and the third in part 1."""
    return (3 * (number // 2) + number % 2 + part for number in range(notes))


def half_shared_union(notes: int) -> int:
    """How many notes the two sets have together, if the number of notes is even."""
    return notes + notes // 2
