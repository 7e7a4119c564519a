"""Files in shapes that cost the product of two counts if each view looks over all packets, each of a stated count.

All bytes are the same in each run. `SHAPES` names them, with the question that the program is asked of each.
"""

import random
from collections.abc import Callable, Iterable
from dataclasses import dataclass
from pathlib import Path

import hostile_files
import notes

from recordings import ESSENCE_KEY, essence_packet, laid

# The bytes of a partition pack's packet without essence containers, and those of a set with nothing but its identifier.
PACK = 20 + 88
SET = 20 + 4 + 16
SETS_OF_A_COPY = 28
# The values of essence packets that are an edit unit each, and the bytes of such a packet.
VALUE = b"value"
OTHERS = (b"other", b"third")
UNIT = 20 + len(VALUE)
# The edit units that a segment lists.
LISTED = 250


def pack(number: int, this: int, previous: int, header_bytes: int = 0, body_sid: int = 0) -> bytes:
    """The packet of a partition pack that names no footer: the first is a header's, the others are those of bodies."""
    name = "body" if number else "header"
    return laid(f"{name} previous={previous} header-bytes={header_bytes} body-sid={body_sid}", this)


def primer(tags: int = 1) -> bytes:
    """The packet of a primer pack with entries for the first tags."""
    return laid("primer " + " ".join(f"{tag:04X}={tag:032X}" for tag in range(tags)))


def identification(number: int) -> bytes:
    """The packet of an identification that has nothing but its identifier."""
    return laid(f"identification 3C0A={number:032X}")


def names(numbers: Iterable[int]) -> str:
    """The batch of the identifiers of these numbers, as hexadecimal digits."""
    identifiers = [f"{number:032X}" for number in numbers]
    return f"{len(identifiers):08X}00000010" + "".join(identifiers)


def growing(count: int) -> list[bytes]:
    """Partitions of a growing recording, each with its copy of the header metadata and an essence packet."""
    first = primer()
    sets = b"".join(identification(number) for number in range(SETS_OF_A_COPY))
    essence = essence_packet(bytes(100))
    metadata = first + sets
    size = PACK + len(metadata) + len(essence)
    parts = []
    for number in range(count):
        this = number * size
        parts.append(pack(number, this, max(0, this - size), len(metadata), 1) + metadata + essence)
    return [b"".join(parts)]


def zones(count: int) -> list[bytes]:
    """Partitions whose header metadata are said to reach to the end of the file, over all the others."""
    first = primer()
    size = PACK + len(first)
    parts = []
    for number in range(count):
        this = number * size
        parts.append(pack(number, this, max(0, this - size), (count - number) * size - PACK) + first)
    return [b"".join(parts)]


def far(count: int) -> list[bytes]:
    """Partitions that all name the first as the one before them."""
    return [b"".join(pack(number, number * PACK, 0) for number in range(count))]


def random_indexes(count: int) -> list[bytes]:
    """A header partition, `count` essence packets, and as many random index packs that list the partition."""
    essence = essence_packet(b"")
    index = laid("rip 0:0")
    return [pack(0, 0, 0) + essence * count + index * count]


def tags(count: int) -> list[bytes]:
    """A primer pack of `count` entries, and a set of as many items."""
    entries = primer(count)
    items = laid("raw-set " + " ".join(f"{tag:04X}=" for tag in range(count)))
    return [pack(0, 0, 0, len(entries) + len(items)) + entries + items]


def references(count: int) -> list[bytes]:
    """A Preface that names `count` identifications, which are all held."""
    storage = f"{2**100:032X}"
    preface = laid(f"preface 3C0A={2**101:032X} 3B03={storage} 3B06={names(range(count))}")
    sets = b"".join(identification(number) for number in range(count))
    metadata = primer() + preface + sets
    return [pack(0, 0, 0, len(metadata)) + metadata]


def named(count: int) -> list[bytes]:
    """A content storage of `count` references, which all name one package of sixty times as many items."""
    preface = laid(f"preface 3C0A={1:032X} 3B03={2:032X} 3B06={names([])}")
    storage = laid(f"content-storage 3C0A={2:032X} 1901={names([3] * count)}")
    items = " ".join(f"{0x8000 + number % 0x4000:04X}=" for number in range(60 * count))
    package = laid(f"source-package 3C0A={3:032X} 4401=00*32 {items}")
    metadata = primer() + preface + storage + package
    return [pack(0, 0, 0, len(metadata)) + metadata]


def causes(count: int) -> list[bytes]:
    """Partitions that name another offset as their own, and none that is there as the one before them."""
    return [b"".join(pack(1, number * PACK + 1, 1) for number in range(count))]


def disputed(count: int) -> list[bytes]:
    """Two readings of essence packets that differ in every byte of their values."""
    return [essence_packet(byte) * (count // 2) for byte in (b"a", b"b")]


def reading(count: int, number: int) -> list[bytes]:
    """One of several readings of `count` identifications, which differ in all of them."""
    front = identification(0)[:-16]
    return [front + (2**64 * number + place).to_bytes(16, "big") for place in range(count)]


def noted(parts: Iterable[bytes]) -> list[notes.Note]:
    """The notes of packets that stand one after the other from 0 on, each with its length in four bytes."""
    found, offset = [], 0
    for part in parts:
        found.append(notes.whole(offset, part[:16], 4, part[20:]))
        offset += len(part)
    return found


def beside(count: int) -> list[bytes]:
    """The first of three readings."""
    return [b"".join(reading(count // 2, 0))]


def contents_beside(count: int) -> list[list[notes.Note]]:
    """Two of three readings together, the values of which are kept, and the third."""
    first, second, third = (noted(reading(count // 2, number)) for number in range(3))
    return [first + second, third]


def unit_packets(count: int) -> list[bytes]:
    """A file of `count` edit units, each an essence packet, with their index."""
    segment = laid(f"segment duration={count} unit-bytes={UNIT}")
    footer = 2 * PACK + count * UNIT
    head = [laid(f"header footer={footer}"), laid(f"body footer={footer} body-sid=2", PACK)]
    states = f"footer previous={PACK} footer={footer} index-bytes={len(segment)} index-sid=1"
    tail = [laid(states, footer), segment, laid(f"rip 0:0 2:{PACK} 0:{footer}")]
    return head + [essence_packet(VALUE)] * count + tail


def units(count: int) -> list[bytes]:
    """Such a file."""
    return [b"".join(unit_packets(count))]


def contents_of_units(count: int) -> list[list[notes.Note]]:
    """What a catalogue has of such a file: of each four units the first as it is, the second with another value, the
    third in two readings, and the fourth not."""
    found = []
    for note in noted(unit_packets(count)):
        which = (note.offset - 2 * PACK) // UNIT % 4 if note.key == ESSENCE_KEY else 0
        values = ([VALUE], OTHERS[:1], OTHERS, [])[which]
        found += [note] if which == 0 else [notes.whole(note.offset, note.key, 4, value) for value in values]
    return [found]


def segments(count: int, entry: Callable[[int], str]) -> list[bytes]:
    """`count` segments that list 250 edit units each, one after the other."""
    parts = []
    for number in range(count):
        start = LISTED * number
        entries = ",".join(entry(unit) for unit in range(start, start + LISTED))
        parts.append(laid(f"segment start={start} duration={LISTED} entries={entries}"))
    return parts


def listed(count: int) -> list[bytes]:
    """`count` segments of 250 edit units, after a body partition and the first packet of its essence, so that each unit
    is looked for in the file."""
    parts = [pack(0, 0, 0), pack(1, PACK, 0, body_sid=2), essence_packet(VALUE)]
    return [b"".join(parts + segments(count, lambda unit: str(UNIT * unit)))]


def lost_partitions(count: int) -> list[list[notes.Note]]:
    """What a catalogue has of a closed recording of `count` partitions with an edit unit each: every other partition, and
    the footer with the index and the random index pack."""
    unit = essence_packet(VALUE)
    size = PACK + len(unit)
    footer = count * size
    parts = []
    for number in range(count):
        this = number * size
        states = f"previous={max(0, this - size)} footer={footer} body-sid=2 body-offset={number * len(unit)}"
        parts += [laid(f"{'body' if number else 'header'} {states}", this), unit]
    index = segments(count // LISTED, lambda unit: str(UNIT * unit))
    states = f"previous={footer - size} footer={footer} index-bytes={sum(map(len, index))} index-sid=1"
    listed = " ".join(f"2:{number * size}" for number in range(count))
    parts += [laid(f"footer {states}", footer), *index, laid(f"rip {listed} 0:{footer}")]
    return [[note for note in noted(parts) if note.offset >= footer or note.offset // size % 2 == 0]]


def constant_index(partitions: int, repeated: bool) -> bytes:
    """`partitions` partitions of 250 edit units of one size each, of which the first packet is there. Their index stands
    in the first, or is repeated in each."""
    segment = laid(f"segment unit-bytes={UNIT}")
    parts, this, previous = [], 0, 0
    for number in range(partitions):
        index = segment if repeated or number == 0 else b""
        states = f"previous={previous} index-bytes={len(index)} index-sid={1 if index else 0} body-sid=2"
        name = "body" if number else "header"
        part = laid(f"{name} {states} body-offset={LISTED * UNIT * number}", this) + index + essence_packet(VALUE)
        parts.append(part)
        previous, this = this, this + len(part)
    return b"".join(parts)


def ended(count: int) -> list[bytes]:
    """A recording whose random index pack lists `count` partitions of an edit unit each, and as many indexes, each with a
    segment of one unit, of sizes that differ."""
    unit, parts, this, previous = essence_packet(VALUE), [], 0, 0
    footer = count * (PACK + len(unit))
    for number in range(count):
        states = f"previous={previous} footer={footer} body-sid=2 body-offset={number * len(unit)}"
        part = laid(f"{'body' if number else 'header'} {states}", this) + unit
        parts.append(part)
        previous, this = this, this + len(part)
    index = [laid(f"segment index-sid={number + 1} unit-bytes={number + 1} start={number % 2} duration=1") for number in range(count)]
    states = f"previous={previous} footer={footer} index-bytes={sum(map(len, index))} index-sid=1"
    listed_partitions = " ".join(f"2:{number * (PACK + len(unit))}" for number in range(count))
    parts += [laid(f"footer {states}", footer), *index, laid(f"rip {listed_partitions} 0:{footer}")]
    return [b"".join(parts)]


def timed(count: int) -> list[bytes]:
    """The same with a clip in the header metadata that gives each edit unit its timecode. The pictures are stored in
    another order than they are shown: the first, and then of each three the last one first."""
    made, file = hostile_files.Made(), 1
    track, shown = (made.track(2, hostile_files.PICTURE, [made.clip(name, 2, 0, LISTED * count)]) for name in (0, file))
    packages = [made.package("36", 2, [made.clock(0), shown]), made.package("37", file, [track], 1)]
    header = made.laid(hostile_files.references(packages))[0][1]
    parts = [header, pack(1, len(header), 0, body_sid=2), essence_packet(VALUE)]
    offsets = ("01", "01", "FE")
    parts += segments(count, lambda unit: f"{offsets[(unit - 1) % 3] if unit else '00'}0000@{UNIT * unit}")
    return [b"".join(parts)]


def tracks(count: int) -> list[bytes]:
    """Header metadata of `count` tracks in packages of a thousand each, each with a sequence of a component."""
    return [data for _, data in hostile_files.many_tracks(random.Random(0), count)]


def again(count: int) -> list[bytes]:
    """Header metadata whose lists of packages, tracks, components and subdescriptors name one set `count` times each."""
    return [data for _, data in hostile_files.named_again(random.Random(0), count)]


@dataclass(frozen=True)
class Shape:
    """What the counts are of, what is asked, the least count, and what makes the pieces, which all begin at 0; also what
    makes the contents of saved catalogues, which are sources after the pieces, and the options. Of a verification the
    first of the catalogues is the reference."""

    unit: str
    question: str
    least: int
    pieces: Callable[[int], list[bytes]]
    contents: Callable[[int], list[list[notes.Note]]] = lambda _: []
    options: tuple[str, ...] = ()

    def asked(self) -> str:
        """The question with what it is asked for beside, as a row names it."""
        return " ".join((self.question, *(word for word in self.options if word == "--doubts")))


SHAPES = {
    "growing": Shape("partitions with 28 sets each", "show", 500, growing),
    "checked": Shape("partitions with 28 sets each", "check", 500, growing),
    "zones": Shape("zones over one another", "show", 2000, zones),
    "far": Shape("partitions that name the first", "check", 4000, far),
    "indexes": Shape("random index packs behind as many packets", "check", 4000, random_indexes),
    "tags": Shape("tags for as many items", "show", 2000, tags),
    "references": Shape("references among as many sets", "check", 500, references),
    "named": Shape("references to one package of many items", "check", 500, named),
    "causes": Shape("partitions with two findings", "check", 8000, causes),
    "doubts": Shape("partitions with 28 sets each", "check", 500, growing, options=("--doubts",)),
    "doubted_zones": Shape("zones over one another", "check", 2000, zones, options=("--doubts",)),
    "doubted_tags": Shape("tags for as many items", "check", 2000, tags, options=("--doubts",)),
    "doubted_references": Shape("references among as many sets", "check", 500, references, options=("--doubts",)),
    "doubted_ends": Shape("partitions and indexes", "check", 4000, ended, options=("--doubts",)),
    "doubted_lists": Shape("segments of 250 units", "check", 450, listed, options=("--doubts",)),
    "doubted_partitions": Shape(
        "partitions with a unit, every other lost", "check", 4000, lambda _: [], lost_partitions, ("--doubts",)
    ),
    "disputed": Shape("disputed notes", "show", 37_500, disputed),
    "readings": Shape("disputed notes of two sources", "sources", 37_500, disputed),
    "beside": Shape("disputed notes of a reference", "verify", 37_500, beside, contents_beside),
    "listed": Shape("segments of 250 units", "units", 450, listed),
    "lost_partitions": Shape(
        "partitions, every other lost", "plan", 4000, lambda _: [], lost_partitions, ("--index", "1")
    ),
    "tracks": Shape("tracks in packages of a thousand", "describe", 2000, tracks),
    "again": Shape("references to one set in each list", "describe", 500, again),
    "units": Shape("units in as many ranges", "verify", 37_500, units, contents_of_units, ("--index", "1")),
}


def write_shape(name: str, count: int, folder: Path) -> list[str]:
    """Writes the pieces and catalogues of a shape, and answers the words that name them after the question."""
    shape = SHAPES[name]
    sources = []
    for number, piece in enumerate(shape.pieces(count)):
        path = folder / f"{name}_{number}"
        path.write_bytes(piece)
        sources.append(f"at:0:{path}")
    catalogues = []
    for number, content in enumerate(shape.contents(count)):
        path = folder / f"{name}_{number}.cat"
        path.write_bytes(notes.file_of(content))
        catalogues.append(f"cat:{path}")
    if shape.question != "verify":
        return [*shape.options, *sources, *catalogues]
    return ["--against", catalogues[0], *shape.options, *sources, *catalogues[1:]]
