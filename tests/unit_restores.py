#!/usr/bin/env python3
"""Plays restores of edit units to their end: of a file some beginning is handed in, and what `plan --index` orders is cut
from the file and handed in, until it orders nothing.

    tests/unit_restores.py PROGRAM [COUNT [FIRST]]    restores of the numbers from FIRST (0) on, COUNT of them (40), and
                                                      a third as many by timecodes; the last line is 'N passed, M
                                                      failed'

Files are the examples with an index, and made ones: partitions of one stream, with the index in the footer, in each body
partition, of units of one size, or with none, and at times with a wrong BodyOffset. In the end all units are held or at
hand, and with their key frames all their bytes were handed in; of a file without an index, or with a wrong BodyOffset,
the restore ends. No byte is restored twice, and if the index lies in one place no more is restored for units than the
partitions of the wanted ones have up to the last of these.

By timecodes made files alone are restored. A material package gives positions their timecodes, by a clip or two, and
TemporalOffsets of index entries say that pictures are stored in another order than they are shown. In the end each
picture that is shown from the one timecode up to the other is stored in a unit whose bytes were all handed in.

From the first and the last bytes of a recording on, an eighth of it or 65,536, what is restored has as many bytes as the
wanted units at most, and 65,536 for each front. A made file is larger than that bound; the long GOP example is smaller,
and of it the bound says little.
"""
import dataclasses
import itertools
import json
import random
import sys
import tempfile

import clocks
import hostile_files
import notes
import packets
from restores import TOP, Restore, Wrong

FRONT = 65536
# The least size of a made file for which what is restored is counted.
LARGE = 400000
# More rounds than any of these restores takes.
MOST_ROUNDS = 16
# What begins a restore: of the file's bytes, the ranges that are handed in.
BEGINNINGS = {
    "nothing": lambda _, size: [(0, 0)],
    "the front": lambda rng, size: [(0, min(size, rng.choice((200, 1000, FRONT))))],
    "the end": lambda rng, size: [(max(size - rng.choice((100, 1000, FRONT)), 0), size)],
    "both": lambda rng, size: [(0, min(size, rng.choice((200, FRONT)))), (max(size - rng.choice((200, FRONT)), 0), size)],
    "parts": lambda rng, size: [(0, 150), *sorted(part_of(rng, size) for _ in range(3)), (size - 50, size)],
}


def part_of(rng, size):
    """Some range of a file."""
    start = rng.randrange(size)
    return start, min(size, start + rng.choice((30, 1000, size // 5)))


@dataclasses.dataclass
class Recording:
    """A file: its bytes, the IndexSID, where each unit begins and ends and where the essence of its partition does, and
    the least unit that each needs. `is_found` is whether all that is asked for can be found, `in_parts` whether the index
    lies in many parts: the last unit of one has no end before the next is there."""

    data: bytes
    index_sid: int
    units: list
    needs: list
    is_found: bool = True
    in_parts: bool = False

    def wanted(self, first, last):
        """The units of a range, and those that they need."""
        return self.units[min(self.needs[first : last + 1]) : last + 1]


def sized(lines):
    """How many bytes the packets of these lines have."""
    return sum(packets.size_of(packets.packet(line, 0)) for line in lines)


@dataclasses.dataclass
class Parts:
    """What a recording is made of: the kind of its index, how many units each body partition has, their sizes, which
    one of so many is a key frame, the unit in which each picture is stored, and its header metadata as lines."""

    kind: str
    counts: list
    sizes: list
    pictures: int
    stored: list
    metadata: tuple = ("primer", "fill 20")

    def segment(self, first, offsets):
        """The index table segment of units from one on, by their stream offsets."""
        entries = []
        for unit, offset in enumerate(offsets, first):
            temporal, key = self.stored[unit] - unit, -(unit % self.pictures)
            entries.append(f"{temporal % 256:02X}{key % 256:02X}00@{offset}")
        return f"segment start={first} duration={len(offsets)} entries={','.join(entries)}"


def parts_of_some(rng, kind):
    """The parts of a recording with the index of this kind: `footer`, `body`, `constant`, `none`, or with a `wrong`
    BodyOffset."""
    pictures = 1 if kind == "constant" else rng.choice((1, 3, 12))
    one_size = rng.randrange(50, 40000)
    counts = [rng.randint(1, 9) for _ in range(rng.randint(1, 7))]
    sizes = [one_size if kind == "constant" else rng.randrange(50, 40000) for _ in range(sum(counts))]
    return Parts(kind, counts, sizes, pictures, list(range(len(sizes))))


def made(rng, kind):
    """A recording of some body partitions, with the index of this kind."""
    return recording_of(parts_of_some(rng, kind))


def recording_of(parts):
    """The recording of these parts."""
    lines, units = laid_out(parts, 0)
    footer = sized(lines[: next(n for n, line in enumerate(lines) if line.startswith("footer"))])
    lines, units = laid_out(parts, footer)
    data = bytearray()
    for line in lines:
        data += packets.bytes_of(packets.packet(line, len(data)))
    needs = [unit - unit % parts.pictures for unit in range(len(units))]
    return Recording(bytes(data), 1, units, needs, parts.kind not in ("none", "wrong"), parts.kind == "body")


def laid_out(parts, footer):
    """The packets of a recording whose footer stands at `footer`, and where its units begin and end."""
    kind, counts, sizes = parts.kind, parts.counts, parts.sizes
    lines = [f"header footer={footer} header-bytes={sized(parts.metadata)}", *parts.metadata]
    units, partitions, at, stream, segments = [], [(0, 0)], sized(lines), 0, []
    for number, count in enumerate(counts):
        first = len(units)
        offsets = [stream + sum(sizes[first : first + n]) for n in range(count)]
        segment = parts.segment(first, offsets)
        index = [segment] if kind == "body" else []
        stated = f"index-bytes={sized(index)} index-sid=1" if index else ""
        begins = stream + (7 if kind == "wrong" and number == len(counts) // 2 else 0)
        lines += [f"body previous={partitions[-1][1]} footer={footer} body-offset={begins} body-sid=2 {stated}", *index]
        partitions.append((2, at))
        at = origin = at + sized(lines[-1 - len(index) :])
        for size in sizes[first : first + count]:
            lines.append(f"essence {size - 20}")
            units.append((at, at + size, origin))
            at, stream = at + size, stream + size
        segments.append(segment)
    if kind == "constant":
        segments = [f"segment unit-bytes={sizes[0]} duration={len(units)}"]
    index = [] if kind in ("body", "none") else segments
    stated = f"index-bytes={sized(index)} index-sid=1" if index else ""
    lines += [f"footer previous={partitions[-1][1]} footer={footer} {stated}", *index]
    listed = " ".join(f"{body_sid}:{offset}" for body_sid, offset in [*partitions, (0, footer)])
    return [*lines, f"rip {listed}"], units


def reordered(rng, count):
    """The unit in which the picture of each position is stored: some of them after another in any order."""
    stored = []
    while len(stored) < count:
        some = range(len(stored), min(count, len(stored) + rng.choice((1, 3, 8, 40))))
        stored += rng.sample(some, len(some))
    return stored


def clocked(rng, count):
    """Header metadata that tell the time of so many positions, as lines, and the clips: of each the number of its first
    timecode, its first position and how many it has. Of 25 timecodes a second a day has 2,160,000."""
    sets, file = hostile_files.Made(), 1 << 40
    number, first = rng.choice((0, 900000, 2159998)), rng.randrange(count)
    spans = [(first, count - first), (0, first)][: rng.choice((1, 2)) if first else 1]
    tracks = [sets.track(2, hostile_files.PICTURE, [sets.clip(0, 0, 0, count)])]
    source = sets.package("37", file, tracks, 1)
    clips = [sets.clip(file, 2, *span) for span in spans]
    tracks = [sets.clock(number), sets.track(2, hostile_files.PICTURE, clips)]
    material = sets.package("36", 1 << 41, tracks)
    lines = [f"hex {sets.metadata(hostile_files.references([material, source])).hex()}"]
    starts = itertools.accumulate((length for _, length in spans), initial=number)
    return lines, [(start, *span) for start, span in zip(starts, spans)]


def stored_of(data):
    """The unit in which the picture of each position is stored, by the index entries of a file (ST 377-1): the position
    and the TemporalOffset of its entry."""
    stored = {}
    for note in notes.read_piece(0, data)[0]:
        if note.key == packets.digits(packets.KEYS["segment"]):
            items, value = {}, note.held
            while value:
                length = int.from_bytes(value[2:4], "big")
                items[value[:2]], value = value[4 : 4 + length], value[4 + length :]
            start = int.from_bytes(items[b"\x3f\x0c"], "big")
            count, size = (int.from_bytes(items.get(b"\x3f\x0a", bytes(8))[at : at + 4], "big") for at in (0, 4))
            for n in range(count):
                entry = items[b"\x3f\x0a"][8 + n * size :]
                stored[start + n] = start + n + int.from_bytes(entry[:1], "big", signed=True)
    return stored


def example(program, name, last):
    """A recording of examples/, its units up to the last one as the whole file gives them."""
    data = (TOP / "examples" / name).read_bytes()
    with tempfile.TemporaryDirectory() as folder:
        restore = Restore(program, folder, data)
        restore.hand_in("at", 0, len(data))
        told = restore.call("units", "--json", "--index", "2", "--from", "0", "--to", str(last), *restore.sources)
    told = [unit for unit in map(json.loads, told.splitlines()) if unit["line"] == "unit"]
    needs = [min(unit["key"] if unit["key"] is not None else unit["unit"], unit["unit"]) for unit in told]
    return Recording(data, 2, [(unit["start"], unit["end"], told[0]["start"]) for unit in told], needs)


class UnitRestore(Restore):
    """A restore of some edit units of a recording, which are asked for by their numbers or by other words."""

    def __init__(self, program, folder, recording, first, last, words=None):
        super().__init__(program, folder, recording.data)
        self.recording, self.first, self.last = recording, first, last
        self.asked = words or ["--index", str(recording.index_sid), "--from", str(first), "--to", str(last)]
        self.told, self.restored = {}, {}

    def orders(self):
        """What is to be restored next. As long as no unit is known of a timecode, no line tells of units."""
        lines = list(map(json.loads, self.call("plan", "--json", *self.asked, *self.sources).splitlines()))
        self.told = next((line for line in lines if line["line"] == "units"), {})
        orders = [line for line in lines if line["line"] == "restore"]
        for order in orders:
            self.restored.setdefault(order["reason"], []).append(self.end_of(order) - order["start"])
        return orders

    def judge(self):
        """Judges what was restored when nothing is ordered any more."""
        twice = next((at for at, times in self.times.items() if times > 1), None)
        if twice is not None:
            raise Wrong(f"byte {twice} was restored twice")
        if any(size > FRONT for size in self.restored.get("front", [])):
            raise Wrong("a front is too long")
        wanted = self.recording.wanted(self.first, self.last)
        # If an unknown partition may lie before a unit, all of its partition's essence up to there is restored.
        most = sum(max(end for _, end, of in wanted if of == origin) - origin for origin in {unit[2] for unit in wanted})
        if not self.recording.in_parts and sum(self.restored.get("unit", [])) > most:
            raise Wrong("more is restored for units than they have")
        if not self.recording.is_found:
            return
        if not self.told or self.told["held"] + self.told["hand"] != self.told["units"]:
            raise Wrong(f"not all units are there: {self.told}")
        lost = [(start, end) for start, end, _ in wanted if not self.given.issuperset(range(start, end))]
        if lost:
            raise Wrong(f"bytes of wanted units are lost: {lost}")


def played(program, recording, first, last, ranges, words=None):
    """The restore of some units from these ranges on, asked for by these words or by their numbers."""
    with tempfile.TemporaryDirectory() as folder:
        restore = UnitRestore(program, folder, recording, first, last, words)
        for start, end in ranges:
            restore.hand_in("range", start, end)
        restore.play(MOST_ROUNDS)
        restore.judge()
    return restore


def try_number(program, number):
    """Plays the restore of a number."""
    rng = random.Random(f"units {number}")
    kind = rng.choice(("footer", "body", "constant", "none", "wrong", "long GOP", "OP-Atom"))
    if kind == "long GOP":
        recording = example(program, "op1a_mpeg2_long_gop.mxf", 3)
    elif kind == "OP-Atom":
        recording = example(program, "opatom_pcm.mxf", 9599)
    else:
        recording = made(rng, kind)
    first, last = sorted(rng.randrange(len(recording.units)) for _ in range(2))
    beginning = rng.choice(list(BEGINNINGS))
    try:
        played(program, recording, first, last, BEGINNINGS[beginning](rng, len(recording.data)))
    except Wrong as wrong:
        raise Wrong(f"{kind}, units {first} to {last}, from {beginning}: {wrong}") from wrong


def try_timed(program, number):
    """Plays the restore of a number by timecodes."""
    rng = random.Random(f"timecodes {number}")
    parts = parts_of_some(rng, rng.choice(("footer", "footer", "body", "body", "constant", "none", "wrong")))
    count = len(parts.sizes)
    if parts.kind != "constant":
        parts.stored = reordered(rng, count)
    parts.metadata, clips = clocked(rng, count)
    recording, (start, position, length) = recording_of(parts), rng.choice(clips)
    positions = sorted(position + rng.randrange(length) for _ in range(2))
    first, last = (clocks.label_of(start + shown - position, 25, False) for shown in positions)
    words = rng.choice(([], ["--index", "1"])) + ["--from", first, "--to", last]
    beginning = rng.choice(list(BEGINNINGS))
    stored = stored_of(recording.data)
    wanted = [stored.get(shown, shown) for shown in range(positions[0], positions[1] + 1)]
    try:
        ranges = BEGINNINGS[beginning](rng, len(recording.data))
        restore = played(program, recording, min(wanted), max(wanted), ranges, words)
        lost = [unit for unit in wanted if not restore.given.issuperset(range(*recording.units[unit][:2]))]
        if recording.is_found and lost:
            raise Wrong(f"pictures are lost, of the units {lost}")
        if recording.is_found and restore.told["units"] != max(wanted) - min(wanted) + 1:
            raise Wrong(f"other units are asked for than {min(wanted)} to {max(wanted)}: {restore.told}")
    except Wrong as wrong:
        raise Wrong(f"{parts.kind}, {' '.join(words)}, from {beginning}: {wrong}") from wrong


def large(kind):
    """The first made recording of a kind that is large."""
    numbered = (made(random.Random(f"{kind} {number}"), kind) for number in itertools.count())
    return next(recording for recording in numbered if len(recording.data) >= LARGE)


def try_counted(program, kind):
    """Counts what is restored of a minute in the middle of a recording, from its first and its last bytes on."""
    recording = example(program, "op1a_mpeg2_long_gop.mxf", 3) if kind == "long GOP" else large(kind)
    size, count = len(recording.data), len(recording.units)
    first, last = count // 3, 2 * count // 3
    ends = [(0, min(FRONT, size // 8)), (size - min(FRONT, size // 8), size)]
    restore = played(program, recording, first, last, ends)
    units = sum(end - start for start, end, _ in recording.wanted(first, last))
    fronts = len(restore.restored.get("front", []))
    total = sum(sum(sizes) for sizes in restore.restored.values())
    if kind != "long GOP" and units + FRONT * fronts >= size:
        raise Wrong(f"{kind}: the bound says nothing of a file of {size} bytes")
    if total > units + FRONT * fronts:
        raise Wrong(f"{kind}: {total} bytes are restored for {units} of units, and {fronts} fronts: {restore.restored}")


def main():
    if not 2 <= len(sys.argv) <= 4:
        sys.exit(__doc__)
    count, begin = (int(word) for word in (sys.argv + ["40", "0"][len(sys.argv) - 2 :])[2:4])
    tries = [(try_counted, kind) for kind in ("long GOP", "footer", "body", "constant")]
    tries += [(try_number, number) for number in range(begin, begin + count)]
    tries += [(try_timed, number) for number in range(begin, begin + count // 3)]
    failed = 0
    for what, of in tries:
        try:
            what(sys.argv[1], of)
        except Wrong as wrong:
            failed += 1
            print(f"FAILED: {what.__name__} {of}: {wrong}")
    print(f"{len(tries) - failed} passed, {failed} failed")
    return failed > 0


if __name__ == "__main__":
    sys.exit(main())
