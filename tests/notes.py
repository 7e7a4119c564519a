"""What is noted of a piece, by ST 336 alone, and the catalogue file of notes in both versions, as docs/FORMATS.md lays
them out. Version 2 is written; version 1, of older programs, has no marks, so no heads.

Nothing here is taken from the program: a reader of its own says what a piece holds and why it ends, which notes are
disputed, what lies in none, and what is at fault in the bytes of a catalogue.
"""
import collections
import hashlib
import re
from typing import NamedTuple

# The keys of packets whose value is kept: partition packs, primer packs, random index packs, and sets but those of
# essence.
PACKS = "020501..0d010201(010[234]0[1234]00|01050100|01110100)"
SETS = "0253....(?!0d010301).{16}"
KEPT = re.compile(f"060e2b34({PACKS}|{SETS})")
LONGEST_KEPT = 4_194_304
GREATEST_END = 2**63 - 1
# The keys that have a kind and aren't of the groups registry, whose fifth byte is 02: of fills and of essence.
ELEMENTS = re.compile("060e2b34(010101..0301021001000000|0102....0d010301.{8})")
FILL = re.compile("060e2b34010101..0301021001000000")
# The recordings that `find` names of a fragment.
MOST_RECORDINGS = 16
# The bytes of a range that are searched for its start.
LONGEST_WINDOW = 33_554_432

LABEL = bytes.fromhex("060E2B34")
MAGIC = b"MXFCAT\0"
# The version that is written.
CURRENT = 2
# By version, the bytes of a note ahead of what it holds: offset, key, width and length, and in version 2 the mark of a
# head.
FIXED = {1: 8 + 16 + 1 + 8, 2: 8 + 16 + 1 + 8 + 1}


class Note(NamedTuple):
    """A note, its parts in the order by which notes are sorted: of two with equal offset, key, width and length the
    head comes first. A head holds nothing."""

    offset: int
    key: bytes
    width: int
    length: int
    is_whole: bool
    held: bytes

    @property
    def end(self):
        """Where its packet ends; that of a head, where it would."""
        return self.offset + 16 + self.width + self.length

    @property
    def covered_end(self):
        """Where the bytes end that are held of it: after the packet, and after the length of a head."""
        return self.end if self.is_whole else self.offset + 16 + self.width

    @property
    def head(self):
        """The head of its packet."""
        return self._replace(is_whole=False, held=b"")

    def saved(self, version=CURRENT):
        """Its bytes in a catalogue file of this version. A head, which version 1 can't have, has the fields alone."""
        numbers = self.offset.to_bytes(8, "big") + self.key + bytes([self.width]) + self.length.to_bytes(8, "big")
        mark = b"" if version == 1 else b"\0" if self.is_whole else b"\1"
        return numbers + mark + self.held


def is_kept(key, length):
    """Whether a note holds the value of a packet, and not its digest."""
    return KEPT.fullmatch(key.hex()) is not None and length <= LONGEST_KEPT


def whole(offset, key, width, value):
    """The note of a whole packet."""
    held = value if is_kept(key, len(value)) else hashlib.sha256(value).digest()
    return Note(offset, key, width, len(value), True, held)


def head(offset, key, width, length):
    """The head of a packet of which key and length alone were read."""
    return Note(offset, key, width, length, False, b"")


def read_piece(offset, data):
    """The notes of a piece's whole packets, those of the packet that its end cuts, a head or none, and why it ends."""
    found, at = [], 0
    while at < len(data):
        rest, place = data[at : at + 25], offset + at
        if not LABEL.startswith(rest[:4]):
            return found, [], f"not-ul {place}"
        if len(rest) > 16 and (rest[16] == 0x80 or rest[16] > 0x88):
            return found, [], f"bad-length {place}"
        width = 1 if len(rest) < 17 or rest[16] < 0x80 else rest[16] - 0x7F
        if len(rest) < 16 + width:
            return found, [], f"truncated {place}"
        length = rest[16] if width == 1 else int.from_bytes(rest[17 : 16 + width], "big")
        end = 16 + width + length
        if place + end > GREATEST_END:
            return found, [], f"too-far {place}"
        if at + end > len(data):
            return found, [head(place, rest[:16], width, length)], f"truncated {place}"
        found.append(whole(place, rest[:16], width, data[at + 16 + width : at + end]))
        at += end
    return found, [], "end"


def may_begin(offset, window, at):
    """Whether a piece may begin at a position of a window: a packet of a kind, or of the groups registry, and after it
    a label, as far as the window has bytes."""
    key, rest = window[at : at + 16], window[at + 16 : at + 25]
    if len(key) < 16 or key[:4] != LABEL or rest[:1] == b"" or rest[0] == 0x80 or rest[0] > 0x88:
        return False
    width = 1 if rest[0] < 0x80 else rest[0] - 0x7F
    if len(rest) < width or not (key[4] == 2 or ELEMENTS.fullmatch(key.hex())):
        return False
    end = at + 16 + width + (rest[0] if width == 1 else int.from_bytes(rest[1:width], "big"))
    return offset + end <= GREATEST_END and LABEL.startswith(window[end : end + 4])


def start_of(offset, data):
    """The first position of a range's window at which a piece may begin, or none."""
    window = data[:LONGEST_WINDOW]
    at = window.find(LABEL)
    while at >= 0 and not may_begin(offset, window, at):
        at = window.find(LABEL, at + 1)
    return at if at >= 0 else None


def read_range(offset, data):
    """The same of a range: of its piece."""
    start = start_of(offset, data)
    if start is None:
        return [], [], f"no-start {offset + len(data[:LONGEST_WINDOW])}"
    return read_piece(offset + start, data[start:])


def reduced(notes):
    """These notes, sorted and each once, without the heads of packets that are noted whole."""
    notes = set(notes)
    heads = {note for note in notes if not note.is_whole}
    replaced = {note.head for note in notes if note.is_whole} if heads else set()
    return sorted(notes - replaced)


def file_start(count, version=CURRENT):
    """What a catalogue file of this version has ahead of `count` notes."""
    return MAGIC + bytes([version]) + count.to_bytes(8, "big")


def file_of(notes, version=CURRENT):
    """The catalogue file of these notes, whatever their order, with repeats and heads of what is whole."""
    content = reduced(notes)
    return file_start(len(content), version) + b"".join(note.saved(version) for note in content)


def can_be(offset, key, width, length, mark):
    """Whether there is a note of these parts."""
    spelled = length < 128 if width == 1 else 2 <= width <= 9 and length < 256 ** (width - 1)
    return key.startswith(LABEL) and spelled and offset + 16 + width + length <= GREATEST_END and mark < 2


def read_note(data, at, version):
    """The note that stands at this place of a file and how many bytes it has, or what is at fault."""
    begins = at + FIXED[version]
    fixed = data[at:begins]
    if len(data) < begins:
        return None, f"truncated at {at}"
    offset, key, width, length = int.from_bytes(fixed[:8], "big"), fixed[8:24], fixed[24], int.from_bytes(fixed[25:33], "big")
    mark = 0 if version == 1 else fixed[33]
    if not can_be(offset, key, width, length, mark):
        return None, f"bad note at {at}"
    size = 0 if mark else length if is_kept(key, length) else 32
    if len(data) < begins + size:
        return None, f"truncated at {at}"
    held = data[begins : begins + size]
    return Note(offset, key, width, length, mark == 0, held), FIXED[version] + size


def read_file(data):
    """The notes of a catalogue file, and None; or None and what is at fault first."""
    if not MAGIC.startswith(data[:7]):
        return None, "bad magic"
    if len(data) > 7 and data[7] not in FIXED:
        return None, "bad version"
    if len(data) < 16:
        return None, "truncated at 0"
    notes, at = [], 16
    for _ in range(int.from_bytes(data[8:16], "big")):
        note, size = read_note(data, at, data[7])
        if note is None:
            return None, size
        if notes and note <= notes[-1]:
            return None, f"not sorted at {at}"
        if notes and note.is_whole and note.head == notes[-1]:
            return None, f"not reduced at {at}"
        notes.append(note)
        at += size
    return (notes, None) if at == len(data) else (None, f"trailing bytes at {at}")


def disputed(notes):
    """Which of these sorted notes share a byte with another, by their places: a head claims all bytes of its packet."""
    found, reach = set(), 0
    for at, note in enumerate(notes):
        if note.offset < reach:
            found.add(at)
        if at + 1 < len(notes) and notes[at + 1].offset < note.end:
            found.add(at)
        reach = max(reach, note.end)
    return found


def note_lines(notes):
    """What `show` prints of these sorted notes, with `..` for the word of the kind."""
    marked = disputed(notes)
    for at, note in enumerate(notes):
        marks = ("" if note.is_whole else " head") + (" disputed" if at in marked else "")
        yield f"note {note.offset} .. {note.width} {note.length} {note.key.hex()}{marks}"


def source_lines(words, contents):
    """What `sources` prints of sources that these words name and that have these notes, with `..` for the word of a
    kind."""
    contents = [reduced(notes) for notes in contents]
    content = reduced(note for notes in contents for note in notes)
    marked = {content[at] for at in disputed(content)}
    sources = {note: [] for note in content}
    for number, notes in enumerate(contents, 1):
        for note in notes:
            sources.setdefault(note, []).append(number)
    held = set(content)
    for number, (word, notes) in enumerate(zip(words, contents), 1):
        alone = sum(note in held and sources[note] == [number] for note in notes)
        yield f"source {number} notes {len(notes)} alone {alone} disputed {len(marked.intersection(notes))} {word}"
    for note in sorted(marked):
        digest = hashlib.sha256(note.held).hexdigest() if is_kept(note.key, note.length) else note.held.hex()
        parts = f"{note.width} {note.length} {note.key.hex()} {digest if note.is_whole else 'head -'}"
        yield f"disputed {note.offset} .. {parts} from {' '.join(map(str, sources[note]))}"
    yield f"sources {len(contents)} notes {len(content)} disputed {len(marked)}"


def gaps(notes):
    """The ranges of bytes, below the greatest end, that these sorted notes don't cover, rising."""
    found, reach = [], 0
    for note in notes:
        if reach < note.offset:
            found.append((reach, note.offset))
        reach = max(reach, note.covered_end)
    last = max((note.end for note in notes), default=0)
    return found + ([(reach, last)] if reach < last else [])


def gap_lines(notes):
    """What `show` prints of them."""
    return [f"gap {start} {end}" for start, end in gaps(notes)]


def ranges_of(ranges):
    """The maximal ranges of the bytes that lie in some of these, rising."""
    found = []
    for start, end in sorted(ranges):
        if found and start <= found[-1][1]:
            found[-1] = (found[-1][0], max(end, found[-1][1]))
        elif start < end:
            found.append((start, end))
    return found


def without(ranges, others):
    """The maximal ranges of the bytes of the first that lie in none of the others; both rise."""
    found = []
    for start, end in ranges:
        for first, last in others:
            if last > start and first < end:
                found.append((start, first))
                start = max(start, last)
        found.append((start, end))
    return ranges_of(found)


def held_by(notes):
    """The maximal ranges of the bytes that these notes hold."""
    return ranges_of((note.offset, note.covered_end) for note in notes)


def share(notes, note):
    """Whether one of these holds a byte that the note holds."""
    return any(other.offset < note.covered_end and note.offset < other.covered_end for other in notes)


class Bytes:
    """Bytes beside a reference, the first of which lies at the offset: those below the greatest end."""

    def __init__(self, offset, data):
        self.offset = offset
        self.data = data[: GREATEST_END - offset]
        self.end = offset + len(self.data)
        self.ranges = ranges_of([(offset, self.end)])

    def has_all(self, note):
        """Whether all bytes that a note holds are among them."""
        return self.offset <= note.offset and note.covered_end <= self.end

    def touches(self, note):
        """Whether some are."""
        return self.offset < note.covered_end and note.offset < self.end

    def says(self, note):
        """Whether they are what a note says."""
        held = self.data[note.offset - self.offset : note.covered_end - self.offset]
        spelled = note.length.to_bytes(note.width - 1, "big") if note.width > 1 else bytes([note.length])
        front = note.key + (bytes([0x7F + note.width]) if note.width > 1 else b"") + spelled
        return held.startswith(front) and (not note.is_whole or whole(note.offset, note.key, note.width, held[len(front) :]) == note)

    def tell(self, reference, crowded):
        """The notes of a reference that are the same, and those that differ; crowded ones aren't compared."""
        compared = [note for note in reference if self.has_all(note) and note not in crowded]
        same = [note for note in compared if self.says(note)]
        known = set(same)
        return known, {note for note in compared if note not in known and not share(same, note)}


class Saved:
    """The notes of a catalogue beside a reference."""

    def __init__(self, notes):
        self.notes = notes
        self.ranges = held_by(notes)

    def has_all(self, _):
        """A catalogue has notes, and no bytes."""
        return False

    def touches(self, note):
        """Whether it has the head of a packet that was noted whole."""
        return note.is_whole and note.head in self.notes

    def tell(self, reference, _):
        """The notes of a reference that it has, and those that a note of it contradicts which the reference hasn't."""
        others = [note for note in self.notes if note not in had(reference)]
        contradicted = {
            note for note in reference if any(other != note and note not in had([other]) and other not in had([note]) and share([other], note) for other in others)
        }
        known = had(self.notes)
        return {note for note in reference if note in known}, contradicted


def had(notes):
    """What a content has: its notes, and the heads of whole ones."""
    return {*notes, *(note.head for note in notes if note.is_whole)}


def shown_note(note):
    """What a note says, with `..` for the word of its kind."""
    return f"{note.offset} .. {note.width} {note.length} {note.key.hex()}{'' if note.is_whole else ' head'}"


def verify_lines(reference, sources):
    """What `verify` prints of sources beside a reference, after the lines of stops, with `..` for a kind's word."""
    crowded = {note for note in (reference[at] for at in disputed(reference)) if note.is_whole and not is_kept(note.key, note.length)}
    told = [source.tell(reference, crowded) for source in sources]
    for number, (_, differs) in enumerate(told, 1):
        yield from (f"differs {number} {shown_note(note)}" for note in sorted(differs))
    same = set().union(*(same for same, _ in told))
    differing = set().union(*(differs for _, differs in told))
    cut = [
        note for note in reference
        if note not in same | differing and not any(source.has_all(note) for source in sources) and any(source.touches(note) for source in sources)
    ]
    yield from (f"cut {shown_note(note)}" for note in cut)
    held, verified = held_by(reference), held_by(same)
    unknown = without(ranges_of(one for source in sources for one in source.ranges), held)
    yield from (f"unknown {start} {end}" for start, end in unknown)
    yield from (f"unverified {start} {end}" for start, end in without(without(held, verified), held_by(differing)))
    known, all_bytes, other = (sum(end - start for start, end in ranges) for ranges in (verified, held, unknown))
    packets = f"{len(same)} of {len(reference)} packets {known} of {all_bytes} bytes"
    yield f"verified {packets} differs {len(differing)} cut {len(cut)} unknown {other}"


def by_length(note):
    """What two notes have in common that agree by length."""
    return note.key, note.width, note.length


def by_value(note):
    """What two whole notes have in common that agree by value."""
    return *by_length(note), note.held


def telling(notes):
    """The notes of these that tell by value, and those that tell by length, each by what it tells by."""
    values = collections.Counter(by_value(note) for note in notes if note.is_whole)
    lengths = collections.Counter(map(by_length, notes))
    marked = disputed(notes)
    sound = [note for at, note in enumerate(notes) if at not in marked and not FILL.fullmatch(note.key.hex())]
    return (
        {by_value(note): note for note in sound if note.is_whole and values[by_value(note)] == 1},
        {by_length(note): note for note in sound if lengths[by_length(note)] == 1},
    )


def most_voted(fragment, recording):
    """By how much the notes of a fragment are moved in a recording by most votes, of several numbers the least; or
    None. Both are what tells there."""
    votes = collections.Counter(recording[0][of].offset - note.offset for of, note in fragment[0].items() if of in recording[0])
    for of, note in fragment[1].items():
        other = recording[1].get(of)
        if other and not (note.is_whole and other.is_whole):
            votes[other.offset - note.offset] += 1
    return min(votes, key=lambda shift: (-votes[shift], shift), default=None)


def agreeing(fragment, recording, shift):
    """How many notes of a fragment agree with one of a recording if they are moved so, and how many of these as heads."""
    standing = collections.defaultdict(set)
    for note in recording:
        standing[note.offset, *by_length(note)].add(note.held if note.is_whole else None)
    found = heads = 0
    for note in fragment:
        there = standing.get((note.offset + shift, *by_length(note)), set())
        if note.is_whole and there - {None}:
            found += note.held in there
        else:
            found, heads = found + bool(there), heads + bool(there)
    return found, heads


def find_lines(fragments, recordings):
    """What `find` prints of fragments, each the offset of its bytes and its notes, and of recordings, each its word and
    its notes."""
    recordings = [(word, notes, telling(notes)) for word, notes in ((word, reduced(notes)) for word, notes in recordings)]
    good = 0
    for number, (offset, notes) in enumerate(fragments, 1):
        notes, ranked = reduced(notes), []
        told = telling(notes)
        for which, (word, others, told_there) in enumerate(recordings, 1):
            shift = most_voted(told, told_there)
            if shift is not None:
                found, heads = agreeing(notes, others, shift)
                ranked.append((-found, which, f"{shift + offset} {found} of {len(notes)} heads {heads} {word}"))
        ranked.sort()
        yield from (f"found {number} {which} {line}" for _, which, line in ranked[:MOST_RECORDINGS])
        if not ranked:
            yield f"unknown {number} {len(notes)}"
        good += [-found for found, *_ in ranked[:2]].count(len(notes)) == 1
    yield f"fragments {len(fragments)} found {good}"
