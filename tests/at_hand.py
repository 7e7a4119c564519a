"""What is at hand of sources, what is put together of it, and what `plan` then orders, by the definitions of docs/MODEL.md
and the standards' tables alone (notes.py): a reader of its own, as slow as it is short. Nothing here is taken from the
program.
"""
import bisect
import itertools
import re

import notes
import packets

NEAR = 512
ROUNDS = 64
LONGEST_KEY_AND_LENGTH = 25
REASONS = ("header", "footer", "metadata", "index", "entry", "previous", "gap")

PARTITION = re.compile("060e2b34020501..0d01020101(02|03|04)0[1-4]00")
PRIMER = re.compile("060e2b34020501..0d01020101050100")
RIP = re.compile("060e2b34020501..0d01020101110100")
SEGMENT = re.compile("060e2b34025301..0d01020101100100")
FILL = re.compile("060e2b34010101..0301021001000000")
# The 14th byte of a footer partition pack's key.
FOOTER = 4


def joined(ranges):
    """These ranges as maximal ones, rising."""
    found = []
    for start, end in sorted(ranges):
        if found and start <= found[-1][1]:
            found[-1][1] = max(found[-1][1], end)
        elif start < end:
            found.append([start, end])
    return [tuple(one) for one in found]


class Ranges:
    """A set of offsets, as its maximal ranges."""

    def __init__(self, ranges):
        self.ranges = joined(ranges)
        self.starts = [start for start, _ in self.ranges]

    def end_at(self, offset):
        """The end of the range that has the offset, or None."""
        at = bisect.bisect_right(self.starts, offset) - 1
        return self.ranges[at][1] if at >= 0 and offset < self.ranges[at][1] else None

    def has_all(self, start, end):
        """Whether all offsets from one up to another are in the set."""
        reached = self.end_at(start)
        return start >= end or reached is not None and end <= reached

    def lacking(self, start, end):
        """The maximal ranges from an offset up to an end, or to no end, that have no offset of the set."""
        found, reached = [], start
        for first, last in self.ranges[max(bisect.bisect_right(self.starts, start) - 1, 0) :]:
            if end is not None and first >= end:
                break
            if first > reached:
                found.append((reached, first))
            reached = max(reached, last)
        return found + ([(reached, end)] if end is None or reached < end else [])


class AtHand:
    """The bytes at hand of sources, each the offset of its first byte and its bytes. None has to be a range."""

    def __init__(self, sources):
        runs, differing = [], set()
        for offset, data in sorted(((offset, data[: notes.GREATEST_END - offset]) for offset, data in sources), key=lambda one: one[0]):
            if not runs or offset > runs[-1][0] + len(runs[-1][1]):
                runs.append((offset, bytearray()))
            start, known = runs[-1]
            shared = known[offset - start : offset - start + len(data)]
            if shared != data[: len(shared)]:
                differing.update(offset + at for at, (one, other) in enumerate(zip(shared, data)) if one != other)
            known += data[len(shared) :]
        self.runs = [(start, known) for start, known in runs if known]
        self.given = Ranges((start, start + len(known)) for start, known in self.runs)
        places = sorted(differing)
        pairs = zip(places, places[1:])
        apart = [(at, at + 1) for at in places] + [(one, other + 1) for one, other in pairs if other - one < NEAR]
        apart = Ranges(apart)
        self.hand = Ranges(part for run in self.given.ranges for part in apart.lacking(*run))

    def bytes_of(self, start, end):
        """The bytes from an offset up to another, all of which are given."""
        at = bisect.bisect_right([first for first, _ in self.runs], start) - 1
        first, known = self.runs[at]
        return bytes(known[start - first : end - first])

    def reading(self, start, end):
        """The bytes at hand from an offset on, up to the end of their range or to a bound."""
        reached = self.hand.end_at(start)
        if reached is None:
            return b""
        end = reached if end is None else min(reached, end)
        return self.bytes_of(start, end) if start < end else b""

    def fits(self, head):
        """Whether no byte at hand of the head's key and length is another than it says."""
        spelled = head.key + packets.length_field(head.width, head.length)
        lying = ((at, self.reading(at, at + 1)) for at in range(head.offset, head.covered_end))
        return all(byte in (b"", spelled[at - head.offset : at - head.offset + 1]) for at, byte in lying)


def number(value, at, size):
    return int.from_bytes(value[at : at + size], "big")


def is_batch(value, size):
    """Whether these bytes are a batch of items of a size."""
    count = number(value, 0, 4)
    return len(value) >= 8 and (count == 0 or number(value, 4, 4) == size) and len(value) == 8 + count * size


class Content:
    """What is asked of the places of a content."""

    def __init__(self, content):
        self.notes = content
        places = set(notes.disputed(content))
        self.disputed = [content[at] for at in sorted(places)]
        self.undisputed = [note for at, note in enumerate(content) if at not in places]
        self.alone = {note.offset: note for note in self.undisputed}
        self.held = Ranges((note.offset, note.covered_end) for note in content)
        self.doubtful = Ranges((note.offset, note.covered_end) for note in self.disputed)
        self.heads = {}
        for note in content:
            if not note.is_whole:
                self.heads.setdefault(note.covered_end, []).append(note)
        self.top = max((note.end for note in content), default=0)
        self.held_end = self.held.ranges[-1][1] if self.held.ranges else 0
        self.rip, self.end = self.random_index()
        self.claims = sorted(self.all_claims(), key=lambda claim: (REASONS.index(claim[0]), -1 if claim[1] is None else claim[1]))

    def random_index(self):
        """The only random index pack, if it can be read, and where the file ends, if that is known."""
        packs = [note for note in self.undisputed if note.is_whole and RIP.fullmatch(note.key.hex())]
        if len(packs) != 1:
            return None, None
        pack = packs[0]
        can_be_read = pack.length >= 4 and pack.length % 12 == 4 and notes.is_kept(pack.key, pack.length)
        if not can_be_read or number(pack.held, pack.length - 4, 4) != 16 + pack.width + pack.length:
            return None, None
        return pack, pack.end if self.held_end <= pack.end else None

    def partitions(self):
        """The readable partition packs that share no byte with another packet."""
        for note in self.undisputed:
            if not note.is_whole or not PARTITION.fullmatch(note.key.hex()) or not notes.is_kept(note.key, note.length):
                continue
            if note.length >= 88 and is_batch(note.held[80:], 16):
                yield note

    def has_end_pack(self):
        """Whether a pack is held that stands at the end of a file alone: a footer partition's that can be read, or a random
        index pack."""
        packs = any(note.is_whole and RIP.fullmatch(note.key.hex()) for note in self.undisputed)
        return packs or any(note.key[13] == FOOTER for note in self.partitions())

    def may_have(self, offset):
        """Whether the offset may lie in the file."""
        return offset < notes.GREATEST_END and (self.end is None or offset < self.end)

    def stretch(self, start, count, begins):
        """The stretch of `count` bytes from the first packet after fills on: its end, and whether that isn't known;
        None if another packet stands there."""
        at = start
        while at in self.alone and FILL.fullmatch(self.alone[at].key.hex()):
            at = self.alone[at].end
        if at in self.alone:
            return (at + count, False) if begins(self.alone[at]) else None
        is_unknown = self.doubtful.end_at(at) is not None or self.held.end_at(at) is None
        return (at + 1, True) if self.may_have(at) and is_unknown else None

    def all_claims(self):
        """What packs say of offsets: reason, source, first offset, end, and whether the end isn't known."""
        yield "header", None, 0, 1, False
        for note in self.partitions():
            previous, footer, metadata, index = (number(note.held, at, 8) for at in (16, 24, 32, 40))
            if footer > note.offset:
                yield "footer", note.offset, footer, footer + 1, False
            if 0 < previous < note.offset:
                yield "previous", note.offset, previous, previous + 1, False
            behind = note.end
            if metadata:
                end, is_open = self.stretch(note.end, metadata, begins_metadata) or (None, False)
                if end is not None:
                    yield "metadata", note.offset, note.end, end, is_open
                behind = None if is_open else end
            if index and behind is not None:
                end, is_open = self.stretch(behind, index, lambda first: SEGMENT.fullmatch(first.key.hex())) or (None, False)
                if end is not None:
                    yield "index", note.offset, behind, end, is_open
        if self.rip:
            for at in range(4, self.rip.length - 4, 12):
                place = number(self.rip.held, at, 8)
                if place:
                    yield "entry", self.rip.offset, place, place + 1, False

    def sections(self):
        """The holes, cut where packs say that something begins or ends: of each section its first byte, its end, and the
        hole's."""
        named = {end if reason in ("metadata", "index") else start for reason, _, start, end, is_open in self.claims if not is_open}
        cuts = sorted(at for at in named if self.may_have(at) and self.held.end_at(at) is None)
        for start, end in self.held.lacking(0, None if self.end is None else self.end):
            inside = cuts[bisect.bisect_right(cuts, start) :]
            if end is not None:
                inside = inside[: bisect.bisect_left(inside, end)]
            for first, last in itertools.pairwise([start, *inside, end]):
                yield first, last, end


def begins_metadata(first):
    """Whether header metadata begin with the packet: a primer pack, which can be read if it is whole."""
    if not PRIMER.fullmatch(first.key.hex()):
        return False
    return not first.is_whole or notes.is_kept(first.key, first.length) and is_batch(first.held, 18)


def is_crossed(starts, head):
    """Whether one of these notes begins after the head's offset and below its end."""
    at = bisect.bisect_right(starts, head.offset)
    return at < len(starts) and starts[at] < head.end


def after_round(content, hand):
    """The content after a round."""
    places = Content(content)
    made, read, cut = [], [], []
    for first, end, hole_end in places.sections():
        heads = places.heads.get(first, [])
        start = min((head.offset for head in heads), default=first)
        fitting = [head for head in heads if head.offset == start and hand.fits(head)]
        if len(fitting) > 1:
            continue
        for head in fitting:
            start, lies_in_hole = head.end, hole_end is None or head.end <= hole_end
            if head.length and lies_in_hole and hand.hand.has_all(head.covered_end, head.end):
                value = hand.bytes_of(head.covered_end, head.end)
                made.append(notes.whole(head.offset, head.key, head.width, value))
        found, heads, _ = notes.read_piece(start, hand.reading(start, end))
        read += found
        cut += [(head, hole_end) for head in heads]
    starts = sorted({note.offset for note in read} | {head.offset for head, _ in cut})
    taken = [head for head, end in cut if (end is None or head.end <= end) and not is_crossed(starts, head)]
    return notes.reduced([*content, *read, *made, *taken])


def put_together(content, hand):
    """The content after packets were put together, in ROUNDS rounds at most, and how many rounds changed it."""
    for count in range(ROUNDS):
        after = after_round(content, hand)
        if after == content:
            return content, count
        content = after
    return content, ROUNDS


def parts_of(section, start, end, hand):
    """The parts of what is asked for of a section that are ordered."""
    first, own_end, _ = section
    parts = hand.hand.lacking(first, end)
    if not parts:
        return [(start, end)]
    is_at_hand = hand.hand.end_at(first) is not None
    if start == first if is_at_hand else start < first:
        parts[0] = (start, parts[0][1])
    if start < first and own_end is not None:
        parts = [part for part in parts if part[0] < own_end]
    return parts


def orders(content, hand):
    """What `plan` orders, as its lines."""
    places, found = Content(content), []
    given_end = hand.given.ranges[-1][1] if hand.given.ranges else 0
    edge = places.end if places.end is not None else max(places.top, given_end)
    for first, own_end, hole_end in places.sections():
        heads = places.heads.get(first, [])
        start = min((head.offset for head in heads), default=first)
        claim = next((claim for claim in places.claims if claim[2] <= start < claim[3]), ("gap", None, 0, 0, False))
        end = own_end
        if end is None and edge > first and not claim[4] and (places.top > first or edge - first >= LONGEST_KEY_AND_LENGTH):
            end = edge
        if end is None and claim[0] == "gap" and places.has_end_pack():
            continue
        claimed = max((head.end for head in heads if head.offset == start), default=0)
        if end is not None:
            end = max(end, claimed if hole_end is None else min(claimed, hole_end))
        for part in parts_of((first, own_end, hole_end), start, end, hand):
            found.append((REASONS.index(claim[0]), *part, claim[1], part[0] != start, is_again(part, hand)))
    return [order_line(*order) for order in sorted(found, key=lambda order: order[:2])]


def is_again(part, hand):
    """Whether the bytes of a part were handed in."""
    start, end = part
    if end is None:
        return hand.hand.has_all(start, start + LONGEST_KEY_AND_LENGTH)
    return hand.given.has_all(start, end)


def order_line(reason, start, end, source, inside, again):
    """The line of an order."""
    known = ("-" if number is None else str(number) for number in (end, source))
    flags = [" inside"] * inside + [" again"] * again
    return f"restore {start} {next(known)} {REASONS[reason]} {next(known)}" + "".join(flags)
