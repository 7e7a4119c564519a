"""What `describe` prints but for clocks, read anew: from the bytes of the sets of header metadata, by ST 377-1 and ST 400.

It is a second reader beside the program's: which copy is preferred, what references lead to, where components begin, what
kinds tracks are of, and which container a package has are found here from the notes alone (notes.py). No line of the
program is read.
"""

from __future__ import annotations

import collections
import dataclasses
import fractions
import re
from collections.abc import Iterable, Iterator
from typing import NamedTuple, Optional, Union

import notes

# Byte 15 of the keys of sets, whose eighth byte is a version.
SET = re.compile(r"060e2b34025301..0d01010101(01..)00")
PREFACE, STORAGE, MATERIAL, SOURCE = "012f", "0118", "0136", "0137"
OTHER_METADATA = ("0130",)
TRACK, SEQUENCE, CLIP, TIMECODE, FILLER, CONTAINER = "013b", "010f", "0111", "0114", "0109", "0123"
PARTITION = re.compile(r"060e2b34020501..0d010201010[234]0([1-4])00")
PRIMER = re.compile(r"060e2b34020501..0d01020101050100")
RAW_SET = re.compile(r"060e2b340253.{4}(?!0d010301).{16}")
SEGMENT = re.compile(r"060e2b34025301..0d01020101100100")

# The labels of kinds of tracks, of which the eighth byte is a version, and the thirteenth of timecode any of three.
KINDS = {
    "picture": re.compile("060e2b34040101..0103020201000000"),
    "sound": re.compile("060e2b34040101..0103020202000000"),
    "data": re.compile("060e2b34040101..0103020203000000"),
    "timecode": re.compile("060e2b34040101..010302010[123]000000"),
    "descriptive": re.compile("060e2b34040101..0103020110.{6}"),
}

# The tags of records with the bytes of each: a number of them, a batch of references, or any; and those that have to be
# there.
BATCH, ANY = -1, -2
TABLES: dict[str, tuple[dict[str, int], tuple[str, ...]]] = {
    "uid": ({"3c0a": 16}, ()),
    "preface": ({"3c0a": 16, "3b03": 16, "3b06": BATCH}, ("3b03",)),
    "storage": ({"3c0a": 16, "1901": BATCH}, ("1901",)),
    "package": ({"3c0a": 16, "4401": 32, "4402": ANY, "4405": 8, "4404": 8, "4403": BATCH, "4701": 16}, ("4401",)),
    "track": ({"3c0a": 16, "4801": 4, "4804": 4, "4802": ANY, "4b01": 8, "4b02": 8, "4803": 16}, ("4b01", "4803")),
    "sequence": ({"3c0a": 16, "0201": 16, "0202": 8, "1001": BATCH}, ("0201", "1001")),
    "clip": ({"3c0a": 16, "0202": 8, "1201": 8, "1101": 32, "1102": 4}, ()),
    "timecode": ({"3c0a": 16, "0202": 8, "1501": 8, "1502": 2, "1503": 1}, ("1501", "1502")),
    "filler": ({"3c0a": 16, "0202": 8}, ()),
    "container": ({"3c0a": 16, "2701": 32, "3f06": 4, "3f07": 4}, ("2701",)),
    "descriptor": (
        {
            "3c0a": 16, "3006": 4, "3001": 8, "3002": 8, "3004": 16, "3203": 4, "3202": 4, "3209": 4, "3208": 4, "320c": 1,
            "320e": 8, "3201": 16, "3301": 4, "3302": 4, "3308": 4, "3d03": 8, "3d07": 4, "3d01": 4, "3d06": 16, "3f01": BATCH,
        },
        (),
    ),
}  # fmt: skip
COMPONENTS = {CLIP: "clip", TIMECODE: "timecode", FILLER: "filler"}
PICTURE = ("3203", "3202", "3209", "3208", "320c", "320e", "3301", "3302", "3308", "3201")
SOUND = ("3d03", "3d07", "3d01", "3d06")
# The statuses of a partition, the least first, as byte 15 of its key has them: the last is closed and complete.
STATUSES = {"1": 0, "3": 1, "2": 2, "4": 3}

Record = dict[str, bytes]


class Target(NamedTuple):
    """What a reference leads to: a word, and the set that stands there, if one does."""

    word: str
    note: Optional[notes.Note]

    def __str__(self) -> str:
        return self.word if self.note is None else f"{self.word} {self.note.offset}"


@dataclasses.dataclass
class Component:
    """A component of a sequence: what the reference leads to, the name of its kind if it is found, where it begins and how
    long it is, in edit units, if that is known, and its items."""

    target: Target
    name: str
    start: Optional[int]
    duration: Optional[int]
    record: Record

    @property
    def package(self) -> bytes:
        """The package that a clip shows."""
        return self.record.get("1101", bytes(32))

    @property
    def track(self) -> int:
        """The number of the track that a clip shows."""
        return number(self.record.get("1102", b""))

    @property
    def position(self) -> int:
        """The position that a clip shows first."""
        return signed(self.record.get("1201", b""))

    @property
    def timecode(self) -> int:
        """The number that a timecode begins with."""
        return signed(self.record["1501"])

    @property
    def base(self) -> int:
        """How many frames a second a timecode counts."""
        return number(self.record["1502"])

    @property
    def is_drop(self) -> bool:
        """Whether a timecode leaves labels out: at 30 and 60 frames a second alone."""
        return number(self.record.get("1503", b"")) != 0 and self.base in (30, 60)


@dataclasses.dataclass
class Track:
    """A track that is found. Its kind is a hyphen if its sequence isn't found."""

    number: int
    kind: str
    rate: Optional[fractions.Fraction]
    origin: int
    components: list[Component]

    def clips(self, uid: bytes) -> list[Component]:
        """The clips of known start that name this package."""
        return [one for one in self.components if one.name == "clip" and one.start is not None and one.package == uid]


@dataclasses.dataclass
class Package:
    """A package that is found, with its tracks, and its container: a BodySID and an IndexSID."""

    is_material: bool
    uid: bytes
    container: Optional[tuple[int, int]]
    tracks: list[Track]

    @property
    def index(self) -> int:
        """The IndexSID of its container; 0 if it has none."""
        return self.container[1] if self.container else 0


def number(data: bytes) -> int:
    """A number of bytes, the highest first."""
    return int.from_bytes(data, "big")


def signed(data: bytes) -> int:
    """The same with a sign."""
    return int.from_bytes(data, "big", signed=True)


def batch(data: bytes, size: int) -> Optional[list[bytes]]:
    """The items of a batch of items of so many bytes, if it is one."""
    count, stated, items = number(data[:4]), number(data[4:8]), data[8:]
    if len(data) < 8 or (count and stated != size) or len(items) != count * size:
        return None
    return [items[at : at + size] for at in range(0, len(items), size)]


def items_of(value: bytes) -> Optional[list[tuple[str, bytes]]]:
    """The items of a local set, each a tag and a value, if each is whole."""
    items, at = [], 0
    while at < len(value):
        size = number(value[at + 2 : at + 4])
        if len(value) < at + 4 + size:
            return None
        items.append((value[at : at + 2].hex(), value[at + 4 : at + 4 + size]))
        at += 4 + size
    return items


def fits(value: bytes, size: int) -> bool:
    """Whether a value has so many bytes, or is such a batch."""
    return size == ANY or (batch(value, 16) is not None if size == BATCH else len(value) == size)


def record(note: notes.Note, table: str) -> Optional[Record]:
    """The items of a set by a table, if it can be read: each item whole, no tag of the table repeated, the identifier and what
    else has to be there, and each of its width."""
    sizes, required = TABLES[table]
    items = items_of(note.held)
    if items is None:
        return None
    found = [(tag, value) for tag, value in items if tag in sizes]
    read = dict(found)
    is_read = len(read) == len(found) and read.keys() >= {"3c0a", *required}
    return read if is_read and all(fits(value, sizes[tag]) for tag, value in found) else None


def is_kept(note: notes.Note) -> bool:
    """Whether a note has the value of its packet."""
    return note.is_whole and notes.is_kept(note.key, note.length)


def kind_of(note: notes.Note) -> str:
    """Bytes 14 and 15 of the key of a set, if it is one of the registry of structural metadata, otherwise nothing."""
    found = SET.fullmatch(note.key.hex())
    return found[1] if found else ""


def is_metadata(note: notes.Note) -> bool:
    """Whether a note is that of a set that isn't a raw one."""
    return kind_of(note) in (PREFACE, STORAGE, MATERIAL, SOURCE, *OTHER_METADATA)


def is_raw(note: notes.Note) -> bool:
    """Whether it is one of a raw set."""
    key = note.key.hex()
    return RAW_SET.fullmatch(key) is not None and not is_metadata(note) and not SEGMENT.fullmatch(key)


def is_pack(note: notes.Note) -> bool:
    """Whether it is that of a readable partition pack."""
    return PARTITION.fullmatch(note.key.hex()) is not None and is_kept(note) and batch(note.held[80:], 16) is not None


def is_primer(note: notes.Note) -> bool:
    """Whether it is that of a readable primer pack."""
    return PRIMER.fullmatch(note.key.hex()) is not None and is_kept(note) and batch(note.held, 18) is not None


@dataclasses.dataclass
class Copy:
    """A copy of the header metadata that has one Preface: its partition, its status, whether it is finished, and its sets."""

    partition: int
    status: int
    is_finished: bool
    sets: list[notes.Note]
    by_uid: dict[bytes, list[notes.Note]] = dataclasses.field(default_factory=dict)

    def __post_init__(self) -> None:
        self.by_uid = collections.defaultdict(list)
        for note in self.sets:
            read = record(note, "uid") if is_kept(note) else None
            if read:
                self.by_uid[read["3c0a"]].append(note)

    @property
    def preface(self) -> notes.Note:
        """Its Preface."""
        return next(note for note in self.sets if kind_of(note) == PREFACE)

    def find(self, uid: bytes) -> Union[str, notes.Note]:
        """The set with this identifier, or why there is none."""
        found = self.by_uid.get(uid, [])
        return found[0] if len(found) == 1 else "several" if found else "missing"


def copy_of(clear: list[notes.Note], place: int) -> Optional[Copy]:
    """The copy of the partition at this place of the clear notes, if it has one Preface."""
    pack = clear[place]
    size, at, behind = number(pack.held[32:40]), pack.end, place + 1
    while behind < len(clear) and clear[behind].offset == at and notes.FILL.fullmatch(clear[behind].key.hex()):
        at, behind = clear[behind].end, behind + 1
    if not size or behind == len(clear) or clear[behind].offset != at or not is_primer(clear[behind]):
        return None
    zone = []
    for note in clear[behind:]:
        if note.end > at + size:
            break
        zone.append(note)
    sets = [note for note in zone if is_metadata(note) or is_raw(note)]
    if sum(kind_of(note) == PREFACE for note in sets) != 1:
        return None
    status = PARTITION.fullmatch(pack.key.hex())
    covered = sum(note.end - note.offset for note in zone)
    return Copy(pack.offset, STATUSES[status[1]] if status else 0, covered == size, sets)


def preferred(content: list[notes.Note]) -> Optional[Copy]:
    """The copy that is gone by: a finished one, of the greatest status, the last one."""
    disputed = notes.disputed(content)
    clear = [note for place, note in enumerate(content) if note.is_whole and place not in disputed]
    found = (copy_of(clear, place) for place, note in enumerate(clear) if is_pack(note) and number(note.held[32:40]))
    copies = [copy for copy in found if copy]
    return max(copies, key=lambda one: (one.is_finished, one.status, one.partition), default=None)


def rate(data: bytes) -> tuple[int, int]:
    """The two numbers of a rate."""
    return signed(data[:4]), signed(data[4:])


def good_rate(data: bytes) -> Optional[fractions.Fraction]:
    """A rate, if both its numbers are above 0."""
    upper, lower = rate(data)
    return fractions.Fraction(upper, lower) if upper > 0 and lower > 0 else None


def duration(read: Record) -> Optional[int]:
    """A duration, if it is known."""
    value = signed(read["0202"]) if "0202" in read else -1
    return value if value >= 0 else None


def kind_of_label(label: bytes) -> str:
    """The word for what a sequence holds, or the label."""
    return next((word for word, form in KINDS.items() if form.fullmatch(label.hex())), label.hex())


def shown(value: Optional[object]) -> str:
    return "-" if value is None else str(value)


def length_of(units: Optional[int], edit_rate: Optional[fractions.Fraction]) -> str:
    """So many edit units as hours, minutes, seconds and thousandths."""
    if units is None or edit_rate is None:
        return "-"
    seconds, thousandths = divmod(int(units * 1000 / edit_rate), 1000)
    return f"{seconds // 3600:02}:{seconds // 60 % 60:02}:{seconds % 60:02}.{thousandths:03}"


def minute_of(minute: int, base: int, is_drop: bool) -> tuple[int, int]:
    """How many labels the minute has, and how many it leaves out."""
    out = base // 15 if is_drop and minute % 10 else 0
    return 60 * base - out, out


def day_of(base: int, is_drop: bool) -> int:
    """How many labels a day has."""
    return sum(minute_of(minute, base, is_drop)[0] for minute in range(10)) * 144


def label_of(count: int, base: int, is_drop: bool) -> str:
    """The label of a number, modulo a day."""
    tens, count = divmod(count % day_of(base, is_drop), day_of(base, is_drop) // 144)
    minute = 0
    while count >= minute_of(minute, base, is_drop)[0]:
        count -= minute_of(minute, base, is_drop)[0]
        minute += 1
    seconds, frames = divmod(count + minute_of(minute, base, is_drop)[1], base)
    hours, minutes = divmod(10 * tens + minute, 60)
    return f"{hours:02}:{minutes:02}:{seconds:02}{';' if is_drop else ':'}{frames:02}"


class Walk:
    """The packages of the preferred copy of these notes, and the lines that tell of them, but for texts."""

    def __init__(self, content: list[notes.Note]) -> None:
        self.copy = preferred(content)
        self.packages: list[Package] = []
        self.reached: set[int] = set()
        self.containers: dict[bytes, set[tuple[int, int]]] = collections.defaultdict(set)
        for note in self.copy.sets if self.copy else []:
            read = record(note, "container") if kind_of(note) == CONTAINER and is_kept(note) else None
            if read:
                pair = number(read.get("3f07", b"")), number(read.get("3f06", b""))
                self.containers[read["2701"]].add(pair)
        self.lines = list(self.all_lines())

    @property
    def is_finished(self) -> bool:
        """Whether there is a copy to go by, and all of it is there."""
        return self.copy is not None and self.copy.is_finished

    def target(self, uid: bytes, kinds: tuple[str, ...], table: str) -> tuple[Target, Record]:
        """What a reference to a raw set of one of these kinds leads to, and its items if it is found. Any raw set will do if
        no kind is named."""
        assert self.copy
        found = self.copy.find(uid)
        if isinstance(found, str):
            return Target(found, None), {}
        if not is_raw(found):
            return Target("wrong-kind", found), {}
        if kinds and kind_of(found) not in kinds:
            return Target("other", found), {}
        if found.offset in self.reached:
            return Target("again", found), {}
        self.reached.add(found.offset)
        read = record(found, table or COMPONENTS[kind_of(found)])
        return Target("unreadable" if read is None else "found", found), read or {}

    def package_target(self, uid: bytes) -> tuple[Target, Record]:
        """The same of a package."""
        assert self.copy
        found = self.copy.find(uid)
        if isinstance(found, str):
            return Target(found, None), {}
        if kind_of(found) not in (MATERIAL, SOURCE):
            return Target("wrong-kind", found), {}
        read = record(found, "package")
        if read is None:
            return Target("unreadable", found), {}
        if found.offset in self.reached:
            return Target("again", found), {}
        self.reached.add(found.offset)
        return Target("found", found), read

    def all_lines(self) -> Iterator[str]:
        """The lines of `describe` up to clocks, with `..` for texts."""
        if self.copy is None:
            yield "described none"
            return
        yield f"described {self.copy.partition} {'finished' if self.copy.is_finished else 'unfinished'}"
        preface = record(self.copy.preface, "preface") if is_kept(self.copy.preface) else None
        if preface is None:
            yield f"preface unreadable {self.copy.preface.offset}"
            return
        storage = self.copy.find(preface["3b03"])
        if isinstance(storage, str):
            yield f"storage {storage}"
            return
        if kind_of(storage) != STORAGE:
            yield f"storage wrong-kind {storage.offset}"
            return
        read = record(storage, "storage")
        if read is None:
            yield f"storage unreadable {storage.offset}"
            return
        for uid in batch(read["1901"], 16) or []:
            yield from self.package_lines(uid)

    def package_lines(self, uid: bytes) -> Iterator[str]:
        """The lines of a package."""
        target, read = self.package_target(uid)
        if not target.note or target.word != "found":
            yield f"package - {target}"
            return
        containers = self.containers.get(read["4401"], set())
        package = Package(kind_of(target.note) == MATERIAL, read["4401"], None, [])
        self.packages.append(package)
        yield f"package {'material' if package.is_material else 'source'} {package.uid.hex()}"
        if "4402" in read:
            yield "name .."
        if "4405" in read:
            made = read["4405"]
            yield f"created {signed(made[:2])} {' '.join(map(str, made[2:]))}"
        if len(containers) == 1:
            package.container = next(iter(containers))
            yield f"container {package.container[0]} {package.container[1]}"
        for track in batch(read.get("4403", bytes(8)), 16) or []:
            yield from self.track_lines(package, track)
        if "4701" in read:
            target, descriptor = self.target(read["4701"], (), "descriptor")
            yield f"descriptor {target}"
            yield from descriptor_lines(target, descriptor)
            for part in batch(descriptor.get("3f01", bytes(8)), 16) or []:
                target, below = self.target(part, (), "descriptor")
                yield f"subdescriptor {target}"
                yield from descriptor_lines(target, below)

    def track_lines(self, package: Package, uid: bytes) -> Iterator[str]:
        """The lines of a track."""
        target, read = self.target(uid, (TRACK,), "track")
        if target.word != "found":
            yield f"track - {target}"
            return
        sequence_target, sequence = self.target(read["4803"], (SEQUENCE,), "sequence")
        is_found = sequence_target.word == "found"
        kind = kind_of_label(sequence["0201"]) if is_found else "-"
        track = Track(number(read.get("4801", b"")), kind, good_rate(read["4b01"]), signed(read.get("4b02", b"")), [])
        package.tracks.append(track)
        units = duration(sequence)
        upper, lower = rate(read["4b01"])
        yield (
            f"track {track.number} {kind} number {read.get('4804', bytes(4)).hex()} rate {upper}/{lower} origin {track.origin}"
            f" duration {shown(units)} length {length_of(units, track.rate)}"
        )
        if "4802" in read:
            yield "track-name .."
        if not is_found:
            yield f"sequence {sequence_target}"
            return
        start: Optional[int] = 0
        for part in batch(sequence["1001"], 16) or []:
            component = self.component(part, start)
            track.components.append(component)
            yield component_line(component)
            lasts = component.duration if component.target.word == "found" else None
            start = None if start is None or lasts is None else start + lasts

    def component(self, uid: bytes, start: Optional[int]) -> Component:
        """The component that a reference leads to, which begins there if that is known."""
        target, read = self.target(uid, tuple(COMPONENTS), "")
        name = COMPONENTS[kind_of(target.note)] if target.note and target.word == "found" else "component"
        return Component(target, name, start, duration(read), read)


def component_line(component: Component) -> str:
    """The line of a component."""
    start = shown(component.start)
    if component.name == "component":
        return f"component {start} {component.target}"
    front = f"{component.name} {start} {shown(component.duration)}"
    if component.name == "clip":
        return f"{front} package {component.package.hex()} track {component.track} from {component.position}"
    if component.name == "timecode":
        base = component.base
        return f"{front} at {label_of(component.timecode, base, component.is_drop) if base else '-'} base {base}"
    return front


def descriptor_lines(target: Target, read: Record) -> Iterator[str]:
    """The lines of a descriptor that is found."""
    if target.word != "found":
        return

    def value(tag: str) -> str:
        """A number, a rate or a label, or a hyphen."""
        data = read.get(tag)
        if data is None:
            return "-"
        if tag in ("3001", "320e", "3d03"):
            return "/".join(map(str, rate(data)))
        if tag == "3002":
            return shown(duration({"0202": data}))
        return data.hex() if len(data) == 16 else str(number(data))

    yield f"essence {value('3006')} rate {value('3001')} duration {value('3002')} container {value('3004')}"
    if any(tag in read for tag in PICTURE):
        wide, high, shown_wide, shown_high, layout, aspect, depth, across, down, coding = map(value, PICTURE)
        yield (
            f"picture {wide} {high} display {shown_wide} {shown_high} layout {layout} aspect {aspect} depth {depth}"
            f" sampling {across} {down} coding {coding}"
        )
    if any(tag in read for tag in SOUND):
        sound_rate, channels, bits, coding = map(value, SOUND)
        yield f"sound rate {sound_rate} channels {channels} bits {bits} coding {coding}"


def is_described(lines: Iterable[str], walk: Walk) -> bool:
    """Whether these lines of `describe`, but for clocks and the last one, are those of the walk."""
    told = [re.sub(r"^(name|track-name) .*", r"\1 ..", line) for line in lines]
    return [line for line in told if not line.startswith(("clock ", "packages "))] == walk.lines
