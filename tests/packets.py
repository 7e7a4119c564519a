"""Packets, laid field by field from what a case states of them.

Keys and layouts are those of SMPTE ST 336 and ST 377-1, as the tables of docs/FORMATS.md restate them; nothing here is
taken from the program. A packet is a list of fields, each a name and its bytes, so that it can be read with its names:
`tests/cases.py --bytes CASE` prints it so. What is noted of packets, and the catalogue file of notes, is notes.py.
"""
import itertools
import re

KEYS = {
    "header": "060E2B34 02050101 0D010201 01020400",
    "body": "060E2B34 02050101 0D010201 01030400",
    "footer": "060E2B34 02050101 0D010201 01040400",
    "primer": "060E2B34 02050101 0D010201 01050100",
    "rip": "060E2B34 02050101 0D010201 01110100",
    "segment": "060E2B34 02530101 0D010201 01100100",
    "preface": "060E2B34 02530101 0D010101 01012F00",
    "identification": "060E2B34 02530101 0D010101 01013000",
    "content-storage": "060E2B34 02530101 0D010101 01011800",
    "material-package": "060E2B34 02530101 0D010101 01013600",
    "source-package": "060E2B34 02530101 0D010101 01013700",
    "raw-set": "060E2B34 02530101 0D010101 01013B00",
    "track": "060E2B34 02530101 0D010101 01013B00",
    "sequence": "060E2B34 02530101 0D010101 01010F00",
    "clip": "060E2B34 02530101 0D010101 01011100",
    "timecode": "060E2B34 02530101 0D010101 01011400",
    "filler": "060E2B34 02530101 0D010101 01010900",
    "container": "060E2B34 02530101 0D010101 01012300",
    "descriptor": "060E2B34 02530101 0D010101 01012800",
    "fill": "060E2B34 01010102 03010210 01000000",
    "essence": "060E2B34 01020101 0D010301 15010500",
}

# Byte 15 of a partition pack's key.
STATUSES = {"open-incomplete": 1, "closed-incomplete": 2, "open-complete": 3, "closed-complete": 4}

# The numbers of a partition pack: name, bytes, and the value if a case states none ("this": where the packet
# stands).
PARTITION = [
    ("major", 2, "1"),
    ("minor", 2, "3"),
    ("kag", 4, "1"),
    ("this", 8, None),
    ("previous", 8, "0"),
    ("footer", 8, "0"),
    ("header-bytes", 8, "0"),
    ("index-bytes", 8, "0"),
    ("index-sid", 4, "0"),
    ("body-offset", 8, "0"),
    ("body-sid", 4, "0"),
]
OP1A = "060E2B34 04010101 0D010201 01010100"

# The items of an index table segment: name, tag, bytes of each number, and the value if a case states none.
SEGMENT = [
    ("rate", "3F0B", 4, "25/1"),
    ("start", "3F0C", 8, "0"),
    ("duration", "3F0D", 8, "0"),
    ("unit-bytes", "3F05", 4, "0"),
    ("index-sid", "3F06", 4, "1"),
    ("body-sid", "3F07", 4, "2"),
    ("slices", "3F08", 1, "0"),
    ("positions", "3F0E", 1, "0"),
]

# The items of sets that have names, each a tag and what its value is: a number of so many bytes, two of four, a reference
# or several, the identifier of a package, the label of a kind of track, or bytes. Those of a component are in each of them.
COMPONENT = {"kind": ("0201", "label"), "duration": ("0202", 8)}
ITEMS = {
    "preface": {"storage": ("3B03", "reference"), "identifications": ("3B06", "references")},
    "content-storage": {"packages": ("1901", "references")},
    "material-package": {"package": ("4401", "package"), "tracks": ("4403", "references"), "descriptor": ("4701", "reference")},
    "track": {
        "id": ("4801", 4), "number": ("4804", "bytes"), "rate": ("4B01", "rate"), "origin": ("4B02", 8),
        "sequence": ("4803", "reference"),
    },
    "sequence": {**COMPONENT, "parts": ("1001", "references")},
    "clip": {**COMPONENT, "from": ("1201", 8), "package": ("1101", "package"), "track": ("1102", 4)},
    "timecode": {**COMPONENT, "start": ("1501", 8), "base": ("1502", 2), "drop": ("1503", 1)},
    "filler": COMPONENT,
    "container": {"package": ("2701", "package"), "index-sid": ("3F06", 4), "body-sid": ("3F07", 4)},
    "descriptor": {
        "track": ("3006", 4), "rate": ("3001", "rate"), "duration": ("3002", 8), "container": ("3004", "bytes"),
        "width": ("3203", 4), "height": ("3202", 4), "display-width": ("3209", 4), "display-height": ("3208", 4),
        "layout": ("320C", 1), "aspect": ("320E", "rate"), "coding": ("3201", "bytes"), "depth": ("3301", 4),
        "horizontal": ("3302", 4), "vertical": ("3308", 4), "sound-rate": ("3D03", "rate"), "channels": ("3D07", 4),
        "bits": ("3D01", 4), "sound-coding": ("3D06", "bytes"), "parts": ("3F01", "references"),
    },
}  # fmt: skip
ITEMS["source-package"] = ITEMS["material-package"]

# The labels of the kinds of tracks, by SMPTE ST 400: timecode by ST 12-1, by ST 12-1 in user bits and by ST 309.
LABELS = {
    "picture": "060E2B34 04010101 01030202 01000000",
    "sound": "060E2B34 04010101 01030202 02000000",
    "data": "060E2B34 04010101 01030202 03000000",
    "timecode": "060E2B34 04010101 01030201 01000000",
    "timecode-2": "060E2B34 04010101 01030201 02000000",
    "timecode-3": "060E2B34 04010101 01030201 03000000",
    "descriptive": "060E2B34 04010101 01030201 10000000",
}

# The one entry of a primer pack if a case states none: the tag 8001 has a label of sixteen bytes AA.
PRIMER_ENTRY = ("8001", "AA*16")

# A tag, as it stands before the value of an item.
TAG = re.compile("[0-9A-F]{4}")


class Mistake(Exception):
    """A case that can't be read."""


def number(text, size):
    """A number of `size` bytes, the highest first."""
    return int(text).to_bytes(size, "big", signed=text.startswith("-"))


def digits(text):
    """Bytes as hexadecimal digits, with `*N` for repetition and commas between parts: `00000001,AA*16`."""
    data = b""
    for part in text.split(","):
        spelled, _, times = part.partition("*")
        data += bytes.fromhex(spelled) * int(times or 1)
    return data


def item(tag, value):
    """An item of a local set: tag, length of two bytes, value."""
    return [("tag", digits(tag)), ("length", number(str(len(value)), 2)), ("value", value)]


def repeated(text, size):
    """An identifier of so many bytes, or one byte of it that is all of them."""
    return digits(text) * size if len(text) == 2 else digits(text)


def item_value(form, text):
    """The value of an item of this form."""
    if isinstance(form, int):
        return number(text, form)
    if form == "rate":
        return b"".join(number(part, 4) for part in text.split("/"))
    if form == "label":
        return digits(LABELS.get(text, text))
    if form in ("reference", "package"):
        return repeated(text, 16 if form == "reference" else 32)
    if form == "references":
        named = [repeated(part, 16) for part in text.split(",") if part]
        return number(str(len(named)), 4) + number("16", 4) + b"".join(named)
    return digits(text)


def items_of(name, words):
    """The items that these words state of a set, in their order, each a tag and its value as digits. A word that is a
    number of two digits is the set's identifier."""
    named = ITEMS.get(name, {})
    for word in words:
        title, is_stated, text = word.partition("=")
        if not is_stated and name in ITEMS and re.fullmatch("[0-9A-F]{2}", word):
            yield "3C0A", f"{word}*16"
        elif TAG.fullmatch(title) and is_stated:
            yield title, text
        elif title in named and text != "-":
            tag, form = named[title]
            yield tag, item_value(form, text).hex()


def partition_value(stated, offset):
    """The value of a partition pack. `labels=` are its essence containers, and `count=` says another number of them."""
    fields = []
    for name, size, default in PARTITION:
        fields.append((name, number(stated.pop(name, default or str(offset)), size)))
    labels = digits(stated.pop("labels", ""))
    fields.append(("pattern", digits(stated.pop("pattern", OP1A))))
    fields.append(("count", number(stated.pop("count", str(len(labels) // 16)), 4)))
    fields.append(("item size", number("16", 4)))
    return fields + [("labels", labels)]


def primer_value(entries):
    """The value of a primer pack: a batch of entries of eighteen bytes, a tag and a label each."""
    fields = [("count", number(str(len(entries)), 4)), ("item size", number("18", 4))]
    for tag, label in entries:
        fields += [("tag", digits(tag)), ("label", digits(label))]
    return fields


def rip_value(entries, stated, width):
    """The value of a random index pack: entries of BodySID and offset, then the length of the packet, or `states=`."""
    fields = []
    for body_sid, offset in entries:
        fields += [("body-sid", number(body_sid, 4)), ("offset", number(offset, 8))]
    length = 16 + width + 12 * len(entries) + 4
    return fields + [("packet length", number(stated.pop("states", str(length)), 4))]


def segment_value(stated):
    """The value of an index table segment. `-` leaves an item out; `entries=` are stream offsets. Before each stand
    three bytes, as `0000C0@120` states them or zeros, after it four bytes 09 for each slice, and eight bytes 08 for
    each position table."""
    slices, positions = (int(stated.get(name, "0").replace("-", "0")) for name in ("slices", "positions"))
    after = bytes([9] * 4 * slices + [8] * 8 * positions)
    fields = []
    for name, tag, size, default in SEGMENT:
        value = stated.pop(name, default)
        if value != "-":
            numbers = b"".join(number(part, size) for part in value.split("/"))
            fields += item(tag, numbers)
    if "entries" in stated:
        listed = [entry.rpartition("@") for entry in stated.pop("entries").split(",")]
        entries = b"".join(bytes.fromhex(front or "000000") + number(offset, 8) + after for front, _, offset in listed)
        fields += item("3F0A", number(str(len(listed)), 4) + number(str(11 + len(after)), 4) + entries)
    return fields


def set_value(items):
    """The value of a local set of these items."""
    fields = []
    for tag, value in items:
        fields += item(tag, digits(value))
    return fields


def length_field(width, length):
    """A length in `width` bytes: one byte up to 7F, or 80 + n and n bytes."""
    if width == 1:
        return number(str(length), 1)
    return number(str(0x80 + width - 1), 1) + number(str(length), width - 1)


def bytes_of(fields):
    return b"".join(data for _, data in fields)


def size_of(fields):
    return len(bytes_of(fields))


def value_of(name, rest, items, stated, offset, width):
    """The fields of the value of a packet of this name."""
    if name in ("header", "body", "footer"):
        return partition_value(stated, offset)
    if name == "primer":
        return primer_value(items or [PRIMER_ENTRY])
    if name == "rip":
        return rip_value([entry.split(":") for entry in rest], stated, width)
    if name == "segment":
        return segment_value(stated)
    if name in ("fill", "essence"):
        return [("value", bytes(int(rest[0])))]
    return set_value(items)


def packet(line, offset):
    """The fields of a packet that stands at this offset, by a line of a case: its name, then what is stated of it.

    TAG=BYTES is an item of a set or an entry of a primer pack, NAME=VALUE an item of a set that has a name (ITEMS; `-`
    leaves it out), and two digits alone are each byte of a set's identifier. BODYSID:OFFSET is an entry of a random index
    pack, a bare number the length of a fill's or an essence packet's value, all zeros. Of any packet can be stated:
    `width=` bytes of the length field (4), `key=` another key, `status=` of a partition, `value=` its whole value, `cut=`
    the number of bytes off the end of that; and `front=` or `back=` how many of its first or last bytes are there, if the
    packet itself is cut.
    """
    name, *words = line.split()
    if name == "hex":
        return [("bytes", digits("".join(words)))]
    if name not in KEYS:
        raise Mistake(f"no packet is named {name}")
    pairs = [tuple(word.split("=", 1)) for word in words if "=" in word]
    items = list(items_of(name, words))
    stated = dict(pair for pair in pairs if not TAG.fullmatch(pair[0]) and pair[0] not in ITEMS.get(name, {}))
    rest = [word for word in words if "=" not in word]
    width = int(stated.pop("width", "4"))
    key = bytearray(digits(stated.pop("key", KEYS[name])))
    if "status" in stated:
        key[14] = STATUSES[stated.pop("status")]
    cut, front, back = int(stated.pop("cut", "0")), stated.pop("front", None), stated.pop("back", None)
    if "value" in stated:
        value = [("value", digits(stated.pop("value")))]
    else:
        value = value_of(name, rest, items, stated, offset, width)
    if stated:
        raise Mistake(f"{name} has no field {', '.join(stated)}")
    if cut:
        value = [("value", bytes_of(value)[:-cut])]
    fields = [("key", bytes(key)), ("length", length_field(width, size_of(value)))] + value
    if front is not None:
        return [("front", bytes_of(fields)[: int(front)])]
    return fields if back is None else [("back", bytes_of(fields)[-int(back) :])]


# What a line states by a name instead of a number: how many bytes the header metadata have that stand behind it, and where
# the first packet of a name stands.
METADATA = "header-bytes=sets"
PLACE = re.compile(r"(?<=[=:])(header|body|footer)(?= |$)")


def is_metadata(line):
    """Whether the packet of a line is one of header metadata: a primer pack, a set or a fill."""
    name = line.split()[0]
    return name in ("primer", "fill", "identification", "raw-set") or name in ITEMS


def numbered(lines, offset):
    """The lines of these packets, one behind the other from an offset on, each with its offset, and numbers for names:
    `header-bytes=sets` states the bytes of the primer pack, sets and fills behind a partition pack, and `footer` in place
    of an offset that of the first footer, or 0 where there is none, as `header` and `body` do."""
    # Each number has its width, whatever it is, so sizes are known before offsets are.
    unplaced = [packet(PLACE.sub("0", line.replace(METADATA, "header-bytes=0")), 0) for line in lines]
    starts = list(itertools.accumulate(map(size_of, unplaced), initial=offset))
    first = dict(reversed([(line.split()[0], start) for line, start in zip(lines, starts)]))
    for place, line in enumerate(lines):
        behind = len(list(itertools.takewhile(is_metadata, lines[place + 1 :])))
        sets = starts[place + 1 + behind] - starts[place + 1]
        with_sets = line.replace(METADATA, f"header-bytes={sets}")
        yield PLACE.sub(lambda name: str(first.get(name[1], 0)), with_sets), starts[place]


def laid(lines, offset):
    """The packets of these lines, one behind the other from an offset on."""
    return [packet(line, at) for line, at in numbered(lines, offset)]
