"""Hostile files, made from a seed each. A shape is a function that makes the pieces of one: each an offset and bytes; a
saved catalogue has None for an offset, a range a RangeOffset, a slice a SliceOffset. A shape of many alike takes how many
there are, so that it can be made twice as large.
"""
import itertools
import pathlib
import random

import notes
import packets

TOP = pathlib.Path(__file__).resolve().parent.parent
GREATEST = 2**64 - 1
STARTS = (0, 1, 17, 2**32 - 1, 2**32, 2**62, notes.GREATEST_END - 4096, notes.GREATEST_END - 17, notes.GREATEST_END - 16)
EDGES = (0, 1, 2, 16, 127, 128, 255, 256, 65535, 65536, 2**24 - 1, 2**31, 2**32 - 1, 2**32, 2**63 - 1, 2**63, GREATEST)
COUNTS = (0, 1, 2, 3, 2**16, 2**28, 2**32 // 18, 2**31, 2**32 - 2, 2**32 - 1)
SIZES = (0, 1, 11, 12, 16, 17, 18, 2**31, 2**32 - 1)
TAGS = ("3C0A", "3B03", "3B06", "1901", "3C09", "3C01", "4401", "4402", "4403", "3F0A", "3F0B", "3F0C", "3F05", "FFFF", "0000")
SETS = ("preface", "identification", "content-storage", "material-package", "source-package", "raw-set")


# The highest offset of a slice: its file reaches so far, and file systems hold files of some terabytes.
HIGHEST_SLICE = 2**40


class RangeOffset(int):
    """The offset of a range."""


class SliceOffset(int):
    """The offset of a slice, whose bytes lie there in their file too."""


def laid(lines, offset=0):
    """The bytes of the packets of these lines, from an offset on."""
    data = bytearray()
    for line in lines:
        data += packets.bytes_of(packets.packet(line, offset + len(data)))
    return bytes(data)


def laid_at(line, offset):
    """The bytes of the packet of this line, which stands at an offset."""
    return packets.bytes_of(packets.packet(line, offset))


def batch(count, size, items=b""):
    """A batch that states this count and size, whatever its items, as digits."""
    return (count.to_bytes(4, "big") + size.to_bytes(4, "big") + items).hex()


def some_bytes(rng, most):
    return rng.randbytes(rng.randint(0, most))


def uid(number):
    """An identifier, as digits."""
    return f"{number:032x}"


def spelled_lengths(rng):
    """Packets whose lengths lie at the edges, spelled in each width, true or not."""
    data = b""
    for _ in range(rng.randint(1, 12)):
        key = packets.digits(rng.choice(list(packets.KEYS.values())))
        value = some_bytes(rng, 40)
        width = rng.randint(1, 9)
        length = len(value) if rng.random() < 0.8 else rng.choice(EDGES)
        length %= 128 if width == 1 else 256 ** (width - 1)
        first = bytes([rng.choice((0x80, 0x89, 0xFF))])
        data += key + (packets.length_field(width, length) if rng.random() < 0.95 else first) + value
    return [(rng.choice(STARTS), data)]


def counts(rng, many=None):
    """Batches of no items, of wrong sizes, and of counts near 2^32."""
    lines = []
    for _ in range(many or rng.randint(1, 10)):
        stated = batch(rng.choice(COUNTS), rng.choice(SIZES), some_bytes(rng, 60))
        lines += [
            rng.choice([
                f"primer value={stated}",
                f"header value={'00' * 80}{stated}",
                f"header header-bytes=400 count={rng.choice(COUNTS)} labels=AA*{16 * rng.randint(1, 3)}",
                f"preface 3C0A={uid(1)} 3B03={uid(2)} 3B06={stated}",
                f"content-storage 3C0A={uid(2)} 1901={stated}",
                f"segment value=3F0C00080000000000000000{item('3F0A', stated)}",
                f"rip value={stated}",
            ])
        ]
    return [(0, laid(lines))]


def item(tag, value):
    """An item of a local set, as digits."""
    return f"{tag}{len(value) // 2:04x}{value}"


def items(rng, many=None):
    """Sets whose items are cut, repeated, empty, or as long as can be."""
    lines = ["header header-bytes=100000", "primer"]
    for _ in range(many or rng.randint(1, 12)):
        value = b""
        for _ in range(rng.randint(0, 8)):
            length = rng.choice((0, 1, 2, 8, 16, 24))
            stated = length if rng.random() < 0.9 else rng.choice((0, 65535, 32768))
            value += bytes.fromhex(rng.choice(TAGS)) + stated.to_bytes(2, "big") + rng.randbytes(length)
        if rng.random() < 0.05:
            value += b"\x44\x02\xff\xff" + bytes(65535)
        lines.append(f"{rng.choice(SETS + ('segment',))} value={value.hex() or '00*0'}")
    return [(0, laid(lines))]


def packs_that_name(rng, many=None):
    """Partition packs that name themselves, one another in circles, and the farthest places."""
    many = many or rng.randint(1, 60)
    places = [108 * number for number in range(many)] + [GREATEST, 2**63, 2**63 - 1, 107]
    lines = []
    for number in range(many):
        own = 108 * number
        named = [own if rng.random() < 0.4 else rng.choice(places) for _ in range(3)]
        numbers = f"this={named[0]} previous={named[1]} footer={named[2]}"
        zone = rng.choice((0, 1, 108, 10**6, GREATEST))
        lines.append(f"{rng.choice(('header', 'body', 'footer'))} {numbers} header-bytes={zone} index-bytes={zone}")
    entries = [f"{rng.randint(0, 2)}:{rng.choice(places)}" for _ in range(many or rng.randint(0, 80))]
    return [(0, laid(lines + [f"rip {' '.join(entries)}"]))]


def circles(rng, many=None):
    """Sets that refer to themselves and one another, several of one identifier among them."""
    pool = rng.randint(1, 6)
    lines = []
    for name in ["preface", "content-storage"] + [rng.choice(SETS) for _ in range(many or rng.randint(0, 30))]:
        refs = b"".join(bytes.fromhex(uid(rng.randint(1, pool))) for _ in range(rng.randint(0, 12)))
        many = batch(len(refs) // 16, 16, refs)
        lines.append(
            f"{name} 3C0A={uid(rng.randint(1, pool))} 3B03={uid(rng.randint(1, pool))} 3B06={many} 1901={many} 4403={many}"
        )
    rng.shuffle(lines)
    size = len(laid(["primer"] + lines))
    return [(0, laid([f"header header-bytes={size}", "primer"] + lines))]


def zones(rng, many=None):
    """Copies of the header metadata whose zones lie over one another, and past the end."""
    lines = []
    for number in range(many or rng.choice((rng.randint(2, 30), 3000))):
        lines += [f"{'body' if number else 'header'} header-bytes={rng.choice((46, 106, 500, 3000, 10**5, 2**63, GREATEST))}"]
        lines += ["fill 20"] * rng.randint(0, 2) + ["primer"] * rng.randint(0, 2)
        lines += [f"preface 3C0A={uid(number)} 3B03={uid(9)}"] * rng.randint(0, 2) + ["raw-set"] * rng.randint(0, 3)
    return [(0, laid(lines))]


def copies(rng, many=None):
    """Many copies of the header metadata."""
    many = many or rng.choice((10, 1000, 8000))
    lines = [f"{'body' if n else 'header'} header-bytes=106;primer;preface 3C0A={uid(1)} 3B03={uid(2)}" for n in range(many)]
    return [(0, laid(";".join(lines).split(";")))]


def random_indexes(rng, many=None):
    """Many random index packs."""
    many = many or rng.choice((2, 100, 8000))
    return [(0, laid(["header"] + ["essence 0"] * many + [f"rip 0:0 {rng.randint(0, 3)}:{108 * n}" for n in range(many)]))]


def segments_of_a_unit(rng, many=None):
    """Many index table segments that give one unit a place, the same or another."""
    many = many or rng.choice((2, 50, 3000))
    sizes = [1] if rng.random() < 0.5 else [1, 2, 2**32 - 1]
    lines = []
    for _ in range(many):
        start = rng.choice((0, 0, 1, 2**63 - 1))
        lines.append(f"segment unit-bytes={rng.choice(sizes)} start={start} duration={rng.choice((0, 1, 2**63 - 1))}")
    return [(0, laid(lines))]


def listed_units(rng, many=None):
    """A body partition, the first packet of its essence, and index table segments that list 25 units each, one after
    the other, at times each twice or the last ones first."""
    many = many or rng.choice((2, 20, 400))
    each, step = rng.choice((1, 2)), rng.choice((1, -1))
    offsets = [",".join(str(100 * unit) for unit in range(25 * n, 25 * n + 25)) for n in range(many // each)]
    lines = [f"segment start={25 * n} duration=25 entries={listed}" for n, listed in enumerate(offsets)][::step]
    return [(0, laid(["header", "body body-sid=2", "essence 80"] + lines * each))]


def named_partitions(rng, many=None):
    """The catalogue of a file of many body partitions with a unit each, of which some and their essence are lost. The
    random index pack names them all, or there is none; the index lies in the footer, or some of it is lost."""
    many = many or rng.choice((2, 40, 1000))
    is_listed, share, of_index = rng.random() < 0.7, rng.choice((0.1, 0.5, 1)), rng.choice((0, 0, 0.2))
    lines = ["header"]
    for number in range(many):
        lines += [f"body previous={208 * number - 100 if number else 0} body-offset={100 * number} body-sid=2", "essence 80"]
    footer = 108 + 208 * many
    lines.append(f"footer previous={footer - 208} footer={footer}")
    lines += [f"segment start={n} duration=25 entries={','.join(str(100 * unit) for unit in range(n, n + 25))}" for n in range(0, many, 25)]
    listed = " ".join(f"{rng.choice((2, 2, 2, 3))}:{108 + 208 * number}" for number in range(many))
    if is_listed:
        lines.append(f"rip 0:0 {listed} 0:{footer}")
    found = notes.read_piece(0, laid(lines))[0]
    lost = {108 + 208 * number for number in range(many) if rng.random() < share}
    lost |= {note.offset for note in found if note.offset > footer and rng.random() < of_index}
    return [(None, notes.file_of([note for note in found if not {note.offset, note.offset - 108} & lost]))]


def long_primer(rng, many=None):
    """A primer pack of many entries, some of one tag, and a set of many items: the longest value that is kept, at times."""
    sizes = ((3, 3), (60, 60), (30000, 16000), (1, 60000), (233016, 16000))
    many, few = (many, many) if many else rng.choice(sizes)
    entries = b"".join(rng.randint(0, 2 * many % 65536).to_bytes(2, "big") + b"\xAB" * 16 for _ in range(many))
    fields = b"".join(rng.randint(0, 2 * many % 65536).to_bytes(2, "big") + b"\0\0" for _ in range(few))
    primer = f"primer value={batch(many, 18, entries)}"
    return [(0, laid(["header header-bytes=10000000", primer, f"raw-set value={fields.hex()}"]))]


def long_batches(rng, many=None):
    """Many references in one batch, found, missing or of several sets."""
    many = many or rng.choice((10, 200, 4000))
    refs = batch(many, 16, b"".join(bytes.fromhex(uid(rng.randint(3, 60))) for _ in range(many)))
    lines = [f"preface 3C0A={uid(1)} 3B03={uid(2)} 3B06={refs}", f"content-storage 3C0A={uid(2)} 1901={refs}"]
    lines += [f"{rng.choice(SETS[1:])} 3C0A={uid(rng.randint(3, 40))}" for _ in range(rng.choice((rng.randint(0, 60), many)))]
    size = len(laid(["primer"] + lines))
    return [(0, laid([f"header header-bytes={size}", "primer"] + lines))]


def package_of_items(rng, number, many):
    """A package of many items, which may be read and may not."""
    value = item("3C0A", uid(number)) + item("4401", "00" * rng.choice((32, 32, 32, 31)))
    value += "".join(item(f"{0x8000 + n % 0x4000:04x}", "") for n in range(many))
    return f"{rng.choice(('source', 'material'))}-package value={value}"


def named_by_turns(rng, many, numbers=(3, 4)):
    """References that name packages of many items by turns."""
    refs = references([numbers[n % len(numbers)] for n in range(many)])
    lines = [f"preface 3C0A={uid(1)} 3B03={uid(2)} 3B06={batch(0, 16)}", f"content-storage 3C0A={uid(2)} 1901={refs}"]
    lines += [package_of_items(rng, number, 60 * many) for number in numbers]
    size = len(laid(["primer"] + lines))
    return [(0, laid([f"header header-bytes={size}", "primer"] + lines))]


def named_by_all(rng, many=None):
    """References that all name one package of many items."""
    return named_by_turns(rng, many or rng.choice((3, 100, 500)), (3,))


RATE, PICTURE = "0000001900000001", "060e2b34040101010103020201000000"
TIMECODE = "060e2b34040101010103020101000000"
SOUND, DATA = "060e2b34040101010103020202000000", "060e2b34040101010103020203000000"
TIMECODES = (TIMECODE, "060e2b34040101010103020102000000", "060e2b34040101010103020103000000")
DESCRIPTIVE, OTHER_LABEL = "060e2b34040101010103020110000000", "060e2b34040101010103020104000000"


def references(numbers):
    """A batch of references to the sets of these numbers."""
    return batch(len(numbers), 16, bytes.fromhex("".join(map(uid, numbers))))


def listed(rng, count, make, is_one):
    """A batch of references to as many sets, or all of them to one. Of those to many a few lead nowhere, to a set of
    another kind, or to one of the others again."""
    refs = [make()] * count if is_one else [make() for _ in range(count)]
    if not is_one:
        for place in rng.sample(range(count), count // 50):
            refs[place] = rng.choice((0, 1, 2, rng.choice(refs)))
    return references(refs)


def set_of(kind, number, **items):
    """The bytes of a set of the kind that byte 15 of its key says, with this identifier and these items, each `_TAG=DIGITS`."""
    value = bytes.fromhex(item("3c0a", uid(number)) + "".join(item(tag[1:], digits) for tag, digits in items.items()))
    return bytes.fromhex(f"060e2b34025301010d0101010101{kind}00") + packets.length_field(4, len(value)) + value


def signed(number):
    """A number of eight bytes with a sign, as digits."""
    return number.to_bytes(8, "big", signed=True).hex()


class Made:
    """Sets of header metadata, which are made one by one, with numbers from 3 on."""

    def __init__(self):
        self.numbers, self.sets = itertools.count(3), []

    def a(self, kind, **items):
        """The number of a set that is made."""
        own = next(self.numbers)
        self.sets.append(set_of(kind, own, **items))
        return own

    def track(self, track, definition, components, rate=RATE, origin=0):
        """A track with this TrackID, whose sequence has these components."""
        sequence = self.a("0f", _0201=definition, _0202="00" * 7 + "01", _1001=references(components))
        return self.a("3b", _4801=f"{track:08x}", _4b01=rate, _4b02=signed(origin), _4803=uid(sequence))

    def clip(self, package, track, position, duration=1):
        """A clip of so many edit units of this track of the package, from a position on."""
        items = {"_0202": signed(duration), "_1201": signed(position)}
        return self.a("11", **items, _1101=uid(package) * 2, _1102=f"{track:08x}")

    def timecode(self, number, duration=-1, base=25, is_drop=False):
        """A timecode component that begins with this number."""
        return self.a("14", _0202=signed(duration), _1501=signed(number), _1502=f"{base:04x}", _1503=f"{is_drop:02x}")

    def clock(self, number):
        """A track of timecode that begins with this number."""
        return self.track(1, TIMECODE, [self.timecode(number)])

    def package(self, kind, package, tracks, index=None):
        """A package with these tracks, and a container with an index if it has one."""
        if index is not None:
            self.a("23", _2701=uid(package) * 2, _3f06=f"{index:08x}", _3f07="00000001")
        return self.a(kind, _4401=uid(package) * 2, _4403=references(tracks))

    def metadata(self, packages):
        """Header metadata of these sets, of which packages are named so."""
        first = [set_of("2f", 1, _3b03=uid(2), _3b06=batch(0, 16)), set_of("18", 2, _1901=packages)]
        return laid(["primer"]) + b"".join(first + self.sets)

    def laid(self, packages, lines=()):
        """A header partition of these sets, of which packages are named so, and the packets of these lines behind it,
        such as index table segments."""
        metadata = self.metadata(packages)
        data = laid([f"header header-bytes={len(metadata)}"]) + metadata
        return [(0, data + laid(lines, len(data)))]


def described(rng, packages, tracks, components, descriptors, is_one=False):
    """Header metadata of so many packages with so many tracks each, of so many components each, and so many
    subdescriptors each, and two container sets for each package; or of one of each, which a list of so many names."""
    made = Made()

    def component():
        """A clip, a timecode or a filler, at times of unknown duration."""
        duration = rng.choice(("00" * 7 + "01", "00" * 7 + "01", "FF" * 8))
        items = {"11": {"_1201": "00" * 8, "_1101": "00" * 32, "_1102": "00" * 4}, "14": {"_1501": "00" * 8, "_1502": "0019"}, "09": {}}
        kind = rng.choice(list(items))
        return made.a(kind, _0202=duration, **items[kind])

    def track():
        """A track with its sequence."""
        components_of = listed(rng, components, component, is_one)
        sequence = made.a("0f", _0201=PICTURE, _0202="00" * 8, _1001=components_of)
        return made.a("3b", _4801="00" * 4, _4b01=RATE, _4803=uid(sequence))

    def descriptor():
        """A descriptor of a picture."""
        return made.a("51", _3001=RATE, _3203="00000140", _3202="000000F0")

    def package():
        """A package with its descriptor and its containers."""
        several = made.a("44", _3001=RATE, _3f01=listed(rng, descriptors, descriptor, is_one))
        of_tracks, kind = listed(rng, tracks, track, is_one), rng.choice(("36", "37"))
        own = made.a(kind, _4401=uid(several) * 2, _4403=of_tracks, _4701=uid(several))
        for _ in range(2):
            made.a("23", _2701=uid(several) * 2, _3f06="00000001", _3f07="00000002")
        return own

    return made.laid(listed(rng, packages, package, is_one))


def many_packages(rng, many=None):
    """Packages of a track of a component each."""
    return described(rng, many or rng.choice((1, 30, 1000)), 1, 1, 1)


def many_tracks(rng, many=None):
    """Packages of a thousand tracks, of a component each."""
    tracks = min(many or rng.choice((1, 30, 1000)), 1000)
    return described(rng, max(1, (many or 1) // tracks), tracks, 1, 1)


def many_components(rng, many=None):
    """Tracks of a thousand components."""
    components = min(many or rng.choice((1, 30, 1000)), 1000)
    return described(rng, 1, max(1, (many or 1) // components), components, 1)


def many_descriptors(rng, many=None):
    """Packages of a thousand subdescriptors."""
    descriptors = min(many or rng.choice((1, 30, 1000)), 1000)
    return described(rng, max(1, (many or 1) // descriptors), 1, 1, descriptors)


def named_again(rng, many=None):
    """Lists of packages, tracks, components and subdescriptors that each name one set over and over."""
    many = many or rng.choice((2, 30, 4000))
    return described(rng, many, many, many, many, True)


def clip_parts(rng, made, files, number):
    """Clips of the file packages, among them fillers and what is no component, or isn't there, at times."""
    parts = []
    for _ in range(rng.randint(1, 5)):
        name = seldom(rng, rng.choice(files), 0, 1 << 41)
        part = made.clip(name, rng.choice((1, 2)), number(2**63 - 1, -(2**63)), number())
        if rng.random() < 0.2:
            filler = {"_0202": signed(rng.choice((0, 3, 50, 50, -1)))}
            part = rng.choice((made.a("09", **filler), made.a("09", **filler), made.a("05", **filler), 1 << 50))
        parts.append(part)
    return parts


def seldom(rng, usual, *others):
    """The usual one, or at times one of the others."""
    return rng.choice(others) if rng.random() < 0.1 else usual


def clock_containers(rng, made, file):
    """Further container data of a package: of the same pair, another one, or none that can be read."""
    if rng.random() < 0.15:
        index, body = rng.choice((1, 2)), rng.choice((1, 1, 1, 2))
        items = {"_2701": uid(file) * 2, "_3f06": f"{index:08x}", "_3f07": f"{body:08x}"}
        made.a("23", **(items if rng.random() < 0.8 else {"_3f06": items["_3f06"]}))


def some_clocks(rng):
    """A few packages that tell the time or have an index, mostly so that they go together, with kinds of tracks, rates,
    Origins, durations, containers and bases of all kinds, and segments of some of these rates, at times with entries of
    pictures that are moved; and at times a set is lost, mostly one that no reference names."""
    made, packages, files = Made(), [], [1 << 40 | number for number in range(rng.randint(1, 3))]
    other_rates = ("0000003200000002", "00007530000003e9", "0000bb8000000001", "0000003c00000001", "0000000000000001", "ffffffe700000001", "0000001800000001")
    rates = [RATE] * 6 + rng.sample(other_rates, rng.choice((0, 0, 1, 2)))

    def number(*more):
        """A number, at times one of the edge."""
        return seldom(rng, rng.choice((0, 1, 2, 7, 100, 1000)), 2**62, -1, -1, -3, *more)

    def essence(track, *origins):
        """A track of essence, seldom one of something else."""
        kind = seldom(rng, rng.choice((PICTURE, PICTURE, SOUND, DATA)), *TIMECODES, DESCRIPTIVE, OTHER_LABEL)
        return made.track(track, kind, clip_parts(rng, made, files, number), rng.choice(rates), seldom(rng, rng.choice((0, *origins)), 2, -3))

    def time():
        """A track of timecode, seldom of two parts, or of none. Most begin near a minute or a day."""
        usual = ((25, False), (30, True), (60, True), (60, True))
        base, is_drop = seldom(rng, rng.choice(usual), (30, False), (25, True), (120, False), (0, False))
        start = rng.choice((0, 90000, base * 60 - 3, base * 600 - 40, base * 3600 - 110, 2159998, 2589407, 5178811))
        parts = [made.timecode(seldom(rng, start, -1, -(2**63)), number(-1, 2**63 - 1), base, is_drop) for _ in range(seldom(rng, 1, 0, 2))]
        return made.track(1, rng.choice(TIMECODES), parts, rng.choice(rates), seldom(rng, 0, 1))

    files += seldom(rng, [], [0])
    for file in files + seldom(rng, [], [files[0]]):
        tracks = ([time()] if rng.random() < 0.7 else []) + [essence(track, 0, 2, -3) for track in (1, 2, seldom(rng, 3, 2))]
        packages.append(made.package("37", file, rng.sample(tracks, len(tracks)), seldom(rng, rng.choice((1, 2)), 0)))
        clock_containers(rng, made, file)
    for name in range(rng.choice((0, 1, 1, 1, 2))):
        tracks = [seldom(rng, time(), essence(4))] + [essence(track) for track in range(rng.randint(1, 3))]
        if rng.random() < 0.15:
            tracks.insert(rng.randint(0, 1), time())
        packages.append(made.package("36", 1 << 41 | name, tracks))
    lines = []
    for _ in range(rng.choice((0, 1, 2, 2))):
        lines.append(f"segment index-sid={rng.choice((1, 2))} rate={seldom(rng, '25/1', '50/2', '48000/1', '0/1')}")
        if rng.random() < 0.7:
            entries = [f"{rng.choice((0, 0, 1, 2, 127, 128, 254, 255)):02X}0000@{unit}" for unit in range(rng.randint(1, 40))]
            lines[-1] += f" start={rng.choice((0, 0, 1, 7, 1000))} duration={len(entries)} entries={','.join(entries)}"
    if rng.random() < 0.1:
        # Two pieces, between which a set is lost: the last one, which nothing names, or another.
        made.a("01")
        lost = rng.choice((len(made.sets) - 1, rng.randrange(len(made.sets))))
        ((_, data),) = made.laid(references(packages), lines)
        start = data.index(made.sets[lost])
        end = start + len(made.sets[lost])
        return [(0, data[:start]), (end, data[end:])]
    return made.laid(references(packages), lines)


def clocks_of(number):
    """The pieces of some clocks of this number, which are tried beside its file."""
    return some_clocks(random.Random(f"clocks of {number}"))


def many_clocks(rng, many=None):
    """As many material packages that tell the time, of a clip each, as file packages with an index each, and as segments."""
    many, made, packages = many or rng.choice((1, 20, 300)), Made(), []
    files = [1 << 40 | number for number in range(many)]
    for number, file in enumerate(files):
        tracks = [made.track(2, PICTURE, [made.clip(0, 0, 0)])]
        packages.append(made.package("37", file, tracks, number + 1))
    for number in range(many):
        tracks = [made.clock(rng.choice((0, number))), made.track(2, PICTURE, [made.clip(rng.choice(files), 2, number)])]
        packages.append(made.package("36", 1 << 41 | number, tracks))
    segments = [f"segment index-sid={rng.randint(1, many)} unit-bytes=1 start=0 duration=1" for _ in range(many)]
    return made.laid(references(packages), segments)


def many_clips(rng, many=None):
    """A material package of as many clips as the file package has tracks, which show positions over one another, and as many
    segments; at times all of one rate but the last."""
    many, made, file = many or rng.choice((1, 20, 300)), Made(), 1 << 40
    clips = [made.clip(file, rng.randint(1, many), rng.choice((0, number))) for number in range(many)]
    material = made.package("36", 1 << 41, [made.clock(0), made.track(2, PICTURE, clips)])
    tracks = [made.track(number + 1, PICTURE, [made.clip(0, 0, 0)]) for number in range(many)]
    source = made.package("37", file, tracks, 1)
    segments = ["segment unit-bytes=1 start=0 duration=1"] * many
    return made.laid(references([material, source]), segments + ["segment rate=50/1 unit-bytes=1 start=0 duration=1"] * rng.randint(0, 1))


def clips_of_a_frame(rng, many):
    """Material packages of a thousand clips at most, each of one position, in any order, and units of one size: so each
    timecode has a clip of its own."""
    made, file, positions = Made(), 1 << 40, rng.sample(range(many), many)
    packages = [made.package("37", file, [made.track(2, PICTURE, [made.clip(0, 0, 0)])], 1)]
    for first in range(0, many, 1000):
        clips = [made.clip(file, 2, position) for position in positions[first : first + 1000]]
        packages.append(made.package("36", 1 << 41 | first, [made.clock(first), made.track(2, PICTURE, clips)]))
    return made.laid(references(packages), [f"segment unit-bytes=1 duration={many}"])


def runs_over_one_another(rng, many):
    """As many material packages, each of a clip: every second one from position 0 on, the others up to the last
    position, all with the same timecodes, and units of one size."""
    made, file = Made(), 1 << 40
    packages = [made.package("37", file, [made.track(2, PICTURE, [made.clip(0, 0, 0)])], 1)]
    for number in range(many):
        first, after = (number, many) if number % 2 else (0, number + 1)
        tracks = [made.clock(first), made.track(2, PICTURE, [made.clip(file, 2, first, after - first)])]
        packages.append(made.package("36", 1 << 41 | number, tracks))
    return made.laid(references(packages), [f"segment unit-bytes=1 duration={many}"])


def timed_units(rng, many):
    """Units of a byte each in one packet of essence. A clip gives them their timecodes."""
    made, file = Made(), 1 << 40
    source = made.package("37", file, [made.track(2, PICTURE, [made.clip(0, 0, 0)])], 1)
    material = made.package("36", 1 << 41, [made.clock(0), made.track(2, PICTURE, [made.clip(file, 2, 0, many)])])
    lines = [f"segment unit-bytes=1 duration={many}", "body body-sid=2", f"essence {many}"]
    return made.laid(references([material, source]), lines)


def disputes(rng, many=None):
    """Packets over one another, and one over all others, first or last."""
    pieces = [(rng.randint(0, 300), laid([rng.choice(("header", "fill 30", "essence 100", "primer", "rip 0:0"))])) for _ in range(rng.randint(2, 10))]
    row = (0, laid(["essence 0 width=1"] * (many or rng.choice((1, 40, 4096)))))
    over = (8, laid([f"essence {len(row[1])}"]))
    return rng.sample(pieces + [row, over], len(pieces) + 2)


def many_packets(rng, many=None):
    """Thousands of the smallest packets."""
    return [(rng.choice(STARTS[:6]), laid([rng.choice(("fill", "essence")) + " 0 width=1"] * (many or rng.choice((1000, 20000)))))]


def some_key(rng):
    """The key of a packet of some kind."""
    return packets.digits(rng.choice(list(packets.KEYS.values())))


def some_head(rng, most):
    """A head at some offset up to `most`, that claims few bytes, many, or all up to the greatest end."""
    offset, width = rng.choice((rng.randint(0, most), rng.choice(STARTS[:6]))), rng.randint(1, 9)
    room = min(notes.GREATEST_END - offset - 16 - width, 127 if width == 1 else 256 ** (width - 1) - 1)
    return notes.head(offset, some_key(rng), width, rng.choice((0, 1, rng.randint(0, min(room, most)), room)))


def saved_heads(rng, many=None):
    """Saved heads over one another, up to thousands of them, packets among them, and pieces that hold some of these."""
    many = many or rng.choice((2, 40, 5000))
    heads = [some_head(rng, 100 * many) for _ in range(many)]
    values = [(rng.randint(0, 100 * many), some_key(rng), some_bytes(rng, 60)) for _ in range(rng.randint(0, 20))]
    wholes = [notes.whole(offset, key, 4, value) for offset, key, value in values]
    files = [(None, notes.file_of(rng.sample(heads + wholes, rng.randint(1, many)))) for _ in range(rng.randint(1, 3))]
    pieces = [(offset, key + packets.length_field(4, len(value)) + value) for offset, key, value in values]
    return files + [(offset, data[: rng.randint(20, len(data))]) for offset, data in pieces] + rng.sample(pieces, len(pieces) // 2)


def under_one_another(rng, many=None):
    """Saved heads that all claim the bytes up to the greatest end, each from a place of its own on."""
    many, step = many or rng.choice((3, 3000)), rng.choice((1, 17, 25, 1000))
    key = some_key(rng)
    heads = [notes.head(step * number, key, 9, notes.GREATEST_END - 25 - step * number) for number in range(many)]
    part = rng.randint(0, many)
    return [(None, notes.file_of(heads[:part] + heads[part // 2 : part])), (None, notes.file_of(heads[part:]))]


def fronts_of_packets(rng):
    """Fronts of packets, of other readings of them, and some of them whole, in any order."""
    pieces = []
    for _ in range(rng.randint(1, 6)):
        offset = rng.choice((0, 0, 50, rng.randint(0, 200), notes.GREATEST_END - 4096))
        for _ in range(rng.randint(1, 3)):
            value = some_bytes(rng, 200)
            packet = some_key(rng) + packets.length_field(rng.choice((2, 4, 4, 9)), len(value)) + value
            pieces += [(offset, packet[: rng.randint(0, len(packet))]) for _ in range(rng.randint(1, 4))]
            pieces += [(offset, packet)] * rng.randint(0, 1)
    return rng.sample(pieces, len(pieces))


def noise(rng):
    """Labels, and bytes without a meaning after them."""
    parts = [bytes.fromhex("060E2B34") + some_bytes(rng, 60) for _ in range(rng.randint(1, 10))]
    return [(rng.choice(STARTS), b"".join(parts))]


def labels_that_fail(rng, many=None):
    """A range of labels at which no piece begins, each for a cause of its own, and at times packets after them."""
    many = many or rng.choice((1, 50, 5000))
    fill, element = packets.digits(packets.KEYS["fill"]), packets.digits("060E2B34 01010101 05060708 090A0B0C")
    failing = [fill[:4], fill + b"\1\0\0", fill + b"\x80", fill + b"\x88" + b"\x7F" * 8, element + b"\0", element + b"\1\0"]
    labels = b"".join(rng.choices(failing, k=many))
    behind = laid(["fill 10", "footer", "essence 100"]) if rng.random() < 0.5 else b""
    return [(RangeOffset(rng.choice(STARTS)), labels + behind[: rng.randint(0, 2 * len(behind))])]


def ranges(rng):
    """Real files that are cut anywhere, damaged ones too: ranges, and a piece at times."""
    data = rng.choice(real_files())
    if rng.random() < 0.5:
        data = mutated_bytes(rng, data)
    cuts = sorted(rng.choices(range(len(data) + 1), k=rng.randint(1, 4)))
    pieces = [(RangeOffset(at), data[at : at + rng.randint(0, len(data))]) for at in cuts]
    return pieces + [(0, data[: cuts[0]])] * rng.randint(0, 1)


def differing_ranges(rng, many=None):
    """Ranges over one another that differ at many places, near one another or not, after a damaged label; at times many
    ranges."""
    places, step = many or rng.choice((1, 40, 600)), rng.choice((1, 60, 511, 512, 513, 700))
    data = bytearray(laid(["header footer=628"] + ["essence 480"] * (places * step // 500 + 2)))
    data[108] = 0
    copies = 1 if many else rng.choice((1, 2, 100))
    pieces = [(RangeOffset(0), bytes(data))]
    for number in range(copies):
        for at in range(200 + number, min(200 + places * step, len(data)), step):
            data[at] ^= 1 + at % 255
        start = rng.choice((0, 60, 108, 628))
        pieces.append((RangeOffset(start), bytes(data[start:])))
    return pieces


def heads_over_bytes(rng, many=None):
    """Saved heads that claim all bytes up to the greatest end, or few, and ranges that have their keys and lengths, damaged
    ones too."""
    many, step, claims_all = many or rng.choice((3, 300)), rng.choice((25, 26, 60, 700)), rng.random() < 0.5
    key, heads, data = some_key(rng), [], b""
    for number in range(many):
        length = notes.GREATEST_END - 25 - step * number if claims_all else rng.choice((0, 1, step - 25, step, many * step))
        heads.append(notes.head(step * number, key, 9, length))
        data += (key + packets.length_field(9, length)).ljust(step, b"\0")
    if rng.random() < 0.5:
        data = mutated_bytes(rng, data)
    cuts = sorted(rng.choices(range(len(data)), k=rng.randint(0, 3)))
    ranges = [(RangeOffset(start), data[start:end]) for start, end in zip([0, *cuts], [*cuts, len(data)])]
    return [(None, notes.file_of(heads)), *ranges]


def named_one_by_one(rng, many=None):
    """A range of partition packs that each name the next one, with zeros between, so that a round finds one; and a
    random index pack that names places where none stands."""
    many, step = many or rng.choice((3, 63, 64, 65, 300)), rng.choice((110, 200))
    packs = [laid_at(f"{'body' if n else 'header'} footer={step * (n + 1)}", step * n).ljust(step, b"\0") for n in range(70)]
    end = 70 * step + 2 * many
    entries = " ".join(f"1:{70 * step + 2 * number}" for number in range(many))
    rip = laid_at(f"rip {entries}", end)
    return [(RangeOffset(0), b"".join(packs).ljust(end, b"\0") + rip)]


def moved_packets(rng, many):
    """Packets of a value each, as many of one and the same value among them, and the same ones in another order, so that
    each is moved by another number of bytes."""
    lines = [f"essence value={number:08x}" for number in range(many)] + ["essence value=00*4"] * many
    moved = rng.sample(lines, len(lines))
    return [(0, laid(lines)), (RangeOffset(0), laid(moved))]


def mutated_bytes(rng, data):
    """The bytes with some changed, put in, taken out, or doubled; mostly few, so that most of the file stays."""
    data = bytearray(data)
    for _ in range(rng.choice((1, 1, 2, 5, 20))):
        at, size = rng.randrange(len(data) or 1), rng.choice((1, 1, 4, 16, 100))
        change = rng.randrange(5)
        if change == 0:
            data[at : at + size] = rng.randbytes(size)
        elif change == 1:
            data[at:at] = rng.randbytes(size)
        elif change == 2:
            del data[at : at + size]
        elif change == 3:
            data[at:at] = data[at : at + 10 * size]
        else:
            data[at : at + 1] = bytes([rng.choice((0, 1, 0x7F, 0x80, 0x83, 0x88, 0xFF))])
    return bytes(data)


def real_files():
    """The worked files and the examples, which other programs wrote."""
    paths = [*sorted((TOP / "tests/worked").glob("*.bin")), *sorted((TOP / "examples").glob("*.mxf"))]
    return [path.read_bytes() for path in paths]


def mutated(rng):
    """A real file, damaged."""
    return [(0, mutated_bytes(rng, rng.choice(real_files())))]


def two_readings(rng):
    """A real file and a damaged reading of it, or of another, at the same place."""
    data = rng.choice(real_files())
    return [(0, data), (rng.choice((0, 0, 0, 1, 108)), mutated_bytes(rng, data if rng.random() < 0.8 else rng.choice(real_files())))]


SHAPES = (
    spelled_lengths, counts, items, packs_that_name, circles, zones, copies, random_indexes, segments_of_a_unit, listed_units,
    named_partitions, long_primer, long_batches, named_by_all, many_packages, many_tracks, many_components, many_descriptors,
    named_again, some_clocks, some_clocks, many_clocks, many_clips, disputes, many_packets, noise, mutated, mutated, mutated,
    two_readings, saved_heads,
    under_one_another, fronts_of_packets, labels_that_fail, ranges, ranges, differing_ranges, heads_over_bytes, named_one_by_one,
)  # fmt: skip


def sliced(rng, pieces):
    """These pieces, of which some are slices: each that has a byte, and whose file reaches so far, may be one."""
    for offset, data in pieces:
        can_be = offset is not None and not isinstance(offset, RangeOffset) and offset <= HIGHEST_SLICE and data
        yield SliceOffset(offset) if can_be and rng.random() < 0.3 else offset, data


def pieces_of(number):
    """The pieces of the file of this number."""
    rng = random.Random(number)
    return list(sliced(random.Random(f"slices of {number}"), SHAPES[number % len(SHAPES)](rng)))


# How many alike a shape has when it is compared with itself doubled: as many as tell a square apart from n log n, and
# no more than one value has room for.
MANY = {
    counts: 10000, items: 5000, packs_that_name: 10000, circles: 5000, zones: 5000, copies: 5000,
    random_indexes: 10000, segments_of_a_unit: 10000, listed_units: 1000, named_partitions: 20000, long_primer: 32000, long_batches: 2000, named_by_all: 2000, named_by_turns: 1000,
    many_packages: 2000, many_tracks: 10000, many_components: 10000, many_descriptors: 10000, named_again: 2000,
    many_clocks: 1000, many_clips: 2000, clips_of_a_frame: 10000, runs_over_one_another: 2000, timed_units: 100000,
    disputes: 20000, many_packets: 40000, saved_heads: 10000, under_one_another: 10000, labels_that_fail: 100000,
    differing_ranges: 10000, heads_over_bytes: 10000, named_one_by_one: 2000, moved_packets: 5000,
}  # fmt: skip
