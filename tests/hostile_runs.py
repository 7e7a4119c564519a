"""Runs of the program on hostile files, and what each has to print by notes.py and at_hand.py."""
import bisect
import collections
import itertools
import math
import os
import pathlib
import random
import re
import subprocess
import time

import at_hand
import clocks
import notes
import walk
from hostile_files import RangeOffset, SliceOffset, clocks_of, laid, mutated_bytes, pieces_of

MEBIBYTE = 2**20
# What stands before the bytes of a slice in their file, as far as there is room, and behind them: two packets.
AROUND = laid(["identification 3C0A=01", "essence 3"])
# Numbers of slices, of which some name none.
NUMBERS = (
    "0", "00", "1", "001", "17", str(notes.GREATEST_END - 1), str(notes.GREATEST_END), str(notes.GREATEST_END + 1), str(2**64 - 1),
    str(2**64), str(2**64 + 1), str(2**128 + 1), "", "-1", "+1", "0x1", "1e3", " 1", "1 ", "\N{ARABIC-INDIC DIGIT ONE}",
)  # fmt: skip
# What is said if no segment has the IndexSID that is asked for.
NO_INDEX = re.compile(r"index \d+ isn't held(: (held( \d+){1,16}(; named( \d+){1,16})?|named( \d+){1,16}))?\n")


def read_source(offset, data):
    """The notes of a piece, a range or a saved catalogue, and what is printed of a piece or range: where it begins, how
    many packets, and its stop."""
    if offset is None:
        return notes.read_file(data)[0], None
    if isinstance(offset, RangeOffset):
        found, heads, stop = notes.read_range(offset, data)
        return found + heads, (offset + (notes.start_of(offset, data) or 0), len(found), stop)
    found, heads, stop = notes.read_piece(offset, data)
    return found + heads, (offset, len(found), stop)


def stops_of(pieces, read, content):
    """The lines of the stops of pieces and ranges that `check` prints, by what was read of each and the notes of all. If a
    range is among them, what is held makes up for the stop of one: a whole note begins where it is cut, or each byte of
    one without a start is held."""
    has_ranges = any(isinstance(offset, RangeOffset) for offset, _ in pieces)
    whole, held = {note.offset for note in content if note.is_whole}, at_hand.Ranges(notes.held_by(content))
    for (offset, data), (_, printed) in zip(pieces, read):
        if printed is None or printed[2] == "end":
            continue
        word, at = printed[2].split(" ")
        is_cut = word == "truncated" and int(at) in whole
        is_full = word == "no-start" and data and held.has_all(offset, offset + len(data))
        if not (has_ranges and (is_cut or is_full)):
            yield f"stop {printed[0]} {printed[2]}"


def held_of(pieces):
    """What pieces, ranges and saved catalogues hold together, what is at hand of them, and how many rounds of putting packets
    together changed something: bytes are at hand only if one of them is a range."""
    content = notes.reduced(note for piece in pieces for note in read_source(*piece)[0])
    is_in_ranges = any(isinstance(offset, RangeOffset) for offset, _ in pieces)
    hand = at_hand.AtHand([piece for piece in pieces if piece[0] is not None] if is_in_ranges else [])
    return *(at_hand.put_together(content, hand) if is_in_ranges else (content, 0)), hand


def seconds_for(size):
    """The bound of processor time of a run on `size` bytes."""
    return 0.5 + 4e-7 * size * math.log2(size + 2)


def memory_for(size):
    """The bound of address space of a run on `size` bytes."""
    return 8 * MEBIBYTE + 40 * size


# The lines of describe whose reference leads to no set.
REFERRING = r"package -|track -|sequence|component \S+|descriptor|subdescriptor|preface|storage"
ASTRAY = re.compile(rf"({REFERRING}) (missing|several|wrong-kind|again|unreadable)( \d+)?")


def described_status(lines):
    """The status that lines of describe have, or None if the last one doesn't count those before it."""
    packages = sum(line.startswith(("package material ", "package source ")) for line in lines)
    tracks = sum(line.startswith("track ") and not line.startswith("track - ") for line in lines)
    clocks = sum(line.startswith("clock ") for line in lines)
    if not lines or lines[-1] != f"packages {packages} tracks {tracks} clocks {clocks}":
        return None
    return int(not re.fullmatch(r"described \d+ finished", lines[0]) or any(map(ASTRAY.fullmatch, lines)))


class Wrong(Exception):
    """What is wrong with a run."""


def lay_source(path, offset, data):
    """Writes the file of a piece, a range, a slice or a saved catalogue, and answers its source. A slice of no bytes is laid
    as a piece, since it can't be named."""
    if isinstance(offset, SliceOffset) and data:
        before = AROUND[max(len(AROUND) - offset, 0) :]
        with path.open("wb") as file:
            file.seek(offset - len(before))
            file.write(before + data + AROUND)
        return f"slice:{offset}:{len(data)}:{path}"
    path.write_bytes(data)
    sort = "range" if isinstance(offset, RangeOffset) else "at"
    return f"cat:{path}" if offset is None else f"{sort}:{offset}:{path}"


class Run:
    """Runs of the program on sources in a folder of their own."""

    def __init__(self, program, folder):
        self.program = program
        self.folder = pathlib.Path(folder)
        self.runs = 0
        self.fronts = 0
        self.flips = 0
        self.slowest = 0.0
        self.ratio = 0.0

    def figures(self):
        """How many runs there were, of how many fronts and cuts and flipped bits; the greatest share of a bound, and the
        greatest ratio."""
        return self.runs, self.fronts, self.flips, self.slowest, self.ratio

    def lay(self, name, pieces):
        """Lays pieces down, and answers their sources."""
        return [lay_source(self.folder / f"{name}{number}", *piece) for number, piece in enumerate(pieces)]

    def call(self, statuses, size, *words):
        """Runs the program within its bounds, and answers what it printed. `size` bytes are in its sources.

        If the machine is busy, a run takes more processor time too, so one that takes too much is run again.
        """
        for wait in (1, 2, 4, 8, 0):
            printed, seconds = self.call_once(statuses, size, *words)
            if seconds <= seconds_for(size):
                break
            time.sleep(wait)
        self.slowest = max(self.slowest, seconds / seconds_for(size))
        if seconds > seconds_for(size):
            raise Wrong(f"{words[0]}: {seconds:.2f} s of processor time for {size} bytes")
        return printed

    def call_once(self, statuses, size, *words):
        """The same: what it printed, and its processor time."""
        out, err = self.folder / "out", self.folder / "err"
        limited = ["prlimit", f"--as={memory_for(size)}", self.program, *words]
        with out.open("wb") as to, err.open("wb") as told:
            child = subprocess.Popen(limited, stdin=subprocess.DEVNULL, stdout=to, stderr=told)
            _, status, used = os.wait4(child.pid, 0)
        child.returncode = os.waitstatus_to_exitcode(status)
        self.runs += 1
        seconds = used.ru_utime + used.ru_stime
        said = err.read_text(errors="replace")
        if words[0] in ("plan", "units", "verify") and "--index" in words:
            said = NO_INDEX.sub("", said, count=1)
        if child.returncode not in statuses:
            raise Wrong(f"{words[0]}: status {child.returncode}: {said[:200]}")
        if (said != "") != (child.returncode > 1):
            raise Wrong(f"{words[0]}: on standard error: {said[:200]}")
        return out.read_text(), seconds

    def joined(self, size, sources):
        """The catalogue that is saved of these sources, and the line that reports it."""
        path = self.folder / "joined"
        path.unlink(missing_ok=True)
        line = self.call((0,), size, "join", "--out", str(path), *sources)
        return path.read_bytes(), line

    def saved(self, name, size, sources):
        """The source of the catalogue that is saved of these sources."""
        path = self.folder / name
        path.write_bytes(self.joined(size, sources)[0])
        return f"cat:{path}"


def cut_at_packets(rng, offset, data):
    """A piece, cut at some of its packets; a range as its piece is; or a saved catalogue, its notes in two."""
    if isinstance(offset, RangeOffset):
        start = notes.start_of(offset, data)
        if start is None:
            return [(offset, data)]
        offset, data = offset + start, data[start:]
    found, printed = read_source(offset, data)
    if printed is None:
        part = rng.sample(found, rng.randint(0, len(found)))
        return [(None, notes.file_of(part)), (None, notes.file_of(set(found) - set(part)))]
    places = [note.offset for note in found if note.is_whole]
    borders = sorted(rng.sample(places, min(len(places), rng.randint(0, 5))) + [offset, offset + len(data)])
    return [(start, data[start - offset : end - offset]) for start, end in zip(borders, borders[1:])]


def other_order(rng, pieces):
    """The same packets in pieces that are cut at packets, some of them twice, with fronts of them, in another order.

    A front leaves no more than its piece: the packet that it cuts is there whole, or is cut there too.
    """
    cut = [part for piece in pieces for part in cut_at_packets(rng, *piece)]
    cut += [piece for piece in cut if rng.random() < 0.3]
    cut += [(at, data[: rng.randint(0, len(data))]) for at, data in cut if at is not None and rng.random() < 0.3]
    rng.shuffle(cut)
    return cut


def without_kind(line):
    """The line of a note, with `..` for its kind."""
    return re.sub(r"^((?:note|disputed|cut|differs \d+) \d+) [a-z-]+ ", r"\1 .. ", line)


def is_shown(lines, content):
    """Whether these lines of `show`, from the first note on, are of these notes and of their gaps."""
    wanted = [*notes.note_lines(content), *notes.gap_lines(content)]
    shown = [without_kind(line) for line in lines[: len(wanted)]]
    return shown == wanted and not any(line.startswith(("note ", "gap ")) for line in lines[len(wanted) :])


def finds(checked, content):
    """Whether the findings of `check` have these notes' disputes and gaps."""
    found = [line.split(" ")[:2] for line in checked]
    touching = {offset for code, offset in found if code in ("F01", "F02")}
    wanted = {str(content[at].offset) for at in notes.disputed(content)}
    return touching == wanted and [offset for code, offset in found if code == "F03"] == [str(gap[0]) for gap in notes.gaps(content)]


def orders(planned, content, hand):
    """Whether a plan's last line counts its orders, and these have all bytes of the gaps of these notes below the end that
    aren't at hand. If bytes are at hand, they are the orders of at_hand.py."""
    if hand.runs and [line for line in planned if line.startswith("restore ")] != at_hand.orders(content, hand):
        return False
    *lines, last = (line.split(" ") for line in planned)
    ordered = sorted((int(words[1]), 2**64 if words[2] == "-" else int(words[2])) for words in lines if words[0] == "restore")
    if last[:1] + last[2:3] != ["planned", "ranges"] or int(last[1]) != len(ordered):
        return False
    # If orders lie over one another, bytes up to the greatest end so far are ordered.
    ends = itertools.accumulate((end for _, end in ordered), max)
    ordered = [(start, end) for (start, _), end in zip(ordered, ends)]
    end = 2**64 if last[8] == "-" else int(last[8])
    lacking = (part for gap in notes.gaps(content) for part in hand.hand.lacking(*gap))
    return all(is_within(start, min(stop, end), ordered) for start, stop in lacking)


def orders_of_units(planned, content, hand):
    """Whether a plan for units reports these last, and no byte of a range that it orders of them is held by these
    notes, or at hand."""
    *lines, _, last = [line.split(" ") for line in planned]
    there = at_hand.Ranges(notes.held_by(content) + hand.hand.ranges)
    ordered = [(int(words[1]), None if words[2] == "-" else int(words[2])) for words in lines if words[3] == "unit"]
    return last[0] == "units" and all(there.lacking(*order) == [order] for order in ordered)


def is_within(start, stop, ranges):
    """Whether the bytes from the start on lie in the ranges, which rise, up to the stop."""
    at = bisect.bisect_right(ranges, (start, 2**64)) - 1
    while start < stop and at >= 0 and at < len(ranges) and ranges[at][0] <= start:
        start, at = max(start, ranges[at][1]), at + 1
    return start >= stop


def pictures(pictured, content, hand):
    """Whether a map's first line says how many bytes of these notes are held, how many others are at hand below its
    end, and how many notes are disputed."""
    words = pictured[0].split(" ")
    held = max((note.end for note in content), default=0) - sum(stop - start for start, stop in notes.gaps(content))
    free = at_hand.Ranges((note.offset, note.covered_end) for note in content).lacking(0, int(words[1]))
    lost = [part for gap in free for part in hand.hand.lacking(*gap)]
    beside = sum(stop - start for start, stop in free) - sum(stop - start for start, stop in lost)
    return words[0] == "map" and (int(words[3]), int(words[5]), int(words[13])) == (held, beside, len(notes.disputed(content)))


def timecodes(run, size, walked, shown, sources):
    """Whether units of the first indexes that have a clock tell the timecodes that they show, where the first and the last
    of their runs begin. A picture is stored as many units behind its position as the entry of that says (ST 377-1), 128
    before it to 127 behind it. A unit shows what it stores if that is one position."""
    runs, _ = clocks.runs_told(walked, shown)
    for index in sorted({told[0] for told in runs})[:3]:
        own = [one for one in runs if one[0] == index]
        for first in {own[0][1], own[-1][1]}:
            span = max(first - 127, 0), min(first + 158, clocks.GREATEST_UNIT)
            asked = ["--index", str(index), "--from", str(span[0]), "--to", str(span[1]), "--timecode"]
            *units, _ = [line.split(" ") for line in run.call((0, 1), size, "units", *asked, *sources).splitlines()]
            stored = collections.defaultdict(list)
            for position, words in enumerate(units, span[0]):
                unit = position + (0 if words[8] == "-" else int(words[8]))
                stored[unit if 0 <= unit <= clocks.GREATEST_UNIT else position].append(position)
            for unit, words in enumerate(units, span[0]):
                told = clocks.timecode_at(own, *stored[unit]) if len(stored[unit]) == 1 else "-"
                if first <= unit <= first + 30 and words[12] != told:
                    return False
    return True


def try_described(run, size, content, shown, sources):
    """Asks what the sources are that have these notes, of which these lines are shown; the catalogue of these is saved."""
    saved = run.folder / "saved"
    described = run.call((0, 1), size, "describe", *sources).splitlines()
    status = described_status(described)
    if status is None or run.call((status,), saved.stat().st_size, "describe", f"cat:{saved}").splitlines() != described:
        raise Wrong("what is described isn't counted, or the saved catalogue isn't described as its pieces are")
    walked = walk.Walk(content)
    if not walk.is_described(described, walked):
        raise Wrong("what is described isn't what the sets of the header metadata say")
    if [line for line in described if line.startswith("clock ")] != clocks.clock_lines(walked, shown):
        raise Wrong("the clocks aren't those of the packages and segments")
    if not timecodes(run, size, walked, shown, sources):
        raise Wrong("units don't tell the timecodes of their clock")


def try_clocks(run, number):
    """Asks what some clocks are, which are beside the file of this number."""
    pieces = clocks_of(number)
    size, sources = sum(len(data) for _, data in pieces), run.lay("clocks", pieces)
    content, _, _ = held_of(pieces)
    (run.folder / "saved").write_bytes(notes.file_of(content))
    shown = run.call((0,), size, "show", *sources).splitlines()
    try_described(run, size, content, shown, sources)


def try_pieces(run, rng, pieces):
    """Asks everything of the pieces. The answer is what they hold together."""
    size = sum(len(data) for _, data in pieces)
    sources = run.lay("piece", pieces)
    read = [read_source(*piece) for piece in pieces]
    printed = [line for _, line in read if line is not None]
    content, rounds, hand = held_of(pieces)
    wanted = notes.file_of(content)
    joined = f"joined {len(content)} notes {len(notes.disputed(content))} disputed\n"
    if run.joined(size, sources) != (wanted, joined):
        raise Wrong("the saved catalogue isn't the file of the packets")
    told = [f"piece {offset} noted {count} stop {stop}" for offset, count, stop in printed]
    shown = run.call((0,), size, "show", *sources).splitlines()
    if shown[: len(told)] != told:
        raise Wrong("the lines of the pieces aren't those of their packets")
    if not is_shown(shown[len(told) :], content):
        raise Wrong("the lines of notes and gaps aren't those of the packets")
    saved = run.folder / "saved"
    saved.write_bytes(wanted)
    if run.call((0,), len(wanted), "show", f"cat:{saved}").splitlines() != shown[len(told) :]:
        raise Wrong("the saved catalogue isn't shown as its pieces are")
    try_described(run, size, content, shown, sources)
    checked = run.call((0, 1), size, "check", *sources).splitlines()
    stops = list(stops_of(pieces, read, content))
    if checked[: len(stops)] != stops or checked[-1] != f"findings {len(checked) - len(stops) - 1}":
        raise Wrong("the lines of a check aren't the stops, the findings and their number")
    if not finds(checked[len(stops) : -1], content):
        raise Wrong("the findings aren't those of the packets' disputes and gaps")
    place = ["--index", str(rng.choice((0, 1, 2**32 - 1))), "--unit", str(rng.choice((0, 1, 2**63 - 1)))]
    if len(run.call((0, 1), size, "locate", *place, *sources).splitlines()) != 1:
        raise Wrong("a place isn't one line")
    if not orders(run.call((0, 1), size, "plan", *sources).splitlines(), content, hand):
        raise Wrong("a plan doesn't order all gaps")
    units = ["--index", str(rng.choice((1, 2))), "--from", "0", "--to", str(rng.choice((0, 30)))]
    if not orders_of_units(run.call((0, 1), size, "plan", *units, *sources).splitlines(), content, hand):
        raise Wrong("a plan for units orders bytes of them that are there")
    if not pictures(run.call((0,), size, "map", *sources).splitlines(), content, hand):
        raise Wrong("a map doesn't tell what is held")
    beside = run.call((int(bool(notes.disputed(content))),), size, "sources", *sources).splitlines()
    if [without_kind(line) for line in beside] != list(notes.source_lines(sources, (found for found, _ in read))):
        raise Wrong("the sources beside each other aren't those of the packets")
    try_found(run, rng, pieces, sources, read, content)
    if hand.runs:
        try_again(run, rng, pieces, wanted, rounds < at_hand.ROUNDS)
    else:
        try_other_order(run, rng, pieces, wanted)
    return content


def try_found(run, rng, pieces, sources, read, content):
    """Looks sources up in what was saved of all, and in one of them."""
    one = rng.randrange(len(sources))
    words = [f"cat:{run.folder / 'saved'}", sources[one]]
    size = sum(len(data) for _, data in pieces) + len(pieces[one][1]) + (run.folder / "saved").stat().st_size
    fragments = [(offset or 0, found) for (offset, _), (found, _) in zip(pieces, read)]
    wanted = list(notes.find_lines(fragments, zip(words, (content, read[one][0]))))
    status = int(wanted[-1] != f"fragments {len(sources)} found {len(sources)}")
    told = run.call((status,), size, "find", "--in", words[0], "--in", words[1], *sources).splitlines()
    if told != wanted:
        raise Wrong("fragments aren't found as their packets say")


def try_other_order(run, rng, pieces, wanted):
    """Joins the same in another order, a part of it saved at times: the catalogue has to be the one that is wanted."""
    size = 4 * sum(len(data) for _, data in pieces) + len(wanted)
    others = run.lay("other", other_order(rng, pieces))
    if rng.random() < 0.3 and len(others) > 1:
        others[0] = run.saved("part", size, others[:1])
    if run.joined(size, others or ["at:0:/dev/null"])[0] != wanted:
        raise Wrong("in another order the catalogue is another")


def try_again(run, rng, pieces, wanted, is_closed):
    """Joins ranges in another order, some of them twice, and if that is closed with what was saved of them: the
    catalogue has to be the one that is wanted."""
    sources = run.lay("again", pieces)
    sources += rng.sample(sources, rng.randint(0, len(sources)))
    if is_closed and rng.random() < 0.5:
        saved = run.folder / "closed"
        saved.write_bytes(wanted)
        sources.append(f"cat:{saved}")
    rng.shuffle(sources)
    size = 2 * sum(len(data) for _, data in pieces) + len(wanted)
    if run.joined(size, sources)[0] != wanted:
        raise Wrong("ranges in another order, with what was saved of them, leave another catalogue")


def changed(rng, offset, data):
    """A piece or range of which a byte is another, or that is cut at either end, or lies elsewhere; or as it is."""
    change = rng.randrange(8) if offset is not None and data else 7
    at = rng.randrange(len(data) or 1)
    if change in (0, 1, 2):
        return offset, data[:at] + bytes([data[at] ^ (1 << rng.randrange(8))]) + data[at + 1 :]
    if change == 3:
        return offset, data[:at]
    if change == 4:
        return type(offset)(min(offset + at, notes.GREATEST_END)), data[at:]
    if change == 5:
        return type(offset)(max(offset - 1, 0)), data
    return offset, data


def beside(offset, data):
    """A source beside a reference."""
    return notes.Saved(notes.read_file(data)[0]) if offset is None else notes.Bytes(offset, data)


def try_verified(run, rng, pieces):
    """Sets pieces, changed at times, beside a reference of some of them."""
    of = [piece for piece in pieces if rng.random() < 0.8] or pieces[:1]
    others = [changed(rng, *piece) for piece in pieces]
    read = [read_source(*piece) for piece in of]
    reference, _, _ = held_of(of)
    stops = [(offset, stop) for offset, _, stop in (line for _, line in read if line is not None) if stop != "end"]
    wanted = [f"stop {offset} {stop}" for offset, stop in stops]
    wanted += notes.verify_lines(reference, [beside(*piece) for piece in others])
    is_good = wanted[-1].split(" ")[1] != "0" and not any(line.startswith("differs ") for line in wanted)
    is_good = is_good and all(stop.startswith("truncated ") for _, stop in stops)
    is_all = is_good and not any(line.startswith(("unknown ", "unverified ")) for line in wanted)
    size = sum(len(data) for _, data in of + others)
    against = [word for source in run.lay("of", of) for word in ("--against", source)]
    for words, status in (([], is_good), (["--whole"], is_all)):
        told = run.call((int(not status),), size, "verify", *words, *against, *run.lay("beside", others)).splitlines()
        if [without_kind(line) for line in told] != wanted:
            raise Wrong("what is verified isn't what the packets of the reference say")


def disordered(rng, content, version=notes.CURRENT):
    """The file of these notes, with something put in, exchanged or stated that may not be there: a mark too, which
    version 1 doesn't have."""
    content, mark = list(content), None
    at = rng.randrange(len(content) or 1)
    change = rng.randrange(6)
    if change == 0:
        content[at:at] = [note.head for note in content[at : at + 1]]
    elif change == 1:
        content[at + 1 : at + 1] = [note.head for note in content[at : at + 1]]
    elif change == 2:
        content[at : at + 2] = content[at : at + 2][::-1]
    elif change == 3:
        content[at:at] = content[at : at + 1]
    elif change == 4:
        mark = rng.choice((1, 2, 255))
    count = len(content) + (rng.choice((-1, 1)) if change == 5 else 0)
    saved = [bytearray(note.saved(version)) for note in content]
    if mark is not None and saved:
        saved[at][33:34] = bytes([mark])
    return notes.file_start(count % 2**64, version) + b"".join(saved)


def of_both_versions(rng, content, version):
    """The file of these notes, of this version, with another byte eight, or with a note, or all from it on, as the
    other version saves them."""
    other, change = 3 - version, rng.randrange(3)
    at = rng.randrange(len(content) or 1)
    until = at + 1 if change == 0 else len(content)
    saved = [note.saved(other if change < 2 and at <= number < until else version) for number, note in enumerate(content)]
    stated = rng.choice((other, other, 0, 3, 255)) if change == 2 else version
    return notes.file_start(len(content), stated) + b"".join(saved)


def damaged(rng, content, version=notes.CURRENT):
    """The file of these notes, disordered or with other bytes."""
    return disordered(rng, content, version) if rng.random() < 0.5 else mutated_bytes(rng, notes.file_of(content, version))


def try_file(run, file):
    """Asks for a catalogue that may be damaged: it is shown, or refused with its cause."""
    path = run.folder / "damaged"
    path.write_bytes(file)
    found, fault = notes.read_file(file)
    said = run.call((0 if fault is None else 4,), len(file), "show", f"cat:{path}")
    told = (run.folder / "err").read_text(errors="replace")
    if fault is None and not is_shown(said.splitlines(), found):
        raise Wrong("a damaged catalogue isn't shown by its notes")
    if fault is not None and (said, told) != ("", f"catalogue fault: {path}: {fault}\n"):
        raise Wrong(f"a damaged catalogue isn't refused with '{fault}': {told[:200]}")


def slice_of(offset, length, data):
    """What a slice of these words has of a file: its offset, its bytes, and whether the file ends before it; None if they
    name no slice."""
    if not re.fullmatch("[0-9]+", offset) or not re.fullmatch("[0-9]+", length):
        return None
    first, end = int(offset), int(offset) + int(length)
    return (first, data[first:end], end > len(data)) if first < end <= notes.GREATEST_END else None


def hostile_slice(rng, data):
    """Words of a slice of a file: mostly from a packet or another place in it, up to another, its end or behind that."""
    places = [note.offset for note in notes.read_piece(0, data)[0]] + [rng.randint(0, len(data))]
    first = rng.choice(places)
    end = rng.choice((rng.choice(places), len(data), len(data) + rng.choice((1, 16, 2**40))))
    words = [rng.choice(("", "0")) + str(first), str(max(end - first, 1))]
    return [word if rng.random() < 0.85 else rng.choice(NUMBERS) for word in words]


def try_slice(run, rng, pieces):
    """Asks for a slice of a file whose numbers are hostile, or whose file may be cut: it is shown as the piece of its bytes,
    or refused. The end of a file is looked at where that of the slice would be, so not behind another stop."""
    data = next((data for offset, data in pieces if offset is not None), b"")
    path = run.folder / "sliced"
    path.write_bytes(data)
    offset, length = hostile_slice(rng, data)
    word = f"slice:{offset}:{length}:{path}"
    named = slice_of(offset, length, data)
    refused = (2, f"bad source: {word}\n")
    if named:
        found, (at, count, stop) = read_source(*named[:2])
        is_short = named[2] and stop.startswith(("end", "truncated"))
        refused = (3, f"read fault: {path}\n") if is_short else None
    lines = run.call((refused[0] if refused else 0,), len(data), "show", word).splitlines()
    told = (run.folder / "err").read_text(errors="replace")
    if refused and (lines, told) != ([], refused[1]):
        raise Wrong(f"{word} of {len(data)} bytes isn't refused with '{refused[1]}': {told[:200]}")
    if not refused and (lines[0] != f"piece {at} noted {count} stop {stop}" or not is_shown(lines[1:], found)):
        raise Wrong(f"{word} of {len(data)} bytes isn't shown as its bytes are: {lines[0]}")


def try_older(run, rng, content):
    """Has some of the whole notes saved by version 1 of the file: they are shown, and joined with the others in any order."""
    whole = [note for note in content if note.is_whole]
    older = notes.file_of(rng.sample(whole, rng.randint(0, len(whole))), 1)
    found, _ = notes.read_file(older)
    known = set(found)
    others = notes.file_of(note for note in content if note not in known or rng.random() < 0.3)
    sources = run.lay("older", [(None, older), (None, others)])
    shown = run.call((0,), len(older), "show", sources[0]).splitlines()
    if not is_shown(shown, found):
        raise Wrong("a catalogue of version 1 isn't shown by its notes")
    rng.shuffle(sources)
    if run.joined(len(older) + len(others), sources)[0] != notes.file_of(content):
        raise Wrong("joined with a catalogue of version 1 they leave another catalogue")
    try_file(run, damaged(rng, whole, 1))
    version = rng.choice((1, notes.CURRENT))
    try_file(run, of_both_versions(rng, whole if version == 1 else content, version))


def try_number(run, number):
    """Tries the file of a number."""
    rng = random.Random(f"asked of {number}")
    content = try_pieces(run, rng, pieces_of(number))
    try_verified(run, random.Random(f"verified of {number}"), pieces_of(number))
    try_file(run, damaged(rng, content))
    try_older(run, random.Random(f"version 1 of {number}"), content)
    try_slice(run, random.Random(f"slice of {number}"), pieces_of(number))
    try_clocks(run, number)
