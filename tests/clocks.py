"""Clocks, counted from packages, tracks and clips as walk.py reads them, and from what `show` prints of index table segments:
which positions of an index have which timecodes. It goes by ST 377-1 and ST 12-1, with fractions, and knows no code of the
program.
"""
import collections
import fractions

from walk import day_of, label_of, minute_of

GREATEST_UNIT = 2**63 - 1
ESSENCE = ("picture", "sound", "data")
Clock = collections.namedtuple("Clock", "rate number duration base is_drop")


def number_of(label, base):
    """How many labels come before this one since midnight."""
    hours, minutes, seconds, frames = map(int, label.replace(";", ":").split(":"))
    tens, minute = divmod(60 * hours + minutes, 10)
    is_drop = ";" in label
    before = tens * (day_of(base, is_drop) // 144) + sum(minute_of(one, base, is_drop)[0] for one in range(minute))
    return before + base * seconds + frames - minute_of(minute, base, is_drop)[1]


def first(package, fits):
    """The first track of a package that fits."""
    return next(filter(fits, package.tracks), None)


def clock_of(package):
    """What its first track of timecode says, if that begins at 0, has a good rate and one timecode of a base above 0."""
    track = first(package, lambda one: one.kind == "timecode")
    if track is None or track.rate is None or track.origin != 0 or [one.name for one in track.components] != ["timecode"]:
        return None
    (only,) = track.components
    return Clock(track.rate, only.timecode, only.duration, only.base, only.is_drop) if only.base else None


def rate_of(word):
    """A rate, if both its numbers are above 0."""
    upper, lower = map(int, word.split("/"))
    return fractions.Fraction(upper, lower) if upper > 0 and lower > 0 else None


def rates_of(shown):
    """The rates that index table segments state, by IndexSID, by the lines of `show`."""
    rates = collections.defaultdict(set)
    for words in (line.split(" ") for line in shown if line.startswith("segment ")):
        rates[int(words[3])].add(rate_of(words[7]))
    return rates


def run_of(index, clock, rate, first, start, count):
    """The run whose first position is this one, and begins so many units behind the clock's start: what it is sorted by."""
    if first < 0:
        first, start, count = 0, start - first, count and count + first
    if (count is not None and count <= 0) or first > GREATEST_UNIT:
        return None
    step = clock.rate / rate
    passed = start * step
    number = (clock.number + passed // 1) % day_of(clock.base, clock.is_drop)
    return index, first, number, count is None, count or 0, clock.base, clock.is_drop, step, passed % 1


def left_of(clock, rate, start):
    """How many units are left from this one on that begin within the clock's duration, if that is known."""
    return None if clock.duration is None else -(-clock.duration * rate // clock.rate) - start


def runs_of(packages, rates):
    """The runs that the packages give, and whether material packages do."""
    count = collections.Counter(one.uid for one in packages)
    files = [one for one in packages if not one.is_material and one.index and any(one.uid) and count[one.uid] == 1]
    by_material = any(one.is_material and first(one, lambda track: track.kind == "timecode") for one in packages)

    def is_beside(clock, index, track):
        return track.kind in ESSENCE and track.rate and track.rate >= clock.rate and rates[index] <= {track.rate}

    def by_file(file):
        clock = clock_of(file)
        track = clock and first(file, lambda one: is_beside(clock, file.index, one))
        if track:
            yield run_of(file.index, clock, track.rate, track.origin, 0, left_of(clock, track.rate, 0))

    def by_clips(clock, track, file):
        for clip in track.clips(file.uid):
            shown = first(file, lambda one: one.number == clip.track)
            if shown and shown.rate == track.rate:
                counts = [count for count in (clip.duration, left_of(clock, track.rate, clip.start)) if count is not None]
                yield run_of(file.index, clock, track.rate, clip.position + shown.origin, clip.start, min(counts, default=None))

    def by_package(material):
        clock = clock_of(material) if material.is_material else None
        for file in files if clock else []:

            def fits(one):
                return is_beside(clock, file.index, one) and one.origin == 0 and any(one.clips(file.uid))

            track = first(material, fits)
            if track:
                yield from by_clips(clock, track, file)

    told = (by_package(one) for one in packages) if by_material else map(by_file, files)
    return sorted({run for runs in told for run in runs if run}), by_material


def runs_told(walk, shown):
    """The runs that the packages of a walk give, by these lines of `show`, and whether material packages do."""
    return runs_of(walk.packages, rates_of(shown)) if walk.is_finished else ([], False)


def timecode_at(runs, position):
    """The timecode of a position, by the only one of these runs that has it; a hyphen if none or several have it."""
    found = []
    for _, first, number, is_endless, count, base, is_drop, step, passed in runs:
        if first <= position and (is_endless or position < first + count):
            found.append(label_of(int(number + (passed + (position - first) * step) // 1), base, is_drop))
    return found[0] if len(found) == 1 else "-"


def clock_lines(walk, shown):
    """The lines `clock` of the packages of a walk, by these lines of `show`."""
    runs, by_material = runs_told(walk, shown)
    lines = []
    for index, first, number, is_endless, count, base, is_drop, step, passed in runs:
        last = "-" if is_endless else label_of(int(number + (passed + (count - 1) * step) // 1), base, is_drop)
        counted, by = "-" if is_endless else count, "material" if by_material else "source"
        lines.append(f"clock {index} {first} {counted} at {label_of(int(number), base, is_drop)} to {last} base {base} by {by}")
    return lines
