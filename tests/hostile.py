#!/usr/bin/env python3
"""Runs the program on hostile files: made from a seed each, so that a failure can be repeated, and cut ones.

    tests/hostile.py PROGRAM [COUNT [FIRST]]    the files of the numbers from FIRST (0) on, COUNT of them (200), each front
                                                of the worked files, each shape doubled, and flipped bits; above 1,000 files
                                                it says how far it is; the last line is 'N passed, M failed'
    tests/hostile.py --make NUMBER FOLDER       writes the sources of that number into the folder

Of each file the program is asked everything. Each run has to end with a status that fits what was asked, within a
bound of processor time, n log n in the bytes of its sources, and a bound of memory, linear in them. Running out of
memory within that bound fails, as does anything on standard error but that an index isn't held. What is noted, why a
piece ends, what is disputed or a gap, how pieces with other bytes stand to a reference of some of them, where each
source lies in one of them and in the saved catalogue, and that catalogue are compared with those of notes.py, which
goes by ST 336 alone, what is put together and ordered of ranges with those of at_hand.py, what a recording is with what
walk.py reads of its sets, and clocks with those of clocks.py: each number has a file of clocks beside. Cut at packets and within them, with repeats, a part saved, in another order, the sources leave the same
catalogue, and a saved one is shown as they are; ranges do in another order, with repeats, and with what was saved of
them. Some pieces are slices of longer files. A slice whose numbers are hostile, or that ends behind its file, is shown as
the piece of its bytes, or refused. Whole notes that version 1 of the file saved are shown, and joined with the others. A
damaged catalogue of either version, or one with parts of both, is shown, or refused with its cause and place, by notes.py
too.

A file of a shape with many alike, and one of twice as many: no question takes more than two and a half times as long,
and `describe` and `units` with timecodes not more than 2.3 times.

A file that is cut at a byte, and what begins with the packet in which that byte lies, leave its catalogue in both
orders, as pieces and as saved catalogues.

Of a file in which one bit is flipped `verify` names the packet that has it, by the file's catalogue, and no other: of
each byte of M and some of the examples, above 1,000 files of each byte of the worked files and the examples.

The shapes are those of hostile_files.py, the runs those of hostile_runs.py.
"""
import concurrent.futures
import itertools
import os
import pathlib
import random
import sys
import tempfile
import time

import notes
from hostile_files import (
    MANY, SHAPES, TOP, clips_of_a_frame, clocks_of, differing_ranges, heads_over_bytes, listed_units, many_clips, many_clocks,
    many_components, many_descriptors, many_packages, many_tracks, moved_packets, named_again, named_partitions,
    pieces_of, runs_over_one_another, timed_units,
)  # fmt: skip
from hostile_runs import Run, Wrong, finds, is_shown, read_source, try_file, try_number, without_kind

# The greatest ratio of two times, one of twice as many: n log n at these sizes is below 2.2, a square is 4.
GREATEST_RATIO = 2.5
# That of describe, which reads each set once, and of units with timecodes, which are looked for in each run once.
GREATEST_RATIO_OF_TIME = 2.3
# The shapes of header metadata.
DESCRIBED = (many_packages, many_tracks, many_components, many_descriptors, named_again, many_clocks, many_clips)
# The shapes of clocks, and how units are asked for there. Each has the first timecode once.
TIMED = (clips_of_a_frame, runs_over_one_another, timed_units)
BY_TIME = ("units --index 1 --timecode", "units --index 1 --from 00:00:00:00 --to 00:00:00:00")
# Seconds of processor time that a busy machine adds to a run: a ratio doesn't count them.
NOISE = 0.05
# How many copies of an example are sources of one run, a flipped bit in each, and how many bytes of it are tried so
# if not all are.
BESIDE = 64
FLIPPED = 40


def fronts_of(data, step):
    """How long the fronts of a file are: every `step` bytes, and beside each packet."""
    found, _, _ = notes.read_piece(0, data)
    borders = {note.offset + beside for note in found for beside in (-1, 0, 1, 15, 16, 17, 18, 19, 20, 21, 25)}
    return sorted(length for length in {*range(0, len(data) + 1, step), *borders, len(data)} if 0 <= length <= len(data))


def share_of(lengths, share):
    """Every `shares`-th of these lengths, from number `first` on."""
    first, shares = share
    return sorted(lengths)[first::shares]


def try_fronts(run, name, step, share):
    """Tries each front of a file: every `step` bytes, and beside each packet; of these a share."""
    data = (TOP / name).read_bytes()
    for length in share_of(fronts_of(data, step), share):
        run.fronts += 1
        front = [(0, data[:length])]
        (found, (_, count, stop)), sources = read_source(*front[0]), run.lay("front", front)
        lines = run.call((0,), length, "show", *sources).splitlines()
        checked = run.call((0, 1), length, "check", *sources).splitlines()
        if lines[0] != f"piece 0 noted {count} stop {stop}" or not is_shown(lines[1:], found):
            raise Wrong(f"{length} bytes of {name}: {lines[0]}")
        if not finds([line for line in checked if line.startswith("F")], found):
            raise Wrong(f"{length} bytes of {name}: {checked}")


def try_cuts(run, name, step, share):
    """Cuts a file every `step` bytes, and beside each packet, of these a share: the bytes before, and those from the
    packet on in which the cut lies, leave its catalogue in both orders, as pieces and as saved catalogues."""
    data = (TOP / name).read_bytes()
    found, _, _ = notes.read_piece(0, data)
    wanted, saved = notes.file_of(found), {}
    for length in share_of(fronts_of(data, step), share):
        run.fronts += 1
        place = max((note.offset for note in found if note.offset <= length < note.end), default=length)
        front, rest = run.lay("cut", [(0, data[:length]), (place, data[place:])])
        if place not in saved:
            saved[place] = run.saved(f"from{place}", len(data), [rest])
        of_front = run.saved("before", len(data), [front])
        for sources in ([front, rest], [rest, front], [of_front, saved[place]], [saved[place], of_front], [rest, of_front]):
            if run.joined(2 * len(data) + len(wanted), sources)[0] != wanted:
                raise Wrong(f"{name}, cut at {length}: {sources} leave another catalogue")


def try_saved_fronts(run, name, step, share):
    """Tries fronts of a saved catalogue, every `step` bytes and beside each note, of these a share: all but the last
    are refused."""
    data, at = (TOP / name).read_bytes(), 16
    borders = [at]
    for _ in range(int.from_bytes(data[8:16], "big")):
        at += notes.read_note(data, at, data[7])[1]
        borders.append(at)
    lengths = {*range(0, len(data), step), *(border + beside for border in borders for beside in (-1, 0, 1, 32, 33, 34))}
    for length in share_of((length for length in lengths if length <= len(data)), share):
        run.fronts += 1
        try_file(run, data[:length])


def flipped(data, at):
    """These bytes, but for a bit of the one at this place, by a seed."""
    bit = random.Random(f"bit of byte {at}").randrange(8)
    return data[:at] + bytes([data[at] ^ 1 << bit]) + data[at + 1 :]


def flips_told(content, places):
    """What `verify` prints of copies of what these notes are of, in each of which a bit is flipped in the byte at one of
    these places: the packet that has it differs. Every other one is the same, and so is that one if a copy has no bit
    of it flipped."""
    hit = [next(note for note in content if note.offset <= at < note.covered_end) for at in places]
    yield from (f"differs {number} {notes.shown_note(note)}" for number, note in enumerate(hit, 1))
    same = [note for note in content if set(hit) != {note}]
    known, held = (sum(note.covered_end - note.offset for note in some) for some in (same, content))
    yield f"verified {len(same)} of {len(content)} packets {known} of {held} bytes differs {len(set(hit))} cut 0 unknown 0"


def try_flips(run, name, length, places, beside):
    """Flips a bit in each of these bytes of the front of a file, in a copy of its own, and has `beside` copies at a
    time verified by its catalogue."""
    data = (TOP / name).read_bytes()[:length]
    content = notes.reduced(read_source(0, data)[0])
    saved = run.lay("saved", [(None, notes.file_of(content))])
    for first in range(0, len(places), beside):
        some = places[first : first + beside]
        copies = run.lay("flipped", [(0, flipped(data, at)) for at in some])
        told = run.call((1,), (len(some) + 1) * len(data), "verify", "--against", *saved, *copies).splitlines()
        run.flips += len(some)
        for at, line, want in itertools.zip_longest(some, map(without_kind, told), flips_told(content, some)):
            if line != want:
                raise Wrong(f"{length} bytes of {name}, flipped in {some if at is None else at}: {line}, and not {want}")


def seconds_of(run, shape, sources, size):
    """The processor time of each question about sources of `size` bytes in a shape, which is named by its words."""
    joined = str(run.folder / "joined")
    pathlib.Path(joined).unlink(missing_ok=True)
    asked = {"show": [], "check": [], "locate": ["--index", "1", "--unit", "0"], "join": ["--out", joined]}
    if shape in (listed_units, named_partitions):
        asked.update(units=["--index", "1"], plan=["--index", "1"])
    if shape in (differing_ranges, heads_over_bytes):
        asked.update(plan=[], map=[])
    if shape in DESCRIBED:
        asked.update(describe=[])
    if shape in TIMED:
        asked.update(dict.fromkeys(BY_TIME, []))
    if shape is moved_packets:
        asked = {"find": ["--in", sources[0]]}
    return {name: run.call_once((0, 1), size, *name.split(" "), *words, *sources)[1] for name, words in asked.items()}


def is_linear(name, ratio):
    """Whether the ratio of two times of a question isn't too great."""
    return ratio <= (GREATEST_RATIO_OF_TIME if name == "describe" or name in BY_TIME else GREATEST_RATIO)


def try_doubled(run, shape, many, seed):
    """Compares a file of a shape with one of twice as many. If the machine is busy, or slow for a while, a run takes more
    processor time too, so what takes too much is run again. The least times count, and so does the least ratio of two runs
    one after the other."""
    files = [shape(random.Random(seed), times * many) for times in (1, 2)]
    laid = [(run.lay(f"times{times}.", pieces), sum(len(data) for _, data in pieces)) for times, pieces in enumerate(files)]
    least, ratios = [{}, {}], {}
    for wait in (0, 1, 2, 4, 8, 16, 32, 32):
        time.sleep(wait)
        taken = [seconds_of(run, shape, sources, size) for sources, size in laid]
        for times, seconds in zip(least, taken):
            times.update({name: min(seconds[name], times.get(name, seconds[name])) for name in seconds})
        for once, twice in (taken, least):
            for name in once:
                ratio = (twice[name] - NOISE) / once[name]
                ratios[name] = min(ratio, ratios.get(name, ratio))
        run.ratio = max(ratios.values())
        if all(is_linear(name, ratio) for name, ratio in ratios.items()):
            return
    raise Wrong(f"{many} and twice as many take {least[0]} and {least[1]}")


def tried(program, name, what, *arguments):
    """What is wrong with a part that was tried, or None, and the figures of its runs."""
    with tempfile.TemporaryDirectory() as folder:
        run = Run(program, folder)
        try:
            what(run, *arguments)
        except Wrong as wrong:
            return f"{name}: {wrong}", run.figures()
        return None, run.figures()


def parts(count, first):
    """What is tried: each part's name, its function and its arguments. What takes long is tried in shares, side by side."""
    is_long = count > 1000
    step, shares = (1, 16) if is_long else (97, 1)
    for shape, many in MANY.items():
        for seed in range(4 if is_long else 1):
            yield f"{shape.__name__} of {many} doubled", try_doubled, shape, many, seed
    for path in sorted((TOP / "tests/worked").glob("*.bin")):
        name = f"tests/worked/{path.name}"
        yield f"fronts of {path.name}", try_fronts, name, 1, (0, 1)
        yield f"cuts of {path.name}", try_cuts, name, 1 if is_long or path.stem == "M" else 41, (0, 1)
        length = path.stat().st_size
        if is_long or path.stem == "M":
            yield f"flipped bits of {path.name}", try_flips, name, length, range(length), 1
    # M is cut after the length of its footer, of which there is a head.
    yield "flipped bits of a front of M", try_flips, "tests/worked/M.bin", 128, range(128), 1
    for path in sorted((TOP / "examples").glob("*.mxf")):
        name, length = f"examples/{path.name}", path.stat().st_size
        some = range(length) if is_long else random.Random(f"flipped in {path.name}").sample(range(length), FLIPPED)
        for share in range(shares):
            yield f"flipped bits of {path.name}", try_flips, name, length, share_of(some, (share, shares)), BESIDE
    for share in range(shares):
        yield "fronts of an example", try_fronts, "examples/op1a_jpeg2000.mxf", step, (share, shares)
        yield "cuts of an example", try_cuts, "examples/op1a_jpeg2000.mxf", step, (share, shares)
        yield "fronts of a saved example", try_saved_fronts, "examples/opatom_pcm.version1.cat", step, (share, shares)
    for number in range(first, first + count):
        yield f"file {number}, {SHAPES[number % len(SHAPES)].__name__}", try_number, number


def tried_all(program, count, first):
    """What was tried, as many parts at a time as there are processors. Of many files it reports each twentieth part."""
    found, wanted = [], list(parts(count, first))
    with concurrent.futures.ProcessPoolExecutor(len(os.sched_getaffinity(0))) as pool:
        for done in concurrent.futures.as_completed([pool.submit(tried, program, *part) for part in wanted]):
            found.append(done.result())
            if count > 1000 and len(found) * 20 // len(wanted) > (len(found) - 1) * 20 // len(wanted):
                print(f"{len(found)} of {len(wanted)} parts tried", flush=True)
    return found


def main():
    if sys.argv[1:2] == ["--make"] and len(sys.argv) == 4:
        number, run = int(sys.argv[2]), Run("", sys.argv[3])
        print("\n".join(run.lay("piece", pieces_of(number)) + run.lay("clocks", clocks_of(number))))
        return 0
    if not 2 <= len(sys.argv) <= 4:
        sys.exit(__doc__)
    count, first = (int(word) for word in (sys.argv + ["200", "0"][len(sys.argv) - 2 :])[2:4])
    found = tried_all(sys.argv[1], count, first)
    for wrong, _ in found:
        if wrong:
            print(f"FAILED: {wrong}")
    failed = sum(wrong is not None for wrong, _ in found)
    runs, fronts, flips = (sum(figures[which] for _, figures in found) for which in (0, 1, 2))
    slowest, ratio = (max(figures[which] for _, figures in found) for which in (3, 4))
    print(f"hostile files: {count} from number {first} on, and {fronts} fronts and cuts: {runs} runs; the slowest took {slowest:.0%} of its bound")
    print(f"flipped bits: {flips}")
    print(f"twice as many took {ratio:.2f} times as long at most")
    print(f"{len(found) - failed} passed, {failed} failed")
    return failed > 0


if __name__ == "__main__":
    sys.exit(main())
