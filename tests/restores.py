#!/usr/bin/env python3
"""Plays restores of examples to their end: an example is cut at borders of 512 bytes, some of the ranges are lost, and
what `plan` orders is cut from the file and handed in, until it orders nothing.

    tests/restores.py PROGRAM [COUNT [FIRST]]    restores of the numbers from FIRST (0) on, COUNT of them (20); the last
                                                 line is 'N passed, M failed'

The last range isn't lost, so that the file's end is known. An order that says that it begins inside a packet is handed in
as a range, each other as a piece; one without an end is restored up to where a source goes on. In the end the saved
catalogue is that of the whole file, each lost byte was restored once, and of the others only bytes of a key and a length
were, of packets whose front lies at a border.
"""
import collections
import json
import pathlib
import random
import re
import subprocess
import sys
import tempfile

import notes

TOP = pathlib.Path(__file__).resolve().parent.parent
BLOCK = 512
# More rounds than any restore takes.
MOST_ROUNDS = 8
# What is said beside an answer: nothing, or that no segment of an index is held.
NO_INDEX = re.compile(r"(index \d+ isn't held.*\n)?")


class Wrong(Exception):
    """What a restore did that it shouldn't."""


class Restore:
    """A restore of a file in a folder: what was handed in, and how often each byte was restored."""

    def __init__(self, program, folder, data):
        self.program, self.folder, self.data = program, pathlib.Path(folder), data
        self.sources, self.given, self.times = [], set(), collections.Counter()

    def hand_in(self, sort, start, end):
        """Hands in the file's bytes from START up to END."""
        path = self.folder / f"{len(self.sources)}"
        path.write_bytes(self.data[start:end])
        self.sources.append(f"{sort}:{start}:{path}")
        self.given.update(range(start, end))

    def call(self, *words):
        """What the program prints."""
        done = subprocess.run([self.program, *words], capture_output=True, text=True, check=False)
        if done.returncode not in (0, 1) or not NO_INDEX.fullmatch(done.stderr):
            raise Wrong(f"{words[0]}: status {done.returncode}: {done.stderr}")
        return done.stdout

    def orders(self):
        """What is to be restored next."""
        lines = map(json.loads, self.call("plan", "--json", *self.sources).splitlines())
        return [line for line in lines if line["line"] == "restore"]

    def end_of(self, order):
        """Where the bytes of an order end; if that isn't known, where a source goes on after the first that is lost."""
        if order["end"] is not None:
            return order["end"]
        at = order["start"]
        while at in self.given:
            at += 1
        while at < len(self.data) and at not in self.given:
            at += 1
        return at

    def catalogue(self, sources):
        """The bytes of the catalogue that is saved of these sources."""
        path = self.folder / "saved"
        self.call("join", "--out", str(path), *sources)
        return path.read_bytes()

    def play(self, most_rounds=MOST_ROUNDS):
        """Restores what is ordered until nothing is."""
        for _ in range(most_rounds):
            orders = self.orders()
            if not orders:
                return
            # All orders of a round are answered by what stood before it.
            wanted = [(order, self.end_of(order)) for order in orders]
            for order, end in wanted:
                if order["again"]:
                    raise Wrong(f"of an undamaged file bytes are ordered again: {order}")
                self.times.update(range(order["start"], end))
                self.hand_in("range" if order["inside"] else "at", order["start"], end)
        raise Wrong("orders are left")


def lost_ranges(rng, size):
    """The borders of the ranges of a file, and the numbers of those that are lost."""
    blocks = range(BLOCK, size, BLOCK)
    borders = [0, *sorted(rng.sample(blocks, rng.randint(2, min(14, len(blocks))))), size]
    count = len(borders) - 1
    return borders, set(rng.sample(range(count - 1), rng.randint(1, min(4, count - 1))))


def try_number(program, number):
    """Plays the restore of a number."""
    rng = random.Random(f"restore {number}")
    path = rng.choice(sorted((TOP / "examples").glob("*.mxf")))
    data = path.read_bytes()
    borders, lost = lost_ranges(rng, len(data))
    fronts = {at for note in notes.read_piece(0, data)[0] for at in range(note.offset, note.covered_end - note.length)}
    with tempfile.TemporaryDirectory() as folder:
        restore = Restore(program, folder, data)
        kept = [part for part, _ in enumerate(borders[1:]) if part not in lost]
        for part in rng.sample(kept, len(kept)):
            restore.hand_in("range", borders[part], borders[part + 1])
        before = set(restore.given)
        restore.play()
        whole = folder + "/whole"
        pathlib.Path(whole).write_bytes(data)
        if restore.catalogue(restore.sources) != restore.catalogue([f"at:0:{whole}"]):
            raise Wrong("the saved catalogue isn't that of the whole file")
    for at in range(len(data)):
        times = restore.times[at]
        if at not in before and times != 1:
            raise Wrong(f"byte {at} was lost, and restored {times} times")
        if at in before and times and (times > 1 or at not in fronts):
            raise Wrong(f"byte {at} wasn't lost, and was restored {times} times")


def main():
    if not 2 <= len(sys.argv) <= 4:
        sys.exit(__doc__)
    count, first = (int(word) for word in (sys.argv + ["20", "0"][len(sys.argv) - 2 :])[2:4])
    failed = 0
    for number in range(first, first + count):
        try:
            try_number(sys.argv[1], number)
        except Wrong as wrong:
            failed += 1
            print(f"FAILED: restore {number}: {wrong}")
    print(f"{count - failed} passed, {failed} failed")
    return failed > 0


if __name__ == "__main__":
    sys.exit(main())
