#!/usr/bin/env python3
"""Hands in whole files as a piece and as a range: the program says the same of both.

    tests/whole_files.py PROGRAM    the last line is 'N passed, M failed'

The files are the examples, the worked files, and of each case of tests/cases the pieces that begin at 0. A file is whole if
it begins with a packet whose key is known, as that of a header partition pack, and ends with a packet. (A range takes a
packet of another key for its start only beside others.) `check`, `describe`, `plan`, `units` and `show` print the same lines then, end with the same
status and tell the same faults, with --skim too. So a whole file is named `range:0:`, which goes on behind damage: of each
example with a packet whose key is lost `check` finds no more by the range than by the piece, and `plan` orders no more bytes.
"""
import json
import pathlib
import subprocess
import sys
import tempfile

sys.dont_write_bytecode = True

import cases  # noqa: E402 (no file of it is to be written)

TOP = pathlib.Path(__file__).resolve().parent.parent
CALLS = [[name, *skim] for name in ("check", "describe", "plan", "units", "show") for skim in ([], ["--skim"])]


def files():
    """The files, by their names."""
    for path in sorted([*TOP.glob("examples/*.mxf"), *TOP.glob("tests/worked/*.bin")]):
        yield path.name, path.read_bytes()
    for case in cases.all_cases(cases.all_files()):
        for offset, laid, *_ in case.pieces:
            if offset == 0:
                yield case.name, cases.bytes_of(laid)


class Trial:
    """Calls of the program on a file in a folder, and what was counted."""

    def __init__(self, program, folder):
        self.program, self.path = program, pathlib.Path(folder) / "file"
        self.passed, self.failed, self.whole = 0, 0, 0

    def verdict(self, name, holds):
        """Counts what has to hold."""
        self.passed += bool(holds)
        self.failed += not holds
        if not holds:
            print(f"FAILED: {name}")

    def said(self, form, words):
        """What is printed, what is said beside it, and the status."""
        done = subprocess.run([self.program, *words, f"{form}:0:{self.path}"], capture_output=True, check=False)
        return done.stdout, done.stderr, done.returncode

    def lines(self, form, command):
        """The lines of a command as objects."""
        return [json.loads(line) for line in self.said(form, [command, "--json"])[0].splitlines()]

    def is_whole(self):
        """Whether the file begins with a packet whose key is known, and ends with a packet."""
        lines = self.lines("at", "show")
        kinds = [line["kind"] for line in lines if line["line"] == "note"]
        return kinds[:1] not in ([], ["other"]) and all(line["stop"] == "end" for line in lines if line["line"] == "piece")

    def compare(self, name, data):
        """Compares what is said of a file as a piece and as a range, if it is whole."""
        self.path.write_bytes(data)
        if self.is_whole():
            self.whole += 1
            differs = [" ".join(words) for words in CALLS if self.said("at", words) != self.said("range", words)]
            self.verdict(f"{name}: {', '.join(differs)} of a range is that of a piece", not differs)

    def damage(self, path):
        """Loses the key of a packet of essence in the middle of a file."""
        data = bytearray(path.read_bytes())
        self.path.write_bytes(data)
        places = [line["offset"] for line in self.lines("at", "show") if line["line"] == "note" and line["kind"] == "essence"]
        at = places[len(places) // 2]
        data[at : at + 16] = bytes(16)
        self.path.write_bytes(data)
        (piece, of_range) = (self.lines(form, "plan") for form in ("at", "range"))
        self.verdict(f"{path.name}: a piece stops at the key that is lost", piece[-1]["end"] is None)
        self.verdict(f"{path.name}: a range goes on to the end", of_range[-1]["end"] == len(data))
        orders = [line for line in of_range if line["line"] == "restore"]
        self.verdict(f"{path.name}: one order is left", [order["start"] for order in orders] == [at])
        found = [self.lines(form, "check")[-1]["findings"] for form in ("at", "range")]
        self.verdict(f"{path.name}: less is found", found[1] < found[0])


def main():
    """Tries all files."""
    with tempfile.TemporaryDirectory() as folder:
        trial = Trial(sys.argv[1], folder)
        seen = set()
        for name, data in files():
            if data not in seen:
                seen.add(data)
                trial.compare(name, data)
        trial.verdict("some files are whole", trial.whole > 100)
        for path in sorted(TOP.glob("examples/op1a_*.mxf")):
            trial.damage(path)
    print(f"{trial.passed} passed, {trial.failed} failed")


if __name__ == "__main__":
    main()
