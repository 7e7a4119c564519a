#!/usr/bin/env python3
"""Flips bits in keys of the examples: `check --doubts` tells of nearly all, and says of the examples themselves that nothing is in
doubt.

    tests/damaged_keys.py PROGRAM    the last line is 'N passed, M failed'

A bit of a key is flipped, but for byte 8, the version, which no view reads. 500 bits are drawn by a fixed seed. The flip is
told if the status is 1: by a finding, a piece that stops, or a doubt. At least 99 of 100 flips are told.
"""
import json
import pathlib
import random
import subprocess
import sys
import tempfile

EXAMPLES = sorted((pathlib.Path(__file__).resolve().parent.parent / "examples").glob("*.mxf"))
FLIPS = 500
KEY_BYTES = [index for index in range(16) if index != 7]


def run(program, *words):
    """How a command ends: its status, and its lines as objects."""
    done = subprocess.run([program, *words, "--json"], capture_output=True, check=False)
    return done.returncode, [json.loads(line) for line in done.stdout.splitlines()]


def flipped(data, place, random_bits):
    """The bytes with one bit flipped of the key that begins at the place."""
    changed = bytearray(data)
    changed[place + random_bits.choice(KEY_BYTES)] ^= 1 << random_bits.randrange(8)
    return changed


def main():
    """Tries the examples, and then as many flips of each."""
    program, passed, failed, told = sys.argv[1], 0, 0, 0
    random_bits = random.Random(20261201)
    with tempfile.TemporaryDirectory() as folder:
        damaged = pathlib.Path(folder) / "damaged"
        for example in EXAMPLES:
            status, lines = run(program, "check", "--doubts", f"range:0:{example}")
            is_sound = status == 0 and lines[-1] == {"line": "doubts", "doubts": 0}
            passed, failed = passed + is_sound, failed + (not is_sound)
            notes = [line for line in run(program, "show", f"at:0:{example}")[1] if line["line"] == "note"]
            data = example.read_bytes()
            for _ in range(FLIPS // len(EXAMPLES)):
                damaged.write_bytes(flipped(data, random_bits.choice(notes)["offset"], random_bits))
                told += run(program, "check", "--doubts", f"range:0:{damaged}")[0] == 1
    is_enough = told * 100 >= FLIPS * 99
    if not is_enough:
        print(f"FAILED: {told} of {FLIPS} flips are told")
    print(f"{passed + is_enough} passed, {failed + (not is_enough)} failed")


if __name__ == "__main__":
    main()
