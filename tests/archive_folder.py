#!/usr/bin/env python3
"""Tries the commands of mxf_archive for a folder of recordings: scan, orders, verify, accept, match, pages, rename, remove,
join, and edit units that mxf_fetch restores beside them.

    tests/archive_folder.py TOP TOOL WORK

TOP is the folder of the repository, TOOL the program mxf_tool, WORK a new folder. Failures are printed; the last line is
'N passed, M failed'. What is expected comes from mxf_tool, which is asked directly, and by hand from the worked files: M.bin
has packets at 0, 108 and 216 and ends at 264, and the first three of W.bin are lost with its first 336 bytes.
"""
from __future__ import annotations

import sys

import archive_gathering as gathering
import archive_names as names
import archive_restores as restores
import archive_verifying as verifying
from archive_trial import Trial

# What is tried with the folder of the first trial, one after another, and what is tried with folders of its own.
WITH_FIRST = (
    gathering.try_stretches, gathering.try_growing, gathering.try_damage, gathering.try_pages, gathering.try_gone,
    gathering.try_failures, gathering.try_side_by_side,
    gathering.try_full_disk, verifying.try_verify, verifying.try_flipped, verifying.try_accept,
    verifying.try_another, verifying.try_match, verifying.try_loss, verifying.try_cut,
    verifying.try_unmounted,
)  # fmt: skip
ALONE = (
    gathering.try_first_day_killed, gathering.try_kills, gathering.try_signals, gathering.try_terminal,
    gathering.try_damaged_whole, names.try_run_ins, names.try_others,
    names.try_places, names.try_odd_names, names.try_many, names.try_join, restores.try_restores, restores.try_units,
)  # fmt: skip


def main() -> None:
    """Tries all."""
    t = Trial(*sys.argv[1:4])
    here = gathering.try_first(t)
    for trial in WITH_FIRST:
        trial(t, here)
    for alone in ALONE:
        alone(t)
    print(f"{t.passed} passed, {t.failed} failed")


if __name__ == "__main__":
    main()
