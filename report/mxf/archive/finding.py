"""The command that finds recordings by words of a name or a coding, the end of an identifier, or a timecode."""
from __future__ import annotations

import functools
from collections.abc import Collection, Sequence
from sqlite3 import Connection, Row
from typing import Any

from mxf import timecodes
from mxf.archive import database, printing
from mxf.archive.answering import answer_of
from mxf.archive.essence import KINDS
from mxf.archive.texts import question_of
from mxf.archive.words import Words

BY_UMID = """
SELECT r.name, 'package', p.uid
FROM packages p JOIN recordings r ON r.id = p.recording WHERE substr(p.uid, -16) = ?
UNION
SELECT r.name, 'clip', c.of_uid
FROM clips c JOIN recordings r ON r.id = c.recording WHERE substr(c.of_uid, -16) = ?
"""

BY_TIMECODE = """
SELECT r.name AS recording, h.clock, h.first, h.last, h.base, h.is_drop, c.index_sid, c.first AS clock_first,
  c.last AS clock_last, t.track, t.at, p.kind, p.uid
FROM hours h JOIN recordings r ON r.id = h.recording
  LEFT JOIN clocks c ON c.recording = h.recording AND c.number = h.clock
  LEFT JOIN timecodes t ON t.recording = h.recording AND t.number = h.timecode
  LEFT JOIN packages p ON p.recording = h.recording AND p.number = t.package
WHERE h.hour = ? AND h.first < ?
ORDER BY r.name, h.number
"""

BY_WORDS = f"""
SELECT r.name, CASE WHEN t.what IN {KINDS} THEN t.what ELSE 'name of ' || t.what END, t.text
FROM words w JOIN texts t ON t.id = w.rowid JOIN recordings r ON r.id = t.recording WHERE words MATCH ?
"""

# How many digits an identifier has that is asked for, what may stand before them, and what between them beside spaces.
UMID_DIGITS = range(16, 65)
UMID_PREFIXES = ("urn:smpte:umid:", "0x")
UMID_SIGNS = dict.fromkeys(map(ord, "-.{}"))

HEADS = ("recording", "what", "text")

Found = Collection[tuple[Any, ...]]  # recordings, what has a word, and that text


def find(words: Words) -> int:
    """Prints what has all of the words; status 1 if nothing has."""
    with database.reading(words.database) as connection:
        rows = found(connection, words.word)
    width = printing.width_of(HEADS[0], (row[0] for row in rows))
    printing.print_answer(words.form, HEADS, rows, f"%-{width}s  %-17s  %s")
    return 0 if rows else 1


def found(connection: Connection, words: Sequence[str]) -> list[tuple[Any, ...]]:
    """What is found by all of these words, each once."""
    parts = [found_by(connection, word) for word in words]
    recordings = set.intersection(*({row[0] for row in part} for part in parts))
    return sorted({row for part in parts for row in part if row[0] in recordings})


def found_by(connection: Connection, word: str) -> Found:
    """What is found by one word: a timecode, the end of an identifier, or words of a text."""
    if timecodes.is_timecode(word):
        return found_by_timecode(connection, word)
    return [*found_by_words(connection, word), *found_by_umid(connection, digits_of(word))]


def digits_of(word: str) -> str:
    """What a word may have of the digits of an identifier."""
    word = word.lower()
    prefix = next(filter(word.startswith, UMID_PREFIXES), "")
    return "".join(word.removeprefix(prefix).translate(UMID_SIGNS).split())


def found_by_umid(connection: Connection, digits: str) -> Found:
    """Packages with an identifier that ends so, and clips that show one."""
    if len(digits) not in UMID_DIGITS or not set(digits) <= set("0123456789abcdef"):
        return []
    rows = answer_of(connection, BY_UMID, (digits[-16:], digits[-16:]))[1]
    return [row for row in rows if row[2].endswith(digits)]


def found_by_words(connection: Connection, word: str) -> Found:
    """Texts that have, for each of the words that a word has, one that begins with it."""
    question = question_of(word)
    return answer_of(connection, BY_WORDS, (question,))[1] if question else []


def found_by_timecode(connection: Connection, timecode: str) -> Found:
    """The clocks that have a timecode; of recordings of which none has, the timecode components of packages that have it."""
    after = f"{timecode[:8]};"  # which goes behind each label of that second with a colon
    has_label = functools.cache(lambda base, is_drop: timecodes.Counting(base, bool(is_drop)).has(timecode))
    rows = [row for row in connection.execute(BY_TIMECODE, (int(timecode[:2]), after))
            if timecodes.is_within(timecode, row["first"], row["last"]) and has_label(row["base"], row["is_drop"])]  # fmt: skip
    clocked = {row["recording"] for row in rows if row["clock"] is not None}
    return {
        (row["recording"], *told_by(row)) for row in rows if row["clock"] is not None or row["recording"] not in clocked
    }


def told_by(row: Row) -> tuple[str, str]:
    """Which clock has a timecode, and from which to which it goes; or which track of a package, and from which on."""
    if row["clock"] is not None:
        return "clock", f"index {row['index_sid']}, {row['clock_first']} to {row['clock_last'] or '-'}"
    return "timecode", f"{row['kind']} package {row['uid'][-16:]}, track {row['track']}, from {row['at']}"
