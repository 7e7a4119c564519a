#!/usr/bin/env python3
"""Compares a database of report/mxf_archive with what the program prints, and tries it where it is hard.

    tests/database.py TOOL DB NAME WORDS..    the rows of a recording, and the lines that the program prints of WORDS
    tests/database.py --whole DB              that the file is sound: its pages, its keys and its states
    tests/database.py --rows DB NAME          the same, and what the tables have of a recording but for times, a row a line
    tests/database.py --plans DB DOCUMENT     that no question goes through a table that grows with the recordings
    tests/database.py --statements WORDS..    how many statements mxf_archive runs by these words
    tests/database.py --killed N WORDS..      mxf_archive, which is killed ahead of its statement N
    tests/database.py --made N                lines of N recordings for `mxf_archive load`
    tests/database.py --anew DB OTHER         OTHER is made anew, and has the rows that DB has
    tests/database.py --answers DB DOCUMENT   what mxf_archive answers of all in a database, and the questions of the document

Each difference is a line. Nothing is printed of a database that is right.
"""
import fractions
import importlib
import importlib.machinery
import importlib.util
import json
import math
import os
import pathlib
import re
import signal
import sqlite3
import subprocess
import sys
import unicodedata

import essence_words

TOP = pathlib.Path(__file__).resolve().parent.parent
ARCHIVE = TOP / "report" / "mxf_archive"

# Of each table the columns that are compared with the fields of a line.
FIELDS = {
    "packages": ("describe", "package", {"kind": "kind", "uid": "uid"}),
    "tracks": ("describe", "track", {"track": "id", "kind": "kind", "essence": "number", "rate": "rate", "origin": "origin",
                                     "duration": "duration", "length": "length"}),
    "clips": ("describe", "clip", {"start": "start", "duration": "duration", "of_uid": "package", "of_track": "track",
                                   "of_position": "from", "track": "of-track"}),
    "timecodes": ("describe", "timecode", {"start": "start", "duration": "duration", "at": "at", "base": "base",
                                           "track": "of-track"}),
    "pictures": ("describe", "picture", {"width": "width", "height": "height", "display_width": "display-width",
                                         "display_height": "display-height", "layout": "layout", "aspect": "aspect",
                                         "depth": "depth", "coding": "coding"}),
    "sounds": ("describe", "sound", {"rate": "rate", "channels": "channels", "bits": "bits", "coding": "coding"}),
    "clocks": ("describe", "clock", {"index_sid": "index-sid", "position": "position", "count": "count", "first": "first",
                                     "last": "last", "base": "base", "told_by": "by"}),
    "partitions": ("show", "partition", {"offset": "offset", "part": "part", "status": "status", "kag": "kag",
                                         "this": "this", "previous": "previous", "footer": "footer",
                                         "header_bytes": "header-bytes", "index_bytes": "index-bytes",
                                         "index_sid": "index-sid", "body_offset": "body-offset", "body_sid": "body-sid",
                                         "link": "link"}),
    "findings": ("check", ("finding", "doubt"), {"code": "code", "offset": "offset", "text": "text"}),
    "orders": ("plan", "restore", {"start": "start", "end": "end", "length": "length", "reason": "reason",
                                   "pack": "source", "is_inside": "inside", "is_again": "again"}),
}  # fmt: skip

# By which options a command is asked.
OPTIONS = {"check": ["--doubts"]}

# What the table of recordings has of the essence.
ESSENCE = ("container", "coding", "picture", "sound")

DAMAGED = ("not-ul", "bad-length", "too-far")
COUNTED = ("packets", "end", "held", "hand", "missing", "findings", "disputes", "orders", "ordered", "open")
TABLES_WITH_TIMES = {"sources": ("modified",), "states": ("gathered",), "verifications": ("verified",), "recordings": ("verified",)}


def opened(path):
    """The database, to be read."""
    connection = sqlite3.connect(f"{pathlib.Path(path).resolve().as_uri()}?mode=ro", uri=True)
    connection.row_factory = sqlite3.Row
    return connection


def lines_of(tool, command, words):
    """The lines that a command prints, and that its status is no fault."""
    done = subprocess.run([tool, command, "--json", *words], stdout=subprocess.PIPE, check=False)
    assert done.returncode in (0, 1), (command, done.returncode)
    return [json.loads(line) for line in done.stdout.decode().splitlines()]


def value_of(value):
    """A value as it is stored: a number above what SQLite has as text, true and false as 1 and 0."""
    if isinstance(value, bool):
        return int(value)
    return str(value) if isinstance(value, int) and value > 2**63 - 1 else value


def wanted_counts(said):
    """What a state counts, by the lines of all commands."""
    (mapped,), (planned,) = ([line for line in said[command] if line["line"] == name]
                             for command, name in (("map", "map"), ("plan", "planned")))  # fmt: skip
    notes = [line for line in said["show"] if line["line"] == "note"]
    numbers = {
        "packets": len(notes), "disputes": sum(line["disputed"] for line in notes), "end": planned["end"],
        "findings": next(line["findings"] for line in said["check"] if line["line"] == "findings"), "orders": planned["ranges"], "ordered": planned["bytes"],
        "open": planned["open"], **{name: mapped[name] for name in ("held", "hand", "missing")},
    }  # fmt: skip
    return {name: value_of(number) for name, number in numbers.items()}


def wanted_essence(said):
    """What the container, the coding, the pictures and the sounds of a recording are called, by the lines."""
    pictures, sounds = (essence_words.told(kind, said["describe"]) for kind in ("picture", "sound"))
    values = (
        essence_words.container(said["describe"], said["show"]), essence_words.coding(said["describe"]),
        essence_words.together(pictures), essence_words.together(sounds),
    )  # fmt: skip
    return dict(zip(ESSENCE, values))


def compare(tool, database, name, words):
    """Prints where the rows of a recording differ from the lines of the program."""
    connection = opened(database)
    said = {command: lines_of(tool, command, [*OPTIONS.get(command, []), *words])
            for command in ("show", "describe", "check", "plan", "map")}  # fmt: skip
    (recording,) = connection.execute("SELECT * FROM recordings WHERE name = ?", (name,))
    for table, (command, line_name, fields) in FIELDS.items():
        names = line_name if isinstance(line_name, tuple) else (line_name,)
        lines = [line for line in said[command] if line["line"] in names and all(field in line for field in fields.values())]
        want = [tuple(value_of(line[field]) for field in fields.values()) for line in lines]
        columns = ", ".join(f'"{column}"' for column in fields)
        order = '"offset"' if table == "partitions" else "number"
        got = connection.execute(f"SELECT {columns} FROM {table} WHERE recording = ? ORDER BY {order}", (recording["id"],))
        differ(table, want, [tuple(row) for row in got])
    (state,) = connection.execute("SELECT * FROM states WHERE recording = ? AND number = ?", (recording["id"], recording["state"]))
    differ("states", wanted_counts(said), {column: state[column] for column in COUNTED})
    differ("what the recording is", wanted_essence(said), {column: recording[column] for column in ESSENCE})
    names = [line["text"] for line in said["describe"] if line["line"] in ("name", "track-name")]
    texts = connection.execute("SELECT text FROM texts WHERE recording = ? AND what IN ('package', 'track')", (recording["id"],))
    differ("texts", set(filter(None, names)), {row["text"] for row in texts})
    notes = [line for line in said["show"] if line["line"] == "note" and line["disputed"]]
    got = connection.execute('SELECT "offset", "end", key FROM disputes WHERE recording = ? ORDER BY number', (recording["id"],))
    differ("disputes", [(line["offset"], line["end"], line["key"]) for line in notes], [tuple(row) for row in got])
    compare_units(tool, connection, recording["id"], words, said)
    compare_views(connection, name, said)


def lines_in(said, command, name):
    """The lines of this name that a command printed."""
    return [line for line in said[command] if line["line"] == name]


def after(timecode, base, is_drop):
    """The timecode of the frame after one (ST 12-1). Drop frame leaves out the first labels of most minutes."""
    hours, minutes, seconds, frames = map(int, timecode.split(":"))
    seconds, frames = seconds + (frames + 1) // base, (frames + 1) % base
    minutes, seconds = minutes + seconds // 60, seconds % 60
    hours, minutes = (hours + minutes // 60) % 24, minutes % 60
    if is_drop and base in (30, 60) and minutes % 10 and seconds == frames == 0:
        frames = base // 15
    return f"{hours:02}:{minutes:02}:{seconds:02}:{frames:02}"


def parts_of(timecode):
    """The numbers of a timecode, by which the one before another is less."""
    return tuple(map(int, timecode.split(":")))


def last_of(line, count):
    """The last timecode of so many from that of a timecode component on."""
    timecode, is_drop = line["at"].replace(";", ":"), ";" in line["at"]
    for _ in range(1, count):
        timecode = after(timecode, line["base"], is_drop)
    return timecode


def times_of(first, last, base, of):
    """The rows of the view `times` from one timecode to another, up to midnight if it isn't known to which."""
    is_open = last is None
    end = f"23:59:59:{base - 1:02}" if is_open else last.replace(";", ":")
    hours = hours_between(first.replace(";", ":"), end, base)
    return [(*hour, base, int(";" in first), int(is_open), *of) for hour in hours]


def wanted_times(said):
    """The rows of the view `times` by the lines: the hours, the base, drop frame, whether the end isn't known, the
    index of a clock, and the package and the track of a timecode component. Nothing that is compared lasts a day."""
    rows, names, rates = [], {}, {}
    for line in lines_in(said, "describe", "name"):
        names[line["of-package"]] = line["text"]
    for line in said["describe"]:
        if line["line"] == "track" and "id" in line:
            rates[line["of-package"], line["id"]] = fractions.Fraction(line["rate"])
        elif line["line"] == "timecode" and line["at"] is not None and line["base"] and line["duration"] != 0:
            rate, count = rates[line["of-package"], line["of-track"]], line["duration"]
            if count is not None and round(rate) != line["base"]:
                count = math.ceil(count * line["base"] / rate)
            last = None if count is None else last_of(line, count)
            rows += times_of(line["at"], last, line["base"], (None, names.get(line["of-package"]), line["of-track"]))
        elif line["line"] == "clock":
            rows += times_of(line["first"], line["last"], line["base"], (line["index-sid"], None, None))
    return rows


def wanted_words(said, name):
    """The rows of the view `named` by the lines: each word of the names of a recording, its programs and its parts, and of
    what its container, its pictures and its sounds are called."""
    named = (("company", "show", "company"), ("product", "show", "product"), ("package", "describe", "name"),
             ("track", "describe", "track-name"))  # fmt: skip
    lines = [(what, line["text"]) for what, command, of in named for line in lines_in(said, command, of)]
    texts = {(what, text) for what, text in lines if text}
    texts.add(("recording", name))
    texts |= {(kind, text) for kind in ("picture", "sound") for text in essence_words.told(kind, said["describe"])}
    container = essence_words.container(said["describe"], said["show"])
    texts |= {("container", container)} if container else set()
    words = {}
    for _, text in texts:
        plain = "".join(letter for letter in unicodedata.normalize("NFKD", text) if not unicodedata.combining(letter))
        words[text] = "".join(letter if letter.isalnum() else " " for letter in plain.casefold()).split()
    return {(word, what, text) for what, text in texts for word in words[text]}


def hours_between(first, last, base):
    """What of the timecodes from one to another lies in each hour: the hour, and the first and the last there."""
    rows, begin = [], first
    while True:
        end = f"{begin[:2]}:59:59:{base - 1:02}"
        if parts_of(begin) <= parts_of(last) <= parts_of(end):
            return [*rows, (int(begin[:2]), begin, last)]
        rows.append((int(begin[:2]), begin, end))
        begin = after(end, base, False)


def compare_views(connection, name, said):
    """The same of the views by which docs/ARCHIVE.md asks."""
    (mapped,), (planned,), orders = lines_in(said, "map", "map"), lines_in(said, "plan", "planned"), lines_in(said, "plan", "restore")
    lacks = [(mapped["missing"], planned["ranges"], planned["bytes"], planned["open"])] if mapped["missing"] or orders else []
    fields = ("start", "end", "length", "reason", "source", "inside", "again")
    found = lines_in(said, "check", "finding")
    damaged = [(f"{line['code']} {line['text']}", line["offset"]) for line in found if line["code"] in ("F04", "F10", "F11")]
    damaged += [(line["stop"], line.get("at")) for line in lines_in(said, "check", "stop") if line["stop"] in DAMAGED]
    damaged += [(f"doubt {line['code']} {line['text']}", line["offset"]) for line in lines_in(said, "check", "doubt")]
    notes = [line for line in lines_in(said, "show", "note") if line["disputed"]]
    packages, clips = lines_in(said, "describe", "package"), lines_in(said, "describe", "clip")
    uids = [(line["uid"], f"{line['kind']} package") for line in packages if "uid" in line]
    uids += [(line["package"], "clip") for line in clips if "of-track" in line]
    numbers = wanted_counts(said)
    wanted = {
        "missing, orders, ordered, open FROM lacking": lacks,
        'start, "end", length, reason, pack, is_inside, is_again FROM restores': [tuple(line[field] for field in fields) for line in orders],
        "what, place FROM damaged": damaged,
        '"offset", "end", kind, length, key FROM disputed': [
            tuple(line[field] for field in ("offset", "end", "kind", "length", "key")) for line in notes
        ],
        "uid, what FROM umids": uids,
        'packets, "end", held, missing, findings, disputes, orders FROM last': [
            tuple(numbers[field] for field in ("packets", "end", "held", "missing", "findings", "disputes", "orders"))
        ],
        "hour, first, last, base, is_drop, is_open, index_sid, package, track FROM times": wanted_times(said),
        "word, what, text FROM named": wanted_words(said, name),
        "1 FROM changed": [],
        "verified FROM fixity": [("",)],
    }  # fmt: skip
    last = "WITH last AS (SELECT *, max(number) FROM history GROUP BY recording)"
    for question, want in wanted.items():
        got = [tuple(row) for row in connection.execute(f"{last} SELECT {question} WHERE recording = ?", (name,))]
        differ(question, sorted(map(str, (tuple(map(value_of, row)) for row in want))), sorted(map(str, got)))


def compare_units(tool, connection, recording, words, said):
    """The same of the edit units of each index."""
    for index_sid in {line["index-sid"] for line in said["show"] if line["line"] == "segment"}:
        (row,) = connection.execute("SELECT * FROM indexes WHERE recording = ? AND index_sid = ?", (recording, index_sid))
        if row["said"] is None:
            total = lines_of(tool, "units", ["--index", str(index_sid), "--from", "0", "--to", str(row["units"] - 1), *words])[-1]
            differ("indexes", [total[name] for name in ("units", "held", "hand")], [row["units"], row["held"], row["hand"]])


def differ(what, want, got):
    """Prints what isn't as wanted."""
    if want != got:
        print(f"{what}: want {want}, got {got}")


def check_whole(database):
    """Prints what isn't sound in a database."""
    connection = opened(database)
    differ("integrity_check", ["ok"], [row[0] for row in connection.execute("PRAGMA integrity_check")])
    differ("foreign_key_check", [], [tuple(row) for row in connection.execute("PRAGMA foreign_key_check")])
    lone = connection.execute("SELECT name FROM recordings r WHERE NOT EXISTS "
                              "(SELECT 1 FROM states s WHERE s.recording = r.id AND s.number = r.state)")  # fmt: skip
    differ("recordings without a state", [], [row["name"] for row in lone])
    if connection.execute("PRAGMA user_version").fetchone()[0] > 2:
        check_words(connection)


def check_words(connection):
    """Prints it if the words of texts aren't those of the texts. The index is looked at in a copy, since that is a writing."""
    copy = sqlite3.connect(":memory:")
    connection.backup(copy)
    try:
        copy.execute("INSERT INTO words (words, rank) VALUES ('integrity-check', 1)")
    except sqlite3.DatabaseError as fault:
        print(f"the words of texts: {fault}")
    copy.close()


def make_anew(database, other):
    """Makes a database by mxf_archive, and copies to it the rows of another one, table by table. Both have the columns that
    a version before has, but for those that lists were kept in, and those that a later version has."""
    subprocess.run([ARCHIVE, "load", other, os.devnull], stdout=subprocess.DEVNULL, check=True)
    connection = sqlite3.connect(other)
    connection.execute("ATTACH ? AS former", (str(database),))
    names = "SELECT name FROM {} WHERE type = 'table' AND sql NOT LIKE 'CREATE VIRTUAL%' AND name NOT LIKE 'words%'"
    own, former = ({row[0] for row in connection.execute(names.format(f"{place}sqlite_master"))} for place in ("", "former."))
    for table in sorted(own & former):
        columns = [{row[1] for row in connection.execute(f"PRAGMA {place}table_info({table})")} for place in ("", "former.")]
        shared = ", ".join(f'"{name}"' for name in sorted(set.intersection(*columns)))
        connection.execute(f"INSERT INTO main.{table} ({shared}) SELECT {shared} FROM former.{table}")
    # The recordings of these databases have neither pictures nor sounds, so of a container the pattern alone is known.
    connection.execute("UPDATE recordings SET container = pattern")
    connection.execute("INSERT INTO texts (recording, what, text) SELECT id, 'container', pattern FROM recordings WHERE pattern IS NOT NULL")
    connection.commit()


# What is asked of all in a database, to be compared with what another one answers.
ANSWERED = (
    *(["list", *option, *form] for option in ((), ("--missing",), ("--damaged",), ("--disputed",), ("--changed",), ("--unverified-since", "1"))
      for form in ((), ("--csv",), ("--json",))),
    *(["find", *words] for words in (("cup",), ("FINAL", "cup"), ("kase",), ("tape 00001",), ("recorder",), ("00:00:59;29",),
                                     ("10:04:10:00",), ("000000000000000a",), ("0000000000000007", "--json"), ("tape", "--csv"))),
    ["orders"], ["orders", "--by", "offset", "--json"],
)  # fmt: skip


def print_answers(database, document):
    """Prints what mxf_archive answers, and what the tables answer to the questions of the document."""
    shown = [["show", row["name"], "--json"] for row in opened(database).execute("SELECT name FROM recordings ORDER BY name")]
    for words in (*ANSWERED, *shown):
        print(*words, flush=True)
        subprocess.run([ARCHIVE, words[0], database, *words[1:]], check=False)
    for question in questions_of(document):
        print(question)
        for row in opened(database).execute(question):
            print(*row, sep="|")


def questions_of(document):
    """The questions of the document that sqlite3 is asked."""
    told = re.findall(r'^\$ sqlite3 \S+ "(SELECT .*)"$', pathlib.Path(document).read_text(encoding="utf-8"), re.MULTILINE)
    assert len(told) == 10, told
    return told


def print_rows(database, name):
    """Prints what the tables have of a recording, but for numbers of rows and times, with the number of its states left
    out: so that one added once and one added again are the same."""
    check_whole(database)
    connection = opened(database)
    (identity,) = connection.execute("SELECT id FROM recordings WHERE name = ?", (name,)).fetchone()
    tables = [row[0] for row in connection.execute("SELECT name FROM sqlite_master WHERE type = 'table' ORDER BY name")]
    for table in tables:
        columns = [row[1] for row in connection.execute(f"PRAGMA table_info({table})")]
        if table == "states" or "recording" not in columns:
            continue
        kept = [column for column in columns if column not in ("id", "recording", *TABLES_WITH_TIMES.get(table, ()))]
        names = ", ".join(f'"{column}"' for column in kept)
        for row in connection.execute(f"SELECT {names} FROM {table} WHERE recording = ? ORDER BY {names}", (identity,)):
            print(table, *row, sep="|")


def archive():
    """The program mxf_archive, as a module."""
    sys.dont_write_bytecode = True
    loader = importlib.machinery.SourceFileLoader("mxf_archive", str(ARCHIVE))
    module = importlib.util.module_from_spec(importlib.util.spec_from_loader("mxf_archive", loader))
    loader.exec_module(module)
    return module


def run_traced(words, trace):
    """Runs mxf_archive by these words, and answers its status. Each statement is handed to the function ahead of it."""
    module = archive()
    library = importlib.import_module("mxf.archive.database").sqlite3
    connect = library.connect

    def traced(*arguments, **options):
        """A connection whose statements are traced."""
        connection = connect(*arguments, **options)
        connection.set_trace_callback(trace)
        return connection

    library.connect = traced
    sys.argv = ["mxf_archive", *words]
    try:
        return module.main()
    finally:
        library.connect = connect


def statements_of(words):
    """The statements that mxf_archive runs by these words, with their values."""
    statements = []
    out = os.dup(1)
    with open(os.devnull, "w", encoding="utf-8") as nowhere:
        os.dup2(nowhere.fileno(), 1)
        run_traced(words, statements.append)
        sys.stdout.flush()
    os.dup2(out, 1)
    return statements


def run_killed(place, words):
    """Runs mxf_archive by these words, and kills it ahead of a statement."""
    count = 0

    def trace(_):
        nonlocal count
        count += 1
        if count == place:
            os.kill(os.getpid(), signal.SIGKILL)

    sys.exit(run_traced(words, trace))


# The questions of mxf_archive whose answer isn't all of a table.
ASKED = (
    ["list", "--missing"], ["list", "--damaged"], ["list", "--disputed"], ["list", "--changed"],
    ["list", "--unverified-since", "30"], ["orders"], ["find", "10:04:10:00"], ["find", "0123456789abcdef"],
    ["find", "monday"], ["find", "cup final"], ["find", "long gop"], ["show", "made 1"],
)  # fmt: skip
# The view of docs/ARCHIVE.md whose question is answered by all rows of a table.
OF_ALL_ROWS = "FROM restores"


def check_plans(database, document):
    """Prints the questions that go through a table row by row, of mxf_archive and of the document."""
    connection = opened(database)
    asked = [text for words in ASKED for text in statements_of([words[0], database, *words[1:]])]
    told = questions_of(document)
    # FTS5 asks its own tables by itself.
    left_out = (OF_ALL_ROWS, "FROM 'main'.'words_")
    questions = [text for text in (*asked, *told) if text.lstrip().startswith("SELECT") and not any(one in text for one in left_out)]
    if len(questions) < len(ASKED):
        print(f"{len(questions)} questions")
    for question in questions:
        details = [row["detail"] for row in connection.execute(f"EXPLAIN QUERY PLAN {question}")]
        made_up = {detail.split()[1] for detail in details if detail.startswith(("CO-ROUTINE ", "MATERIALIZE "))} | {"CONSTANT", "json_each"}
        for detail in details:
            # An index of words is looked up by a word, or by words from one up to another.
            is_looked_up = re.fullmatch(r"SCAN \w+ VIRTUAL TABLE INDEX (0:M\d+|[1-9]\d*:)", detail)
            if detail.startswith("SCAN ") and detail.split()[1] not in made_up and not is_looked_up:
                print(f"{detail}: {' '.join(question.split())}")


def made(number):
    """The lines of a recording that is made up: it lasts an hour from a timecode on, has two packages with four tracks each,
    eight partitions, and lacks bytes if its number is a multiple of ten."""
    lacks = number % 10 == 0
    uids = [f"060a2b340101010501010d00{kind:08x}{number:032x}" for kind in (1, 2)]
    first = f"{number % 24:02}:{number % 60:02}:00:00"
    last = f"{(number % 24 + 1) % 24:02}:{(number + 59) % 60:02}:59:24" if number % 60 else f"{number % 24:02}:59:59:24"
    yield {"line": "recording", "format": 1, "name": f"made {number}", "gathered": "2026-01-02T03:04:05Z",
           "program": "mxf_tool", "skim": False}  # fmt: skip
    yield {"line": "origin", "number": 0, "form": "cat", "offset": None, "path": f"/made/{number}.cat",
           "word": f"cat:/made/{number}.cat", "size": 1000, "modified": "2026-01-02T03:04:05Z", "sha256": "00" * 32}  # fmt: skip
    yield {"line": "asked", "command": "show"}
    yield {"line": "packets", "packets": 270000}
    for place in range(8):
        yield {"line": "partition", "offset": place * 10**10, "part": "body", "status": "closed-complete", "major": 1,
               "minor": 3, "kag": 512, "this": place * 10**10, "previous": 0, "footer": 8 * 10**10, "header-bytes": 0,
               "index-bytes": 0, "index-sid": 0, "body-offset": 0, "body-sid": 1, "pattern": "OP1a", "qualifier": "09",
               "link": "held"}  # fmt: skip
    for place in range(10):
        yield {"line": "item", "offset": place, "tag": "3c0a", "length": 16, "label": None, "value": f"{number:016x}{place + 1:016x}"}
    yield {"line": "identification", "uid": "x", "target": "found", "offset": 1}
    yield {"line": "product", "text": f"Recorder {number % 7}", "identification": "x"}
    yield {"line": "chain", "chain": "whole"}
    yield {"line": "asked", "command": "describe"}
    yield {"line": "described", "partition": 0, "state": "finished"}
    for kind, uid in zip(("material", "source"), uids):
        yield {"line": "package", "kind": kind, "uid": uid}
        yield {"line": "name", "text": f"Tape {number // 8:05} part {number % 8}", "of-package": uid}
        if kind == "source":
            yield {"line": "container", "body-sid": 1, "index-sid": 2, "of-package": uid}
        for track, holds in enumerate(("timecode", "picture", "sound", "sound"), 1):
            of = {"of-package": uid, "of-track": track}
            yield {"line": "track", "id": track, "kind": holds, "number": "00000000", "rate": "25/1", "origin": 0,
                   "duration": 90000, "length": "01:00:00.000", "of-package": uid}  # fmt: skip
            if holds == "timecode":
                yield {"line": "timecode", "start": 0, "duration": 90000, "at": first, "base": 25, **of}
            else:
                yield {"line": "clip", "start": 0, "duration": 90000, "package": uids[1], "track": track, "from": 0, **of}
    yield {"line": "clock", "index-sid": 2, "position": 0, "count": 90000, "first": first, "last": last, "base": 25,
           "by": "material"}  # fmt: skip
    yield {"line": "asked", "command": "check"}
    if lacks:
        yield {"line": "finding", "code": "F03", "offset": 10**9, "text": "bytes not held"}
    yield {"line": "asked", "command": "plan"}
    if lacks:
        yield {"line": "restore", "start": 10**9, "end": 10**9 + number, "length": number, "reason": "gap", "source": None,
               "inside": True, "again": False}  # fmt: skip
    yield {"line": "planned", "ranges": int(lacks), "bytes": number * lacks, "open": 0, "end": 8 * 10**10 + 1000}
    yield {"line": "asked", "command": "map"}
    missing = number * lacks
    yield {"line": "map", "held": 8 * 10**10 + 1000 - missing, "hand": 0, "missing": missing}
    yield {"line": "asked", "command": "units", "index-sid": 2}
    yield {"line": "units", "units": 90000, "held": 90000, "hand": 0, "from": 0}


def print_made(count):
    """Prints the lines of made-up recordings."""
    for number in range(1, count + 1):
        lines = list(made(number))
        for line in [*lines, {"line": "recorded", "name": f"made {number}", "lines": len(lines) + 1}]:
            print(json.dumps(line, separators=(",", ":")))


def main(words):
    """Runs what the words ask for."""
    if words[:1] == ["--whole"]:
        check_whole(words[1])
    elif words[:1] == ["--rows"]:
        print_rows(*words[1:])
    elif words[:1] == ["--plans"]:
        check_plans(*words[1:])
    elif words[:1] == ["--statements"]:
        print(len(statements_of(words[1:])))
    elif words[:1] == ["--killed"]:
        run_killed(int(words[1]), words[2:])
    elif words[:1] == ["--made"]:
        print_made(int(words[1]))
    elif words[:1] == ["--anew"]:
        make_anew(*words[1:])
    elif words[:1] == ["--answers"]:
        print_answers(*words[1:])
    else:
        compare(words[0], words[1], words[2], words[3:])


if __name__ == "__main__":
    main(sys.argv[1:])
