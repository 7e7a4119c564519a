#!/usr/bin/env python3
"""Reads a page of report/mxf_report and compares it with what the program prints.

    tests/report_page.py TOOL PAGE WORDS..    a page of one recording: WORDS are those that it was made by, of which --read
                                              and --skim say whether essence was read; the lines are those of a reading
    tests/report_page.py --form PAGE          the form of a page alone: its tags are balanced, it loads nothing, and runs no
                                              script but one whose SHA-256 its policy names
    tests/report_page.py --text PAGE          the text of a page that is seen, a word a line
    tests/report_page.py --rows PAGE [TABLE]  the rows of its first table, or of that of this caption, a line each
    tests/report_page.py --words              the words of the report are those of GUIDE, PAGES and FORMATS of docs/

Each difference is a line. Nothing is printed of a page that is right.
"""
import base64
import collections
import hashlib
import html.parser
import itertools
import json
import math
import pathlib
import re
import subprocess
import sys

import clocks
import essence_words

TOP = pathlib.Path(__file__).resolve().parent.parent
sys.dont_write_bytecode = True
sys.path.append(str(TOP / "report"))

from mxf.report import bounds, drawings, verdicts  # noqa: E402 (sys.path is set above)
from mxf.report import guide as words_of_pages  # noqa: E402

EMPTY = {"meta", "br", "hr", "img", "input", "link", "base", "source", "track", "wbr", "area", "col", "embed"}
LOADING = {
    "script", "iframe", "object", "embed", "link", "img", "base", "form", "audio", "video", "image", "use", "foreignobject",
}  # fmt: skip
ALLOWED_ADDRESS = re.compile(r"\./[^:]*")
UNSEEN = {"style", "script", "title", "head", "defs"}
INLINE = {"bdi", "code", "strong", "span", "tspan", "a"}
CUT = 200
NAMED = 8  # sources of a reading that are named
FEW = 4  # places of a finding that stand one by one


class Table:
    """A table of a page: its section, its caption, its heads and its rows."""

    def __init__(self, section):
        self.section = section
        self.caption = ""
        self.heads = []
        self.rows = []


class Page(html.parser.HTMLParser):
    """What a page has: its tables, the words seen, what is shown on hovering, and what is wrong with its form."""

    def __init__(self, text):
        super().__init__(convert_charrefs=True)
        self.open = []
        self.faults = []
        self.sections = []
        self.tables = []
        self.titles = collections.defaultdict(list)
        self.text = collections.defaultdict(str)
        self.seen = ""
        self.cell = None
        self.allowed = []
        self.script = ""
        self.feed(text)
        self.close()
        self.faults += [f"<{tag}> isn't closed" for tag in self.open]

    def handle_starttag(self, tag, attrs):
        """Takes a tag, and sees that it loads nothing."""
        for name, value in attrs:
            address = name in ("href", "src", "xlink:href", "action", "data") and not ALLOWED_ADDRESS.fullmatch(value or "")
            if address or name.startswith("on") or name == "style":
                self.faults.append(f"<{tag} {name}={value!r}>")
            if "url(" in (value or "") and not re.fullmatch(r"url\(#[\w-]+\)", value):
                self.faults.append(f"<{tag} {name}={value!r}>")
        if tag == "meta" and ("http-equiv", "Content-Security-Policy") in attrs:
            self.allowed = re.findall(r"'sha256-([^']+)'", dict(attrs)["content"])
        if tag in LOADING and not (tag == "script" and self.allowed and not attrs):
            self.faults.append(f"<{tag}>")
        if tag not in EMPTY:
            self.open.append(tag)
        self.seen += "" if tag in INLINE else " "
        if tag in ("h2", "h3", "section", "table", "tr", "td", "th"):
            self.begin(tag, dict(attrs))

    def begin(self, tag, attributes):
        """Begins a part."""
        if tag == "section":
            self.sections.append(attributes.get("id"))
        elif tag == "table":
            self.tables.append(Table(self.sections[-1]))
        elif tag == "tr" and "tbody" in self.open:
            self.tables[-1].rows.append([])  # a head of it is its first cell
        elif tag in ("td", "th"):
            self.cell = ""

    def handle_endtag(self, tag):
        """Takes the end of a tag, which has to be the one that is open."""
        if not self.open or self.open[-1] != tag:
            self.faults.append(f"</{tag}> ends {self.open[-1:]}")
            return
        self.open.pop()
        if tag == "script" and base64.b64encode(hashlib.sha256(self.script.encode()).digest()).decode() not in self.allowed:
            self.faults.append("<script> isn't the one that the policy names")
        self.seen += "" if tag in INLINE else " "
        if tag == "td" or tag == "th" and "tbody" in self.open:
            self.tables[-1].rows[-1].append(self.cell)
        elif tag == "th":
            self.tables[-1].heads.append(self.cell)
        elif tag == "section":
            self.sections.append("top")

    def handle_data(self, data):
        """Takes a text."""
        section = self.sections[-1] if self.sections else "top"
        self.script += data if self.open[-1:] == ["script"] else ""
        if "svg" in self.open and self.open[-1] == "title":
            self.titles[section].append(data)
        elif not UNSEEN.intersection(self.open):
            is_folded = "details" in self.open and "summary" not in self.open
            self.seen += "" if is_folded else data
            self.text[section] += data
        if {"td", "th"}.intersection(self.open) and "title" not in self.open:
            self.cell += data
        elif "caption" in self.open:
            self.tables[-1].caption += data

    def table(self, caption, section=None):
        """The rows of the table of this caption; none if it isn't there."""
        found = [table for table in self.tables if table.caption == caption and section in (None, table.section)]
        return found[0].rows if found else []

    def all_rows(self, caption):
        """The rows of all tables of this caption, one after another."""
        return [row for table in self.tables if table.caption == caption for row in table.rows]


def page_of(path):
    """The page of a file."""
    return Page(pathlib.Path(path).read_bytes().decode("utf-8"))


class Told:
    """What the program prints of the sources."""

    def __init__(self, tool, words):
        self.tool = tool
        self.words = words

    def lines(self, command, *options, name=None):
        """The lines of a command, or those of one name."""
        words = [self.tool, command, *options, "--json", *self.words]
        run = subprocess.run(words, stdout=subprocess.PIPE, stderr=subprocess.DEVNULL, check=False)
        lines = [json.loads(text) for text in run.stdout.decode("utf-8").splitlines()]
        return [line for line in lines if name in (None, line["line"])]


def cells(line, *names):
    """The cells of a line: what isn't there is a hyphen."""
    return ["-" if line.get(name) is None else str(line[name]) for name in names]


def differences_of_rows(page, caption, want, section=None):
    """How the rows of a table differ from those that are wanted, of which a page has the first."""
    rows = page.table(caption, section)
    for number, (row, wanted) in enumerate(itertools.zip_longest(rows, want[:CUT])):
        if row != wanted:
            yield f"{caption}: row {number} is {row}, not {wanted}"
            return
    left = len(want) - CUT
    if left > 0 and f"{left} more: mxf_tool " not in page.text[section]:
        yield f"{caption}: it doesn't say that {left} rows are left out"


def differences_of_bar(page, told):
    """How the bar differs from the map: its runs, one after another, have its characters."""
    head, *rows = told.lines("map", "--columns", "1000", "--rows", "1")
    marks = "".join(row["cells"] for row in rows)
    words = {said: mark for mark, (_, said) in words_of_pages.MARKS.items()}
    bar, place = "", 0
    for title in page.titles["recording"]:
        begin, last, said = re.fullmatch(r"Bytes (\d+) to (\d+): ([^(]*?)(?: \(.*\))?", title).groups()
        count = -(-(int(last) + 1 - place) // head["cell"])
        if int(begin) != place:
            yield f"the bar goes on at {begin}, not at {place}"
        bar, place = bar + words[said] * count, int(last) + 1
    if bar != marks or place != head["end"]:
        yield f"the bar is {bar} up to {place}, not {marks} up to {head['end']}"
    there = head["hand"] or told.lines("show", name="note")
    held = f"{head['held']} of {head['end']} byte" if there else "no packet of a recording"
    if held not in page.text["top"]:
        yield f"the verdict doesn't say: {held}"


def differences_of_stretches(page, told):
    """How the table of what lies where differs: its rows follow one another up to the end of the map and stand otherwise
    than the ones before; the gaps of `show` aren't held, and as many bytes are held, and at hand, as of the map."""
    rows = page.table("What lies where")
    numbers = told.lines("map")[0]
    gaps = [(gap["start"], gap["end"]) for gap in told.lines("show", name="gap")]
    for row, after in zip(rows, [*rows[1:], None]):
        if after and (row[1] != after[0] or row[3] == after[3]) or int(row[2]) != int(row[1]) - int(row[0]) or row[2] == "0":
            yield f"after what lies where {row} stands {after}"
    is_held = lambda row: row[3].startswith("held")
    last = int(rows[-1][1])
    for start, end in gaps:
        if any(is_held(row) and int(row[0]) < end and start < int(row[1]) for row in rows):
            yield f"some of the gap from {start} to {end} is held"
    if len(rows) == CUT:
        return
    held = sum(int(row[2]) for row in rows if is_held(row))
    hand = sum(int(row[2]) for row in rows if row[3] == "at hand")
    if (held, hand, last) != (numbers["held"], numbers["hand"], numbers["end"]):
        yield f"what lies where has {held} bytes that are held and {hand} at hand up to {last}, not those of {numbers}"


def differences_of_recording(page, told):
    """How the table of what lies where, and of partitions, differ."""
    yield from differences_of_stretches(page, told)
    fields = "offset part status previous link footer header-bytes index-bytes body-sid index-sid pattern"
    partitions = [cells(line, *fields.split()) for line in told.lines("show", name="partition")]
    yield from differences_of_rows(page, "What their packs state", partitions, "partitions")
    entries = [cells(line, "offset", "body-sid", "standing") for line in told.lines("show", name="rip-entry")]
    yield from differences_of_rows(page, "What the random index pack lists", entries, "partitions")
    drawn = [title for title in page.titles["partitions"] if re.match(r"[HBF] at ", title)]
    if len(drawn) != min(len(partitions), bounds.NODES):
        yield f"{len(drawn)} partitions are drawn, of {len(partitions)}"


def differences_of_metadata(page, told):
    """How the table of who wrote the file differs: the references, and the identifiers and numbers below each."""
    want, details = [], []
    for line in told.lines("show"):
        if line["line"] in ("identification", "package"):
            want.append(cells(line, "line", "uid", "target", "offset"))
        elif "identification" in line or "package" in line:
            told_by = {"uid", "kind", "tracks"}.intersection(line)
            details += [(len(want) - 1, f"{line['line']} {line[name]}") for name in told_by]
    rows = page.table("Who wrote the file, and its packages", "metadata")
    if [row[:4] for row in rows] != want[:CUT]:
        yield f"the references are {rows}, not {want}"
        return
    for number, detail in details:
        if number < CUT and detail not in rows[number][4]:
            yield f"of the reference {number} it isn't told: {detail}"


def differences_of_description(page, told):
    """How what the recording is differs: the identifier, length and timecode are those of the material package, and the
    container, each picture and sound, and who wrote the file are told."""
    lines = told.lines("describe")
    rows = page.table("What it is", "description")
    values = collections.defaultdict(list)
    for name, value in rows:
        values[name].append(value)
    materials = [line for line in lines if line["line"] == "package" and line.get("kind") == "material"]
    if not [line for line in lines if line["line"] == "package" and "uid" in line]:
        if rows or "What the recording is isn't known" not in page.text["description"]:
            yield "it doesn't say that nothing says what the recording is"
        return
    if materials:
        main = materials[0]["uid"]
        of_main = [line for line in lines if line.get("of-package") == main]
        kinds = {line["kind"]: line for line in reversed(of_main) if line["line"] == "track" and "id" in line}
        track = next((kinds[kind] for kind in ("picture", "sound", "data") if kind in kinds), None)
        if track and not values["Length"][0].startswith(track["length"] or ""):
            yield f"the length is {values['Length']}, not that of {track}"
        times = [line["at"] for line in of_main if line["line"] == "timecode"]
        if values["Start timecode"] != [times[0] or "not stated" if times else "not stated"] or values["UMID"] != [main]:
            yield f"the recording is {values}, of {main} that starts at {times}"
    for kind in ("picture", "sound"):
        counts = essence_words.told(kind, lines)
        want = [text + (f" ({count} times)" if count > 1 else "") for text, count in counts.items()]
        left = len(want) - bounds.NAMES
        want = want[: bounds.NAMES] + ([f"{left} others, of which mxf_tool describe tells"] if left > 0 else [])
        if values[kind.capitalize()] != want:
            yield f"the {kind}s are {values[kind.capitalize()]}, not {want}"
    show = told.lines("show")
    for name, text in (("Container", essence_words.container(lines, show)), ("Written by", essence_words.writer(show))):
        if values[name] != ([text] if text else []):
            yield f"{name} is {values[name]}, not {text}"


def differences_of_findings(page, told):
    """How the findings differ: where damaged pieces stop; of each code how often it is found, where, and what to do."""
    names = names_of(told)
    stops = [cells(line, "source", "at", "stop") for line in told.lines("check", name="stop")]
    damaged = [[f"{stop[0]} {names[stop[0]]}", *stop[1:]] for stop in stops if stop[2] in ("not-ul", "bad-length", "too-far")]
    told_rows = [row[:3] for row in page.table("Pieces that weren't read to their end", "findings")]
    if told_rows != damaged[:CUT]:
        yield f"the damaged pieces are {told_rows}, not {damaged}"
    advice = {code: re.sub(r"\[([^\]]*)\]\([^)]*\)", r"\1", cell).replace("`", "") for code, (_, cell) in guide().items()}
    found = collections.defaultdict(list)
    for line in told.lines("check", name="finding"):
        found[line["code"], line["text"]].append(str(line["offset"]))
    want = []
    for (code, text), offsets in sorted(found.items()):
        places = numbers_text(offsets, CUT, "check")
        ends = f"{offsets[0]} to {offsets[-1]}" if len(offsets) > FEW else ""
        want.append([code, text, str(len(offsets)), ends + places, advice[code]])
    yield from differences_of_rows(page, "By code", want, "findings")
    yield from differences_of_doubts(page, told)


def differences_of_doubts(page, told):
    """How the doubts differ: of each code how often it is in doubt, where, and what it may be. Above a doubt nothing is said to
    be whole."""
    lines = told.lines("check", "--doubts", name="doubt")
    found = collections.defaultdict(list)
    for line in lines:
        found[line["code"], line["text"]].append(str(line["offset"]))
    meanings = {code: meaning.replace("`", "") for code, (_, meaning) in guide_doubts().items()}
    want = []
    for (code, text), offsets in sorted(found.items()):
        places = numbers_text(offsets, CUT, "check --doubts")
        ends = f"{offsets[0]} to {offsets[-1]}" if len(offsets) > FEW else ""
        want.append([code, text, str(len(offsets)), ends + places, meanings[code]])
    yield from differences_of_rows(page, "Doubts by code", want, "findings")
    if found and (f"{len(found)} thing" not in page.text["top"] or "in doubt" not in page.text["top"]):
        yield f"the sentence doesn't say that {len(found)} things are in doubt"
    if found and re.search(r"Whole:|othing (else )?is found", page.text["top"] + page.text["findings"]):
        yield "it is said to be whole above a doubt"


def numbers_text(numbers, most, command):
    """Numbers as a cell has them: the first, and how many more there are."""
    left = len(numbers) - most
    more = f" and {left} more: mxf_tool {command} has them all" if left > 0 else ""
    return ", ".join(map(str, numbers[:most])) + more


def plans_of(told, span):
    """The orders of the whole recording, and those of the edit units that are named, by the captions of their tables."""
    indexes = [["--index", str(index)] for index in indexes_of(told, span)] or [[]]
    named = [line for index in indexes if span for line in told.lines("plan", *index, *span, name="restore")]
    return {"Orders": told.lines("plan", name="restore"), "Orders for these edit units": named}


def order_cells(line):
    """The cells of an order, but for what is said of its bytes."""
    length = None if line["end"] is None else line["end"] - line["start"]
    form = f"{'range' if line['inside'] else 'at'}:{line['start']}:FILE"
    return [*cells({**line, "length": length}, "start", "end", "length"), *cells(line, "source"), form]


def differences_of_sources(page, lines, is_skimmed):
    """How the sources differ. A page for which essence wasn't read has their words alone, and says what has the rest."""
    caption, other = ("Which they are", "What each has") if is_skimmed else ("What each has", "Which they are")
    names = ("source", "word") if is_skimmed else ("source", "word", "notes", "alone", "disputed")
    sources = [cells(line, *names) for line in lines if line["line"] == "source"]
    yield from differences_of_rows(page, caption, sources, "sources")
    yield from differences_of_rows(page, other, [], "sources")
    for section in ("sources", "disputes"):
        if ("mxf_report --read tells" in page.text[section]) != is_skimmed:
            yield f"{section}: it {'is not' if is_skimmed else 'is'} told what a reading tells"


def differences_of_orders(page, told, span, is_skimmed):
    """How the orders and the disputes differ."""
    for caption, orders in plans_of(told, span).items():
        kept = [[*row[:3], *row[4:]] for row in page.all_rows(caption)]
        want = [order_cells(line) for line in orders]
        if kept != want[:CUT]:
            yield f"{caption} are {kept}, not {want}"
    readings = []
    names = names_of(told)
    lines = told.lines("sources")
    for line in lines:
        if line["line"] == "disputed":
            head = line["head"] and not is_skimmed
            named = {**line, "kind": line["kind"] + ", head" * head, "sources": sources_text(line["sources"], names)}
            readings.append(cells(named, "offset", "kind", "length", "key", *(() if is_skimmed else ("digest", "sources"))))
    yield from differences_of_rows(page, "Readings", readings, "disputes")
    yield from differences_of_sources(page, lines, is_skimmed)


def names_of(told):
    """The name of each source that a page has: that of its file, or its word if another file has that name too."""
    words = {str(line["source"]): line["word"] for line in told.lines("sources", name="source")[:CUT]}
    files = {number: word.split(":", 1 + (not word.startswith("cat:")))[-1].rsplit("/", 1)[-1] for number, word in words.items()}
    counts = collections.Counter(files.values())
    return {number: file if counts[file] == 1 else words[number] for number, file in files.items()}


def sources_text(numbers, names):
    """Sources as a cell has them: each with its name, or if they are many the numbers of the first."""
    if len(numbers) > NAMED or not all(str(number) in names for number in numbers):
        return numbers_text(numbers, 50, "sources")
    return ", ".join(f"{number} {names[str(number)]}" for number in numbers)


def shown_ends(units, clock):
    """The timecodes of the unit that is shown first and of the one that is shown last, by the run of a clock; none if
    no unit shows one."""
    timecodes = [unit["at"] for unit in units if unit.get("at")]

    def place(timecode):
        """How many timecodes of the run come before one, which are less than a day has."""
        before = clocks.number_of(timecode, clock["base"]) - clocks.number_of(clock["first"], clock["base"])
        return before % clocks.day_of(clock["base"], ";" in clock["first"])

    return [min(timecodes, key=place), max(timecodes, key=place)] if timecodes else []


def runs_of(units, clock):
    """The runs of units that stand by one word: of each the first unit, the last, the word, the bytes, and if there is
    a clock the timecodes."""
    for _, run in itertools.groupby(units, lambda unit: unit["standing"]):
        run = list(run)
        begin, end = cells(run[0], "unit", "standing", "start"), cells(run[-1], "unit", "end")
        timecodes = (shown_ends(run, clock) or ["-", "-"]) if shown_ends(units, clock) else []
        yield [begin[0], end[0], *begin[1:], end[1], *timecodes]


def indexes_of(told, span):
    """The indexes whose units are shown: those that are held, or for timecodes the one that has a clock."""
    if any(":" in word for word in span):
        return sorted({line["index-sid"] for line in told.lines("describe", name="clock")})
    return sorted({line["index-sid"] for line in told.lines("show", name="segment")})


def span_of(told, index):
    """The words that name the last unit of an index that doesn't say it, by the duration of a track; none if it does."""
    if told.lines("units", "--index", str(index)):
        return []
    described = told.lines("describe")
    packages = [line["of-package"] for line in described if line["line"] == "container" and line["index-sid"] == index]
    tracks = [line for line in described if line["line"] == "track" and line.get("of-package") in packages]
    durations = [line["origin"] + line["duration"] for line in tracks if line["kind"] in ("picture", "sound") and line["duration"]]
    return ["--to", str(durations[0] - 1)] if durations else []


def differences_of_units(page, told, span, against):
    """How edit units differ: the runs of tables, the sums of a strip, and what orders say of units."""
    indexes = indexes_of(told, span)
    for index in indexes:
        runs = [line for line in told.lines("describe", name="clock") if line["index-sid"] == index]
        clock, timed = (runs[0], ["--timecode"]) if runs else (None, [])
        units = told.lines("units", "--index", str(index), *(span or span_of(told, index)), *timed, name="unit")
        if len(indexes) == 1 and units:
            yield from differences_of_runs(page, "units", True, list(runs_of(units, clock)))
            for caption, orders in plans_of(told, span).items():
                yield from differences_of_remarks(page.all_rows(caption), orders, units, clock)
            named = ["--index", str(index), "--from", str(units[0]["unit"]), "--to", str(units[-1]["unit"]), *timed]
            beside = told.lines("verify", *against, *named, name="units") if against else []
            names = ["first", "last", "standing"]
            names += ["first-at", "last-at"] if any(line.get("first-at") for line in beside) else []
            want = [cells(line, *names) for line in beside]
            yield from differences_of_runs(page, "units beside the reference", False, want)
        for word, count in collections.Counter(unit["standing"] for unit in units).items():
            if f"{count} {word}" not in page.text["units"]:
                yield f"it isn't told that {count} units are {word}"
    drawn = [re.match(r"Units (\d+) to (\d+): (.*)", title).groups() for title in page.titles["units"]]
    for first, last, counts in drawn:
        numbers = [int(number.replace(",", "")) for number in re.findall(r"([\d,]+) [a-z]", counts)]
        if sum(numbers) != int(last) - int(first) + 1:
            yield f"of the units {first} to {last} {counts} are told"


def differences_of_runs(page, what, has_bytes, want):
    """How the runs of units differ from those that are wanted, in the first table of runs with bytes or without."""
    tables = [table for table in page.tables if table.caption == "Runs of units"]
    rows = next((table.rows for table in tables if ("First begins at" in table.heads) == has_bytes), [])
    if rows != want[:CUT]:
        yield f"the runs of {what} are {rows}, not {want}"


def differences_of_remarks(rows, orders, units, clock):
    """How the timecodes that an order is said to be of differ from those of the units that have bytes in it."""
    for row, order in zip(rows, orders):
        end = math.inf if order["end"] is None else order["end"]
        placed = [unit for unit in units if unit["start"] is not None and unit["start"] < end]
        within = [unit for unit in placed if order["start"] < (unit["end"] or unit["start"] + 1)]
        want = " to ".join(dict.fromkeys(shown_ends(within, clock)))
        told_of = row[3].partition("; edit units at ")[2]
        if told_of != want:
            yield f"the order from {order['start']} on is said to be of units at {told_of}, not {want}"


def packet_cells(line):
    """The cells of a packet: where it begins, where it ends, its bytes, its kind and its key."""
    size = 16 + line["width"] + line["length"]
    return cells({**line, "end": line["offset"] + size, "size": size}, "offset", "end", "size", "kind", "key")


def differences_of_reference(page, told, against):
    """How what is reported beside a reference differs."""
    if not against:
        return
    lines = told.lines("verify", *against)
    last = lines[-1]
    for number in (f"{last['packets']} of {last['all-packets']} packet", f"{last['bytes']} of {last['all-bytes']} byte"):
        if number not in page.text["reference"]:
            yield f"it isn't told that {number}s are verified"
    names = names_of(told)
    differs = [packet_cells(line) + [sources_text([line["source"]], names)] for line in lines if line["line"] == "differs"]
    yield from differences_of_rows(page, "Packets that differ", differs, "reference")
    cut = [packet_cells(line) for line in lines if line["line"] == "cut"]
    yield from differences_of_rows(page, "Packets that are cut in each source", cut, "reference")
    ranges = [line for line in lines if line["line"] == "unverified"]
    unverified = [[*cells(line, "start", "end"), str(line["end"] - line["start"])] for line in ranges]
    yield from differences_of_rows(page, "Bytes of the reference that weren't verified", unverified, "reference")


def differences_of_skim(page, is_skimmed, against):
    """How what is said of essence that wasn't read differs."""
    said = "Essence was read to compare it with the reference, and for nothing else. " if against else "Essence wasn't read: "
    if (said in page.text["top"]) != is_skimmed:
        yield f"it {'is not' if is_skimmed else 'is'} told: {said}"


def taken_from(words, names):
    """The options of these names with their values, and the other words."""
    taken, others = [], []
    words = iter(words)
    for word in words:
        if word in names:
            taken += [word, next(words)]
        else:
            others.append(word)
    return taken, others


def differences_of_page(tool, path, words):
    """How the page of a recording differs from what the program prints."""
    page = page_of(path)
    yield from page.faults
    reading = [word for word in words if word in ("--read", "--skim")]
    against, words = taken_from([word for word in words if word not in reading], ("--against",))
    span, words = taken_from(words, ("--from", "--to"))
    told = Told(tool, words)
    # A reference is read, and catalogues have no essence that is read.
    is_skimmed = reading == ["--skim"] or not (reading or against)
    is_skimmed &= any(not line["word"].startswith("cat:") for line in told.lines("sources", name="source"))
    yield from differences_of_description(page, told)
    yield from differences_of_bar(page, told)
    yield from differences_of_recording(page, told)
    yield from differences_of_findings(page, told)
    yield from differences_of_orders(page, told, span, is_skimmed)
    yield from differences_of_skim(page, is_skimmed, against)
    yield from differences_of_units(page, told, span, against)
    yield from differences_of_reference(page, told, against)
    yield from differences_of_metadata(page, told)
    if pathlib.Path(path).stat().st_size > 2_000_000:
        yield "the page has more than 2,000,000 bytes"


def guide():
    """The findings of docs/GUIDE.md: the text of each, and what to do."""
    text = (TOP / "docs" / "GUIDE.md").read_text(encoding="utf-8")
    rows = re.findall(r"^\| (F\d\d) \| (.*?) \| .*? \| (.*) \|$", text, re.MULTILINE)
    return {code: (name, advice) for code, name, advice in rows}


def guide_doubts():
    """The doubts of docs/GUIDE.md: the text of each, and what it may be."""
    text = (TOP / "docs" / "GUIDE.md").read_text(encoding="utf-8")
    rows = re.findall(r"^\| (G\d\d) \| (.*?) \| (.*) \|$", text, re.MULTILINE)
    return {code: (name, meaning) for code, name, meaning in rows}


def guide_verdicts():
    """The words of a verdict that docs/PAGES.md has, in their order."""
    text = (TOP / "docs" / "PAGES.md").read_text(encoding="utf-8")
    table = text.split("\n| Word | What it says |\n", 1)[1].split("\n\n", 1)[0]
    return [row.split(" | ")[0].lstrip("| ") for row in table.splitlines()[1:]]


def first_words(heading, text):
    """The first cells of the table that stands below a heading line of docs/FORMATS.md."""
    table = text.split(f"\n| {heading} |", 1)[1].split("\n\n", 1)[0]
    for row in table.splitlines()[2:]:
        yield from re.findall(r"`([^`]+)`", row.split(" | ")[0])


def differences_of_words():
    """How the words of the report differ from those of the documents."""
    pages = words_of_pages
    fills = {fill for fill, *_ in (*pages.MARKS.values(), *pages.STANDINGS.values())}
    text = (TOP / "docs" / "FORMATS.md").read_text(encoding="utf-8")
    stops = [stop.split(" ")[0] for stop in first_words("STOP", text)]
    standings = {*first_words("STANDING, the first that fits", text), *first_words("WORD, the first that fits", text)}
    pairs = (
        ("findings", pages.FINDINGS, guide()),
        ("doubts", pages.DOUBTS, guide_doubts()),
        ("words of a verdict", [verdict.words for verdict in verdicts.OF_RECORDING], guide_verdicts()),
        ("characters of a map", set(pages.MARKS), set(first_words("Character", text))),
        ("reasons", set(pages.REASONS), set(first_words("REASON", text))),
        ("stops", set(pages.STOPS), set(stops)),
        ("standings", set(pages.STANDINGS), standings),
        ("kinds of fill", fills - set(drawings.FILLS), set()),
    )
    for name, have, want in pairs:
        if have != want:
            yield f"the {name} of the report are {have}, not {want}"


def main():
    """Prints the differences."""
    if sys.argv[1] == "--words":
        lines = differences_of_words()
    elif sys.argv[1] == "--form":
        lines = page_of(sys.argv[2]).faults
    elif sys.argv[1] == "--rows":
        page = page_of(sys.argv[2])
        rows = page.table(sys.argv[3]) if sys.argv[3:] else page.tables[0].rows
        lines = ("|".join(cell.strip() for cell in row) for row in rows)
    elif sys.argv[1] == "--text":
        lines = page_of(sys.argv[2]).seen.split()
    else:
        lines = differences_of_page(sys.argv[1], sys.argv[2], sys.argv[3:])
    for line in lines:
        print(line)


if __name__ == "__main__":
    main()
