"""What the lines of a recording say, as rows of the tables of the database."""
from __future__ import annotations

import collections
import hashlib
import json
from collections.abc import Iterable, Iterator, Mapping
from typing import Any, NamedTuple

from mxf import moments
from mxf.archive import essence, spans
from mxf.archive.gathering import FORMAT
from mxf.archive.origins import identifier_of
from mxf.described import Described
from mxf.faults import DATA, OwnFault

from mxf.lines import (
    AnyLine, ChainLine, ClipLine, ClockLine, ContainerLine, DescribedLine, DisputeLine, DoubtLine, EssenceLine,
    FindingLine, ItemLine, LabelLine, Line, MapCounts, NameLine, OrderLine, PackageLine, PackLine, PlannedLine,
    ReferenceLine, SampledPictureLine, SoundLine, StampLine, StopLine, TextLine, TimecodeLine, TrackLine, UidLine,
    UnitsLine,
)  # fmt: skip
from mxf.reading import LineFault, Takers, checked, take_line
from mxf.standing import is_damaged_at, is_doubt, is_lacking, is_unreadable
from mxf.written import Written

Row = dict[str, Any]  # the values of a row, by the names of its columns

GREATEST = 2**63 - 1  # of an INTEGER of SQLite

LARGE = ("partitions", "findings", "orders")  # the tables with numbers that may pass that

# What is kept of a source.
ORIGIN = ("number", "word", "form", "offset", "path", "size", "modified", "sha256")


def number_of(value: object) -> object:
    """A number as it is stored: as text if it passes what SQLite takes for one."""
    return str(value) if isinstance(value, int) and abs(value) > GREATEST else value


def columns_of(line: Mapping[str, Any], *names: str) -> Row:
    """Members of a line as columns, in whose names an underline stands for a hyphen."""
    return {name.replace("-", "_"): line[name] for name in names}


class Recording(NamedTuple):
    """A recording as the tables have it: its name, its state, what stands in the table of recordings, the rows of others by
    their names, and the texts by whose words it is found, each with what it is."""

    name: str
    state: Row
    facts: Row
    rows: dict[str, list[Row]]
    texts: list[tuple[str, str]]


class Making:
    """A recording that is made of its lines."""

    def __init__(self, line: Line) -> None:
        if line.get("line") != "recording" or line["format"] != FORMAT or not moments.TIME.fullmatch(line["gathered"]):
            raise LineFault("no first line of a recording")
        self.name: str = line["name"]
        self.state: Row = {"gathered": line["gathered"], "program": line["program"], "is_skim": int(line["skim"])}
        self.facts: Row = {"pattern": None, "metadata": None, "chain": None}
        self.rows: dict[str, list[Row]] = collections.defaultdict(list)
        self.described, self.written = Described(), Written()
        self.texts: dict[tuple[str, str], None] = {}
        self.identifiers: dict[tuple[str, bytes], None] = {}
        self.index_sid: int | None = None
        self.takers: dict[str, Takers] = {
            "show": self.takers_of_show(), "describe": self.takers_of_describe(),
            "check": {"stop": (StopLine, self.take_stop), "finding": (FindingLine, self.take_finding),
                      "doubt": (DoubtLine, self.take_finding)},
            "plan": {"restore": (OrderLine, self.take_order), "planned": (PlannedLine, self.take_planned)},
            "map": {"map": (MapCounts, self.take_map)},
            "units": {"units": (UnitsLine, self.take_units), "uncounted": (AnyLine, self.take_uncounted)},
        }  # fmt: skip
        self.asked: Takers = {}
        self.add_text("recording", self.name)

    def take(self, line: Line) -> None:
        """Takes a line. One that nothing is kept of is passed over."""
        if line["line"] == "asked":
            self.asked, self.index_sid = self.takers[line["command"]], line.get("index-sid")
        elif line["line"] == "origin":
            self.add("sources", **{name: line[name] for name in ORIGIN})
        else:
            take_line(line, self.asked)

    def add(self, table: str, **row: object) -> int:
        """Adds a row to a table, and answers its number there, from 1 on."""
        rows = self.rows[table]
        rows.append({name: number_of(value) for name, value in row.items()} if table in LARGE else row)
        return len(rows)

    def add_numbered(self, table: str, **row: object) -> int:
        """Adds a row that has its number."""
        return self.add(table, number=len(self.rows[table]) + 1, **row)

    def add_text(self, what: str, text: str | None) -> None:
        """Adds a text by whose words the recording is found. No text of mxf_tool has a zero, at which SQLite would end a
        line of a table."""
        if text and "\0" in text:
            raise LineFault("no text of mxf_tool")
        if text:
            self.texts[what, text] = None

    # What `show` says.

    def takers_of_show(self) -> Takers:
        """What takes its lines."""
        return {
            "packets": (AnyLine, lambda line: self.state.update(packets=line["packets"])),
            "note": (DisputeLine, self.take_dispute),
            "item": (ItemLine, self.take_item),
            "partition": (PackLine, self.take_partition),
            "container": (LabelLine, self.written.take_container),
            "chain": (ChainLine, lambda line: self.facts.update(chain=line["chain"])),
            "identification": (ReferenceLine, self.take_identification),
            "company": (TextLine, lambda line: self.add_to_program(line, "company", line["text"])),
            "product": (TextLine, lambda line: self.add_to_program(line, "product", line["text"])),
            "version": (TextLine, lambda line: self.add_to_program(line, "version", line["text"])),
            "product-uid": (UidLine, lambda line: self.add_to_program(line, "product_uid", line["uid"])),
            "generation": (UidLine, lambda line: self.add_to_program(line, "generation", line["uid"])),
            "modified": (StampLine, lambda line: self.add_to_program(line, "modified", moments.text_of_stamp(line))),
        }

    def take_dispute(self, line: DisputeLine) -> None:
        """A packet in dispute."""
        row = columns_of(line, "offset", "end", "kind", "width", "length", "key")
        self.add_numbered("disputes", is_head=int(line["head"]), **row)

    def take_item(self, line: ItemLine) -> None:
        """An identifier of a set."""
        identifier = identifier_of(line)
        if identifier:
            self.identifiers[identifier] = None

    def take_partition(self, line: PackLine) -> None:
        """A partition. The operational pattern of the last one stands for the recording."""
        row = columns_of(line, "offset", "part", "status", "kag", "this", "previous", "footer", "link",
                         "header-bytes", "index-bytes", "index-sid", "body-offset", "body-sid")  # fmt: skip
        pattern = " ".join([line["pattern"], *([line["qualifier"]] if "qualifier" in line else [])])
        self.add("partitions", version=f"{line['major']}.{line['minor']}", pattern=pattern, **row)
        self.facts["pattern"] = line["pattern"]
        self.written.take_partition(line)

    def take_identification(self, line: ReferenceLine) -> None:
        """A program that wrote the file, if the set is found."""
        names = ("company", "product", "version", "product_uid", "generation", "modified")
        if line["target"] == "found":
            self.add_numbered("programs", **dict.fromkeys(names))

    def add_to_program(self, line: Mapping[str, Any], name: str, value: str | None) -> None:
        """Adds what is said of the last program. Recordings are found by whose it is, and by its name."""
        if "identification" in line and self.rows["programs"]:
            self.rows["programs"][-1][name] = value
        if name in ("company", "product"):
            self.add_text(name, value)

    # What `describe` says. Lines of a package follow its line.

    def takers_of_describe(self) -> Takers:
        """What takes its lines."""
        return {
            "described": (DescribedLine, lambda line: self.facts.update(metadata=line.get("state"))),
            "package": (AnyLine, self.take_package),
            "name": (NameLine, self.take_name),
            "created": (StampLine, lambda line: self.add_to_package(created=moments.text_of_stamp(line))),
            "container": (ContainerLine, self.take_container),
            "track": (AnyLine, self.take_track),
            "track-name": (TextLine, self.take_track_name),
            "clip": (ClipLine, self.take_clip),
            "timecode": (TimecodeLine, self.take_timecode),
            "essence": (EssenceLine, self.described.take_essence),
            "picture": (SampledPictureLine, self.take_picture),
            "sound": (SoundLine, self.take_sound),
            "clock": (ClockLine, self.take_clock),
        }

    def take_package(self, line: Line) -> None:
        """A package that is found."""
        self.described.take_package(line)
        if "uid" in line:
            found = checked(line, PackageLine)
            row = dict.fromkeys(("name", "created", "body_sid", "index_sid"))
            self.add_numbered("packages", kind=found["kind"], uid=found["uid"], **row)

    def package(self) -> int:
        """The number of the package that lines are of."""
        self.described.last()
        return len(self.rows["packages"])

    def add_to_package(self, **row: object) -> None:
        """Adds what is said of the last package."""
        self.rows["packages"][self.package() - 1].update(row)

    def take_name(self, line: NameLine) -> None:
        """Its name."""
        self.described.take_name(line)
        self.add_to_package(name=line["text"])
        self.add_text("package", line["text"])

    def take_container(self, line: ContainerLine) -> None:
        """The streams of its essence and its index."""
        self.described.take_container(line)
        self.add_to_package(**columns_of(line, "body-sid", "index-sid"))

    def take_track(self, line: Line) -> None:
        """A track that is found."""
        self.described.take_track(line)
        if "id" in line:
            found = checked(line, TrackLine)
            row = columns_of(found, "kind", "rate", "origin", "duration", "length")
            named = {"track": found["id"], "essence": found["number"], "name": None}
            self.add_numbered("tracks", package=self.package(), **named, **row)

    def track(self) -> Row:
        """The track that lines are of."""
        if not self.rows["tracks"]:
            raise LineFault("a line of no track")
        return self.rows["tracks"][-1]

    def take_track_name(self, line: TextLine) -> None:
        """The name of the last track."""
        self.track()["name"] = line["text"]
        self.add_text("track", line["text"])

    def take_clip(self, line: ClipLine) -> None:
        """A source clip."""
        row = {"of_uid": line["package"], "of_track": line["track"], "of_position": line["from"]}
        self.add_component("clips", track=line["of-track"], **columns_of(line, "start", "duration"), **row)

    def take_timecode(self, line: TimecodeLine) -> None:
        """A timecode component."""
        self.described.take_timecode(line)
        row = columns_of(line, "start", "duration", "at", "base")
        number = self.add_component("timecodes", track=line["of-track"], **row)
        span = spans.span_of_component(line, spans.rate_of(self.track()["rate"]))
        self.add_hours(span, clock=None, timecode=number)

    def add_component(self, table: str, **row: object) -> int:
        """Adds what a package has of which there may be several."""
        return self.add_numbered(table, package=self.package(), **row)

    def add_hours(self, span: spans.Span | None, **of: object) -> None:
        """Adds the hours of the day of which a clock or a timecode component has a part."""
        for hour in span.hours() if span else ():
            self.add_numbered("hours", **of, **hour)

    def take_picture(self, line: SampledPictureLine) -> None:
        """What a descriptor says of a picture."""
        self.described.take_picture(line)
        self.add_component("pictures", **self.of_essence(), **columns_of(line, *essence.PICTURE))

    def take_sound(self, line: SoundLine) -> None:
        """What a descriptor says of a sound."""
        self.described.take_sound(line)
        self.add_component("sounds", **{**self.of_essence(), **columns_of(line, *essence.SOUND)})

    def of_essence(self) -> Row:
        """What the descriptor says of any essence."""
        return columns_of(self.described.essence, "track", "rate", "container")

    def take_clock(self, line: ClockLine) -> None:
        """A run of the clock of an index."""
        row = columns_of(line, "index-sid", "position", "count", "first", "last", "base")
        number = self.add_numbered("clocks", told_by=line["by"], **row)
        track = self.described.track_of_index(line["index-sid"])
        span = spans.span_of_clock(line, spans.rate_of(track["rate"]) if track else None)
        self.add_hours(span, clock=number, timecode=None)

    # What the other commands say.

    def take_stop(self, line: StopLine) -> None:
        """How a source ends, if it is damaged."""
        if is_damaged_at(line["stop"]):
            self.add_numbered("stops", at=line.get("at"), **columns_of(line, "source", "offset", "stop"))

    def take_finding(self, line: FindingLine) -> None:
        """A finding or a doubt, which the code tells apart."""
        self.add_numbered("findings", **columns_of(line, "code", "offset", "text"))

    def take_order(self, line: OrderLine) -> None:
        """An order."""
        row = {"pack": line["source"], "is_inside": int(line["inside"]), "is_again": int(line["again"])}
        self.add_numbered("orders", **columns_of(line, "start", "end", "length", "reason"), **row)

    def take_planned(self, line: PlannedLine) -> None:
        """How much is ordered, and where the recording ends."""
        numbers = {"end": line["end"], "orders": line["ranges"], "ordered": line["bytes"], "open": line["open"]}
        self.state.update({name: number_of(value) for name, value in numbers.items()})

    def take_map(self, line: MapCounts) -> None:
        """How much is held, at hand and missing."""
        counts = columns_of(line, "held", "hand", "missing")
        self.facts["is_missing"] = line["missing"]
        self.state.update({name: number_of(value) for name, value in counts.items()})

    def take_units(self, line: UnitsLine) -> None:
        """How many edit units of an index are held."""
        self.add("indexes", index_sid=self.index_sid, said=None, **columns_of(line, "units", "held", "hand"))

    def take_uncounted(self, line: Line) -> None:
        """Why they aren't counted."""
        self.add("indexes", index_sid=self.index_sid, units=None, held=None, hand=None, said=line["said"])

    # What follows from all lines.

    def finish(self) -> Recording:
        """The recording with what all of its lines say of it together."""
        codes = [row["code"] for row in self.rows["findings"]]
        self.state["findings"] = sum(not is_doubt(code) for code in codes)
        self.state["disputes"] = len(self.rows["disputes"])
        described = self.described
        self.facts.update(title=described.title(), length=described.length(), timecode=described.timecode())
        self.facts["is_disputed"] = int(bool(self.rows["disputes"]))
        self.facts["is_missing"] = int(is_lacking(self.facts["is_missing"], self.state["orders"]))
        self.facts["is_damaged"] = int(bool(self.rows["stops"]) or is_unreadable(codes))
        self.rows["identifiers"] = [{"what": what, "uid": uid} for what, uid in self.identifiers]
        said = (self.state, self.facts, self.rows, [*self.texts])
        self.state["digest"] = hashlib.sha256(json.dumps(said, default=bytes.hex).encode()).hexdigest()
        # A state isn't another one because a label has got another name.
        self.facts.update(essence.words_of(described, self.written))
        for what, text in essence.texts_of(described, self.written):
            self.add_text(what, text)
        return Recording(self.name, self.state, self.facts, dict(self.rows), [*self.texts])


def recordings_of(lines: Iterable[Line], where: str) -> Iterator[Recording]:
    """The recordings of lines that come from a place. Lines of which a part is missing are no recording."""
    recording, count, number = None, 0, 0
    try:
        for number, line in enumerate(lines, 1):
            count += 1
            if recording is None:
                recording, count = Making(line), 1
            elif line["line"] == "recorded":
                if line["lines"] != count or line["name"] != recording.name:
                    raise LineFault("lines are missing")
                yield recording.finish()
                recording = None
            else:
                recording.take(line)
    except (KeyError, IndexError, TypeError, ValueError, AttributeError, ArithmeticError) as fault:
        raise OwnFault(DATA, f"bad lines: {where}: line {number}") from fault
    if recording is not None:
        raise OwnFault(DATA, f"bad lines: {where}: they end at line {number}, within a recording")
