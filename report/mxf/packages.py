"""The packages of a recording by what `describe` says, and which of them stands for it."""
from __future__ import annotations

from mxf.lines import AnyLine, ContainerLine, Line, NameLine, PackageLine, TimecodeWords, TrackLine
from mxf.reading import LineFault, Takers, checked

KINDS = ("picture", "sound", "data")  # of tracks of essence, the first that stands for a package


class Package:
    """A package: its kind and identifier, its name and container, of each kind its first track, and its first timecode."""

    def __init__(self, line: PackageLine) -> None:
        self.kind, self.uid = line["kind"], line["uid"]
        self.name: str | None = None
        self.container: ContainerLine | None = None
        self.tracks: dict[str | None, TrackLine] = {}
        self.timecode: str | None = None

    def essence_track(self) -> TrackLine | None:
        """Its first picture track, or else sound track, or else data track."""
        return next((self.tracks[kind] for kind in KINDS if kind in self.tracks), None)


class Packages:
    """All packages of a recording."""

    def __init__(self) -> None:
        self.each: list[Package] = []

    def takers(self) -> Takers:
        """What takes the lines of `describe` that are of packages."""
        return {
            "package": (AnyLine, self.take_package),
            "name": (NameLine, self.take_name),
            "container": (ContainerLine, self.take_container),
            "track": (AnyLine, self.take_track),
            "timecode": (TimecodeWords, self.take_timecode),
        }

    def take_package(self, line: Line) -> None:
        """A package, or a reference that leads to none."""
        if "uid" in line:
            self.each.append(Package(checked(line, PackageLine)))

    def last(self) -> Package:
        """The package that lines are of: the last one."""
        if not self.each:
            raise LineFault("a line of no package")
        return self.each[-1]

    def take_name(self, line: NameLine) -> None:
        """The name of a package."""
        self.last().name = line["text"]

    def take_container(self, line: ContainerLine) -> None:
        """The essence container of a package."""
        self.last().container = line

    def take_track(self, line: Line) -> None:
        """A track of a package, or a reference that leads to none."""
        if "id" in line:
            track = checked(line, TrackLine)
            self.last().tracks.setdefault(track["kind"], track)

    def take_timecode(self, line: TimecodeWords) -> None:
        """A timecode component of a package."""
        self.last().timecode = self.last().timecode or line["at"]

    def main(self) -> Package | None:
        """The package that stands for the recording: the first material package, or else one with a container, or any."""
        materials = [one for one in self.each if one.kind == "material"]
        contained = [one for one in self.each if one.container]
        return next(iter(materials + contained + self.each), None)

    def title(self) -> str | None:
        """The name of that package, or else the first that there is."""
        main = self.main()
        names = [main.name] if main else []
        return next((name for name in names + [one.name for one in self.each] if name), None)

    def length(self) -> str | None:
        """How long that package is, if it is known."""
        main = self.main()
        track = main.essence_track() if main else None
        return track["length"] if track else None

    def timecode(self) -> str | None:
        """The first timecode of that package."""
        main = self.main()
        return main.timecode if main else None

    def tapes(self) -> list[str]:
        """The names of the source packages without a container: what the essence was made of."""
        return [one.name for one in self.each if one.kind == "source" and not one.container and one.name]

    def track_of_index(self, index_sid: int | None) -> TrackLine | None:
        """The track of essence of the first package with this index that has one."""
        tracks = [one.essence_track() for one in self.each if one.container and one.container["index-sid"] == index_sid]
        return next((track for track in tracks if track), None)

    def last_unit(self, index_sid: int | None) -> int | None:
        """The last edit unit of an index by the track of its package, if that has a duration."""
        track = self.track_of_index(index_sid)
        return max(track["origin"], 0) + track["duration"] - 1 if track and track["duration"] else None
