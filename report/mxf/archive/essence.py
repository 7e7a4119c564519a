"""The container, the coding, the pictures and the sounds of a recording in words, as the database keeps them."""
from __future__ import annotations

from collections.abc import Iterator, Mapping
from sqlite3 import Connection

from mxf.described import Described, containers_text
from mxf.essence import Picture, Sound
from mxf.labels.naming import pattern_text
from mxf.lines import Line
from mxf.written import Written
from mxf.wording import times_text

# What the tables of pictures and sounds have of a line of `describe`, by its members.
PICTURE = ("width", "height", "display-width", "display-height", "layout", "aspect", "depth", "coding")
SOUND = ("rate", "channels", "bits", "coding")

# The kinds of texts that are no names.
KINDS = ("container", "picture", "sound")


def words_of(described: Described, written: Written) -> dict[str, str | None]:
    """The columns of a recording. Its coding is that of the first picture, or else of the first sound."""
    codings = [one.coding for one in described.pictures] or [one.coding for one in described.sounds]
    return {
        "container": containers_text(described, written),
        "coding": next(filter(None, codings), None),
        "picture": told(described.pictures),
        "sound": told(described.sounds),
    }


def told(counts: Mapping[Picture, int] | Mapping[Sound, int]) -> str | None:
    """All pictures or sounds, like ones together."""
    return "; ".join(times_text(one.text(), count) for one, count in counts.items()) or None


def texts_of(described: Described, written: Written) -> list[tuple[str, str]]:
    """The texts by whose words a recording is found, each with what it is. Words of codings are among those of pictures and
    sounds."""
    texts = [("container", containers_text(described, written) or "")]
    texts += [("picture", one.text()) for one in described.pictures]
    texts += [("sound", one.text()) for one in described.sounds]
    return [(what, text) for what, text in texts if text]


def fill(connection: Connection) -> None:
    """Fills the columns and the texts of all recordings of a database of an earlier version, as far as its tables know them."""
    for (identity,) in connection.execute("SELECT id FROM recordings").fetchall():
        described, written = Described(kept_lines(connection, identity)), Written()
        pack = 'SELECT pattern FROM partitions WHERE recording = ? ORDER BY "offset" LIMIT 1'
        for (pattern,) in connection.execute(pack, (identity,)):
            written.pattern = pattern_text(pattern.partition(" ")[0])
        columns = {**words_of(described, written), "id": identity}
        connection.execute(
            "UPDATE recordings SET container = :container, coding = :coding, picture = :picture, sound = :sound WHERE id = :id",
            columns,
        )
        texts = [(identity, *text) for text in texts_of(described, written)]
        connection.executemany("INSERT INTO texts (recording, what, text) VALUES (?, ?, ?)", texts)


def kept_lines(connection: Connection, identity: int) -> Iterator[Line]:
    """What the tables have of the lines of descriptors of a recording."""
    for table, line, members in (("pictures", "picture", PICTURE), ("sounds", "sound", SOUND)):
        names = ", ".join(("track", "container", *(member.replace("-", "_") for member in members)))
        rate = "rate" if line == "picture" else "NULL"
        question = f"SELECT {rate}, {names} FROM {table} WHERE recording = ? ORDER BY number"
        for of_all, track, container, *values in connection.execute(question, (identity,)).fetchall():
            yield {"line": "essence", "track": track, "rate": of_all, "container": container}
            yield {"line": line, **dict(zip(members, values))}
