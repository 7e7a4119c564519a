"""Tries to restore recordings of a folder by what mxf_archive orders, and edit units by mxf_fetch and a command."""
from __future__ import annotations

import shlex
from pathlib import Path

from archive_trial import ROW, Ended, Trial, Folder


def try_restores(t: Trial) -> None:
    """A recording of which a part is there is restored by what `orders` prints, until it orders nothing."""
    here = Folder(t, "restores")
    here.put("long/0.range", t.long[:9000])
    here.put("long/20000.range", t.long[20000:21000])
    here.put("atom/0.piece", t.atom[:6000])
    whole = {"long": t.long, "atom": t.atom}
    for _ in range(10):
        here.scan()
        orders = here.orders()
        for name, start, end, _, file, _ in orders:
            here.put(
                f"{name}/{file}",
                whole[str(name)][start if isinstance(start, int) else 0 : end if isinstance(end, int) else None],
            )
        if not orders:
            break
    t.equal("restores by what is ordered come to an end", here.orders(), [])
    t.equal("and all is there", [row[0:1] + row[2:] for row in here.sql(ROW)], [("atom", 0, 0, 0), ("long", 0, 0, 0)])
    for name, data in whole.items():
        file = here.root / name
        file.write_bytes(data)
        t.equal(f"as in the whole recording: {name}", here.cat(name), here.joined(f"at:0:{file}"))


class Tape:
    """A tape that gives the bytes that it is asked for, by a command, and mxf_fetch, which asks it for edit units."""

    def __init__(self, t: Trial) -> None:
        self.t, self.here = t, Folder(t, "minutes")
        self.told, self.source, self.restore = (self.here.root / name for name in ("told", "source", "restore"))
        quoted = shlex.quote(str(self.source))
        self.restore.write_text(
            f"#!/bin/bash\necho \"$*\" >>'{self.told}'\ntail -c +$(($2 + 1)) {quoted} | head -c $(($3 - $2))\n"
        )
        self.restore.chmod(0o755)

    def units(self, name: str, first: object, last: object, command: str = "", index: int = 0) -> Ended:
        """Restores edit units of a recording."""
        self.told.write_text("")
        command = command or f"{shlex.quote(str(self.restore))} {shlex.quote(name)}"
        by = ["--index", index] if index else []
        words = [self.t.top / "report/mxf_fetch", "units", f"cmd:{command}", "--into", self.folder(name), *by]
        return self.t.run([*words, "--from", first, "--to", last])

    def folder(self, name: str) -> Path:
        """The folder of a recording."""
        return self.here.recordings / name

    def orders(self) -> list[str]:
        """What the tape was asked for."""
        return self.told.read_text().splitlines()

    def where(self, name: str, *words: object) -> list[str]:
        """Where edit units lie, as mxf_tool says of the ranges in the folder."""
        sources = [f"range:{path.stem}:{path}" for path in self.folder(name).glob("*.range")]
        return self.t.asked("units", *words, *sources).splitlines()


def begun(ended: Ended) -> tuple[int, str]:
    """The status of a call, and the first line that it printed, which says what is there of the units."""
    return ended.status, ended.out.partition("\n")[0]


def try_units(t: Trial) -> None:
    """mxf_fetch restores edit units by a command, and nothing else."""
    tape = Tape(t)
    here, units, sound = tape.here, tape.units, tape.folder("sound")
    # Samples of the OP-Atom example, of which the front and the end are there.
    tape.source.write_bytes(t.atom)
    here.put("sound/0.range", t.atom[:6000])
    here.put("sound/24857.range", t.atom[24857:])
    ended = units("sound", 4000, 6000, index=2)
    t.equal("a minute of a recording is restored", begun(ended), (0, "units 2001 held 0 hand 2001 from 4000"))
    t.equal("and nothing else", tape.orders(), ["sound 13657 17659"])
    t.equal("beside the rest", (sound / "13657.range").read_bytes(), t.atom[13657:17659])
    wanted = ["unit 6000 hand 17657 17659 key - temporal - flags -", "units 2001 held 0 hand 2001 from 4000"]
    t.equal("where its units lie", tape.where("sound", "--index", 2, "--from", 4000, "--to", 6000)[-2:], wanted)
    whole = f"cmd:{shlex.quote(str(tape.restore))} sound"
    ended = units("sound", 4000, 6000, index=2)
    t.equal("of units that are there nothing is restored", (ended.status, tape.orders()), (0, []))
    ended = units("sound", 200, 300, command="false", index=2)
    t.equal("a folder of another command", (ended.status, f"it has ranges of {whole}" in ended.err), (2, True))
    try_units_killed(t, tape)
    try_units_beyond(t, tape)
    try_units_by_timecodes(t, tape)


def try_units_killed(t: Trial, tape: Tape) -> None:
    """A restore that fails or is killed is made again."""
    # The first sample begins at 5657 and has two bytes, so 1000 and 1001 are those from 7657 up to 7661.
    folder, restore = tape.folder("sound"), tape.restore.read_text()
    tape.restore.write_text("#!/bin/sh\nexit 1\n")
    t.equal("a restore that fails", tape.units("sound", 200, 300, index=2).status, 3)
    tape.restore.write_text(restore.replace("head -c $(($3 - $2))", 'head -c 1; kill -9 "$KILLED"'))
    killing = f"KILLED=$PPID {shlex.quote(str(tape.restore))} sound"
    # The folder is of the command as it is named, so that one is what is killed too.
    (folder / "fetched.json").unlink()
    t.equal("a restore is killed", tape.units("sound", 1000, 1001, command=killing, index=2).status, -9)
    tape.restore.write_text(restore)
    (folder / "fetched.json").unlink(missing_ok=True)
    ended = tape.units("sound", 1000, 1001, index=2)
    t.equal("a restore is made again that was killed", begun(ended), (0, "units 2 held 0 hand 2 from 1000"))
    t.equal("and has its bytes", (folder / "7657.range").read_bytes(), t.atom[7657:7661])


def try_units_beyond(t: Trial, tape: Tape) -> None:
    """A unit that the recording has not."""
    here = tape.here
    # There are 9,600 samples, from 0 on.
    ended = tape.units("sound", 9599, 9600, index=2)
    t.equal("a minute with a unit that the recording has not", begun(ended), (1, "units 2 held 0 hand 1 from 9599"))
    told = tape.where("sound", "--index", 2, "--from", 9599, "--to", 9600)
    wanted = ["unit 9599 hand 24855 24857 key - temporal - flags -", "unit 9600 elsewhere - - key - temporal - flags -"]
    t.equal("and which unit that is", told[:2], wanted)
    here.put("sound/sound.units", "\n".join(told).encode())
    here.scan()
    t.equal(
        "a scan says what the recording is",
        here.sql("SELECT title, length, timecode FROM recordings"),
        [(None, "00:00:00.200", "00:00:00:00")],
    )
    t.equal("and passes over what mxf_fetch wrote", here.scan().out.count("not looked at"), 0)


def try_units_by_timecodes(t: Trial, tape: Tape) -> None:
    """Pictures of the long GOP example by timecodes. Its header names the footer at 29184, and its metadata end at 6144: both
    say what timecodes and units there are. Then the partition of the units is restored. The pictures shown second and third
    are stored as the units 2 and 3, and need unit 0. Of an order that isn't of metadata or units 8,192 bytes are asked for first,
    as here up to 37376, and orders that lie less than 65,536 bytes apart are one."""
    tape.source.write_bytes(t.long)
    tape.here.put("pictures/0.range", t.long[:1000])
    shown, units = ("00:00:00:01", "00:00:00:02"), "units 2 held 2 hand 0 from 0"
    t.equal("a minute is restored by timecodes", begun(tape.units("pictures", *shown)), (0, units))
    t.equal("what tells of timecodes first", tape.orders(), ["pictures 1000 37376"])
    ended = tape.units("pictures", "10:00:00:01", "10:00:00:02")
    t.equal("a minute that the recording hasn't", (ended.status, ended.out.count("units")), (2, 0))
    t.equal("a minute of a recording with a space in its name", begun(tape.units("new one", *shown)), (0, units))
    t.equal("lies in its folder", (tape.folder("new one") / "0.range").read_bytes(), t.long)
    ended = tape.units("new", *shown, command="true")
    said = "mxf_fetch: read fault: cmd:true: it is empty\n"
    t.equal("an empty answer is no answer", (ended.status, ended.out, ended.err), (3, "", said))
    t.verdict("and no file, and no folder", not tape.folder("new").exists())
    t.equal("a minute of which there was nothing", begun(tape.units("new", *shown)), (0, units))
    t.equal("begins at 0", tape.orders(), ["new 0 65536"])
