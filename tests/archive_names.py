"""Tries which recordings mxf_archive sees in a folder: files, run-ins, names of any kind, renames, many of them."""
from __future__ import annotations

import os
import pathlib
import resource
import shutil

from archive_trial import ROW, Trial, Folder, flipped, touch


def try_run_ins(t: Trial) -> None:
    """Recordings that begin behind a run-in."""
    here = Folder(t, "run_ins")
    here.put("C0001.MXF", t.intra)
    runs = {1: b"\0", 8192: bytes(8192), 65535: b"\6\x0e" * 32767 + b"\6"}
    for length, run_in in runs.items():
        here.put(f"run {length}.mxf", run_in + t.intra)
    here.put("folded/0.piece", runs[8192] + t.intra)
    ended = here.scan()
    out = set(ended.out.splitlines())
    for length in runs:
        t.verdict(
            f"a run-in of {length} bytes is said",
            f"run {length} begins behind a run-in of {length} bytes" in out,
            ended.out,
        )
        t.equal(f"a run-in of {length} bytes: the catalogue", here.cat(f"run^20{length}"), here.cat("C0001"))
    t.equal("a run-in of a piece at 0", here.cat("folded"), here.cat("C0001"))
    t.equal(
        "they are verified behind their run-ins", [here.verify(f"run {length}")[:2] for length in runs], [(0, [])] * 3
    )
    here.put("run 8192.mxf", runs[8192] + flipped(t.intra, 5170))
    t.equal("a flipped bit behind a run-in", here.verify("run 8192")[0], 1)
    t.equal("is accepted", (t.archive("accept", here.db, "run 8192").status, here.verify("run 8192")[0]), (0, 0))


def try_others(t: Trial) -> None:
    """Files that are whole recordings, in capitals too, links that lead nowhere, and what isn't looked at."""
    here = Folder(t, "others")
    here.put("flat.mxf", t.m)
    here.put("C0001.MXF", t.intra)
    here.put("deep/other.mxf", t.m)
    here.put("notes.txt", b"text")
    here.put("wrong/0.piece", b"no packet\n")
    (here.recordings / "dangling.mxf").symlink_to("/none/there.mxf")
    (here.recordings / "empty").mkdir()
    (here.recordings / "linked.mxf").symlink_to(here.recordings / "flat.mxf")
    (here.recordings / "nowhere").symlink_to("/none")
    (here.recordings / "itself").symlink_to("itself")
    (pathlib.Path(os.fsdecode(os.fsencode(here.recordings) + b"/\xff.mxf"))).write_bytes(t.m)
    ended = here.scan()
    err = set(ended.err.splitlines())
    t.equal("the catalogue of a file in capitals", here.cat("C0001"), here.joined(f"at:0:{here.recordings}/C0001.MXF"))
    t.equal(
        "a dangling link stops one recording alone, as an empty folder does", (ended.status, len(here.sql(ROW))), (1, 4)
    )
    for said in ("dangling: dangling.mxf is a link that leads to no file", "empty: its folder has no piece, no range and no catalogue",
                 "deep: its folder has no piece, no range and no catalogue"):  # fmt: skip
        t.verdict(f"it is named: {said}", f"mxf_archive: {said}" in err, ended.err)
    no_piece = "in the folder of a recording these are OFFSET.piece, OFFSET.range or NAME.cat"
    for name, reason in (("notes.txt", "it is no folder, and no file NAME.mxf"), ("deep/other.mxf", no_piece),
                         ("nowhere", "it is no folder, and no file NAME.mxf"), ("itself", "it is no folder, and no file NAME.mxf"),
                         ("\ufffd.mxf", "its name isn't UTF-8")):  # fmt: skip
        t.equal(f"what isn't looked at is named: {name}", ended.out.count(f"not looked at: {name}: {reason}\n"), 1)
    orders = [row for row in here.orders() if row[0] == "wrong"]
    t.equal(
        "what is lacking never has the name of a file that is there", orders, [("wrong", 0, None, "header", None, None)]
    )
    try_renames(t, here)
    try_rename_command(t, here)


def try_renames(t: Trial, here: Folder) -> None:
    """A recording that is renamed keeps its first day and its history, also if one of its packets is lost since."""
    here.put("halves/0.piece", t.w[:336])
    here.put("halves/336.piece", t.w[336:])
    here.scan()
    here.verify("halves")
    first = here.cat("first/halves")
    (here.recordings / "halves").rename(here.recordings / "renamed")
    here.put("renamed/336.piece", t.w[336:500])
    ended = here.scan()
    t.verdict("a recording that is renamed is told", "renamed is halves\n" in ended.out, ended.out)
    t.equal("and keeps its first day", here.cat("first/renamed"), first)
    t.verdict("which it had by its former name", not (here.catalogues / "first/halves.cat").exists())
    counts = here.sql("SELECT count(*) FROM history WHERE recording = 'renamed'"), here.kept("renamed")[:2]
    notes = (t.top / "tests/worked/W.show.txt").read_text().count("\nnote ")
    t.equal("the database keeps its history and its verifications", counts, ([(2,)], (notes, notes)))
    t.equal(
        "and finds it by its new name",
        t.archive("find", here.db, "renamed", "--csv").out.splitlines()[1],
        "renamed,name of recording,renamed",
    )
    t.equal("and no longer by the former", t.archive("find", here.db, "halves").status, 1)
    t.equal("so what it lost is seen", here.verify("renamed")[0], 1)


def try_rename_command(t: Trial, here: Folder) -> None:
    """A recording is renamed by a command, and no other takes its place."""
    notes = (t.top / "tests/worked/W.show.txt").read_text().count("\nnote ")
    here.put("alike/0.piece", t.w)
    here.scan()
    t.verdict("a copy beside its twin has a first day of its own", (here.catalogues / "first/alike.cat").exists())
    ended = t.archive("rename", here.db, "alike", "other name")
    (here.recordings / "alike").rename(here.recordings / "other name")
    t.equal("a recording is renamed by a command", (ended.status, ended.out), (0, "other name is alike\n"))
    t.equal(
        "with its catalogues",
        sorted(path.parent.name for path in here.catalogues.rglob("*other^20name.cat")),
        [here.catalogues.name, "first"],
    )
    t.equal("of which those of the former name go", list(here.catalogues.rglob("alike.cat")), [])
    found = t.archive("find", here.db, "other", "--csv").out.splitlines()
    t.equal("it is found by its new name", found[1], "other name,name of recording,other name")
    match = t.archive("match", here.db, f"at:0:{here.recordings}/other name/0.piece", "--csv")
    t.verdict("and by its bytes", f",other name,0,{notes},{notes},0" in match.out, match.out, match.err)
    ended = here.scan()
    said = [line for line in ended.out.splitlines() if "alike" in line or "other name" in line]
    t.equal("the next scan knows it, and reads nothing of it", said, [])
    ended = t.archive("rename", here.db, "other name", "flat")
    t.equal(
        "a name that is there is refused",
        (ended.status, ended.err),
        (2, "mxf_archive: a recording has this name: flat\n"),
    )
    ended = t.archive("remove", here.db, "flat", "none")
    t.equal(
        "none is removed if one isn't there",
        (ended.status, len(here.sql("SELECT 1 FROM recordings WHERE name = 'flat'"))),
        (2, 1),
    )
    second = here.root / "second"
    (second / "flat").mkdir(parents=True)
    (second / "flat/0.piece").write_bytes(t.w)
    ended = t.archive("scan", here.db, second)
    cause = f"mxf_archive: flat: a recording of this name is in {here.recordings}\n"
    t.equal("a recording of another folder never takes its place", (ended.status, ended.err), (1, cause))


STRANGE = "it's 50% $x [a]*;#"
LONG_NAME = "long " + 30 * "\u00e9\u4e16 " + 60 * "x"
ODD = {
    "-a,b.c": "^2Da,b.c",
    "my tape": "my^20tape",
    STRANGE: "it^27s^2050^25^20^24x^20^5Ba^5D^2A^3B^23",
    "two\nlines": "two^0Alines",
    "whole one": "whole^20one",
}


def try_odd_names(t: Trial) -> None:
    """Recordings of any name: with spaces, signs of shells, two lines, a hyphen in front, and as long as a name can be."""
    here = Folder(t, "odd")
    for name in ("-a,b.c", "my tape", STRANGE):
        here.put(f"{name}/0.piece", t.m)
    here.put("two\nlines/336.piece", t.w[336:])
    here.put("whole one.mxf", t.m)
    longest = LONG_NAME.encode()[:251].decode("utf-8", "ignore")
    here.put(f"{longest}.mxf", t.m)
    names = sorted([*ODD, longest])
    lost = (1, 0, 2, 336)
    here.rows("recordings of any name", *((name, *(lost if name == "two\nlines" else (0, 0, 0, 0))) for name in names))
    t.equal(
        "again nothing", here.scan(tool="/none").out.split(": ")[1], "0 gathered, 6 as they were, 0 failed, 0 gone\n"
    )
    t.equal(
        "their catalogues have safe names",
        sorted(path.stem for path in here.catalogues.glob("*.cat")),
        sorted(ODD.values()),
    )
    made = [path.relative_to(here.catalogues).as_posix() for path in here.catalogues.glob("long*/**/*.cat")]
    t.equal("a long one goes on in folders, and can be read back", [read_back(path) for path in made], [longest])
    t.equal("what they lack", here.orders(), [("two\nlines", 0, 336, "header,entry", "0.piece", None)])
    touch(here.recordings / "two\nlines/336.piece")
    ended = here.scan(tool=t.stand_in("plan --json", "exit 5"))
    t.equal(
        "a step that fails is named with a recording of two lines",
        ended.err.startswith("mxf_archive: two?lines: "),
        True,
    )
    here.put("two\nlines/0.piece", t.w[:336])
    here.rows("what comes to one of them is gathered", *((name, 0, 0, 0, 0) for name in names))
    try_odd_pages(t, here, longest)


def try_odd_pages(t: Trial, here: Folder, longest: str) -> None:
    """Their pages, their first days, and their ends."""
    pages = here.root / "pages"
    t.equal("each has a page", (t.archive("pages", here.db, pages).status, len(list(pages.rglob("*.html")))), (0, 7))
    index = (pages / "index.html").read_text()
    for coded in ODD.values():
        t.verdict(
            f"to which the page of many has a link: {coded}",
            f'href="./{coded.replace("^", "%5E").replace(",", "%2C")}.html"' in index,
        )
    before = {path: path.stat().st_ino for path in pages.rglob("*.html")}
    here.put("my tape/0.piece", flipped(t.m, 60))
    status, rows, _ = here.verify()
    t.equal("what changed in them is seen", (status, [row[:3] for row in rows]), (1, [("my tape", 2, 3)]))
    here.scan()
    t.archive("pages", here.db, pages)
    changed = sorted(path.name for path, number in before.items() if path.stat().st_ino != number)
    t.equal("pages are made again only of what changed", changed, ["index.html", "my^20tape.html"])
    t.equal(
        "and accepted by their own names", (t.archive("accept", here.db, "my tape").status, here.verify()[0]), (0, 0)
    )
    (here.recordings / "my tape").rename(here.recordings / "my other tape")
    t.verdict("one of them that is renamed is told by its own names", "my other tape is my tape\n" in here.scan().out)
    t.equal(
        "all are removed",
        t.archive("remove", here.db, "--", *sorted([longest, "my other tape", *set(ODD) - {"my tape"}])).status,
        0,
    )
    t.equal("and nothing is left of them", list(here.catalogues.rglob("*.cat")), [])


def read_back(path: str) -> str:
    """The name of a recording by the path of its catalogue."""
    coded = path.replace("^/", "").removesuffix(".cat").split("^")
    return (coded[0].encode() + b"".join(bytes.fromhex(part[:2]) + part[2:].encode() for part in coded[1:])).decode()


def try_many(t: Trial) -> None:
    """200 recordings of which nothing changed, and more of them than words of a call."""
    here = Folder(t, "many")
    for number in range(200):
        here.put(f"recording {number}/0.piece", t.m[:-1] + bytes([number]))
    ended = here.scan("--jobs", 2)
    t.equal("200 recordings are gathered", (ended.status, ended.out.count("added ")), (0, 200))
    before = resource.getrusage(resource.RUSAGE_CHILDREN)
    here.scan(tool="/none")
    after = resource.getrusage(resource.RUSAGE_CHILDREN)
    seconds = after.ru_utime + after.ru_stime - before.ru_utime - before.ru_stime
    t.verdict(
        "a scan of 200 recordings of which none changed takes at most two seconds of a processor", seconds <= 2, seconds
    )
    status, rows, _ = here.verify("--jobs", 3)
    t.equal("all are verified", (status, rows, here.sql("SELECT count(*) FROM verifications")), (0, [], [(200,)]))
    t.equal("and kept as such", t.archive("list", here.db, "--unverified-since", 1).status, 0)


def try_join(t: Trial) -> None:
    """Catalogues that other machines made are taken in place of reading, as long as they are of the files that are there."""
    here = Folder(t, "machines")
    for number in range(5):
        here.put(f"{number}.mxf", t.m[:-1] + bytes([number]))
    here.put("damaged.mxf", t.m[:108] + b"garbage")
    into = here.root / "into"
    for part in (1, 2, 3):
        ended = t.archive("join", here.recordings, into, "--part", f"{part}/3")
        t.equal(f"part {part} is joined", (ended.status, ended.out, ended.err), (0, "", ""))
    t.equal("all but the damaged one have a catalogue", sorted(path.stem for path in into.glob("*.cat")), list("01234"))
    joins = here.root / "joins"
    counting = t.stand_in("join --strict", f"echo >>'{joins}'")
    ended = t.archive("join", here.recordings, into, tool=counting)
    t.equal("again only the damaged one is read", (ended.status, joins.read_text()), (0, "\n"))
    touch(here.recordings / "1.mxf")
    joins.write_text("")
    ended = here.scan("--joined", into, tool=counting)
    t.equal("a scan takes them", (ended.status, ended.out.count("added ")), (0, 6))
    t.equal("but for what changed, and twice what is damaged: as a piece and as a range", joins.read_text(), "\n" * 3)
    t.equal("the catalogues are those that were taken", here.cat("0"), (into / "0.cat").read_bytes())
    t.equal("with their first days", here.verify()[:2], (0, []))
    t.equal("a folder of catalogues that isn't there is refused", here.scan("--joined", here.root / "none").status, 3)


def try_places(t: Trial) -> None:
    """Folders that are named from where the program is called, two databases of one folder, and one that is lost."""
    here = Folder(t, "places")
    here.put("flat.mxf", t.m)
    here.put("halves/0.piece", t.m[:108])
    here.put("halves/108.piece", t.m[108:])
    ended = t.archive("scan", "archive.db", "recordings", cwd=here.root)
    t.equal("a folder and a database that are named from where mxf_archive is called", ended.status, 0)
    paths = here.sql("SELECT path FROM sources WHERE number = 1 ORDER BY path")
    wanted = [(f"{here.recordings}/{name}",) for name in ("flat.mxf", "halves/0.piece")]
    t.equal("their paths go from the root on", paths, wanted)
    second = here.root / "second.db"
    t.equal("a second database has all too", t.archive("scan", second, here.recordings).out.count("added "), 2)
    touch(here.recordings / "flat.mxf")
    here.scan()
    t.verdict(
        "and what the first was given already", "replaced flat\n" in t.archive("scan", second, here.recordings).out
    )
    inside = t.archive("scan", "inside.db", ".", cwd=here.recordings)
    again = t.archive("scan", "inside.db", ".", cwd=here.recordings)
    said = "2 recordings: 0 gathered, 2 as they were, 0 failed, 0 gone\n"
    t.equal("a database within the folder is none of its recordings", (inside.status, again.out), (0, said))
    for path in here.recordings.glob("inside.db*"):
        shutil.rmtree(path) if path.is_dir() else path.unlink()
    link = here.root / "link"
    link.symlink_to(here.recordings)
    ended = t.archive("scan", here.db, link)
    t.equal("the folder by another name is the same folder", (ended.status, ended.err), (0, ""))
    first = here.cat("first/halves")
    (here.recordings / "halves/0.piece").unlink()
    for path in here.root.glob("archive.db*"):
        if path.is_file():
            path.unlink()
    t.equal("one that is lost is made again", here.scan().out.count("added "), 2)
    t.equal("with the first days that were there", here.cat("first/halves"), first)
    t.equal("so what was taken away is seen", [row[:1] for row in here.verify()[1]], [("halves",)])
