"""Tries what mxf_archive says of recordings that aren't as on their first day, and of folders that aren't mounted."""
from __future__ import annotations

import json
import os
import shutil

from archive_trial import Trial, Folder, flipped, touch


def try_verify(t: Trial, here: Folder) -> None:
    """What isn't as on the first day is found, kept, printed and accepted."""
    for name in ("damaged",):
        shutil.rmtree(here.recordings / name)
        t.archive("remove", here.db, name)
    status, rows, ended = here.verify()
    t.equal("all is as on the first day", (status, rows, ended.out), (0, [], ""))
    t.equal(
        "what is kept of it",
        [here.kept(name) for name in ("parts", "whole")],
        [(3, 3, 258, 258, 0, 0, 0), (3, 3, 264, 264, 0, 0, 0)],
    )
    since = t.archive("list", here.db, "--unverified-since", 1, "--json").out
    t.equal("the database knows when that was", since, "")
    here.put("parts/216.piece", t.w[216:336])
    status, rows, _ = here.verify()
    t.equal(
        "a piece that came later is no fault", (status, rows, here.kept("parts")), (0, [], (3, 3, 258, 258, 0, 0, 120))
    )
    t.equal("a piece that came later: its bytes are unknown", here.differs("parts"), [("unknown", 216, 336)])


def try_flipped(t: Trial, here: Folder) -> None:
    """A flipped bit is found, however often the folder is scanned, until it is accepted."""
    first = here.cat("first/whole")
    # One bit of byte 60, of the header, and no change of its file's times.
    piece = here.recordings / "whole/0.piece"
    times = piece.stat()
    piece.write_bytes(flipped(t.m, 60))
    os.utime(piece, ns=(times.st_atime_ns, times.st_mtime_ns))
    row = ("whole", 2, 3, 156, 264, 1, 0, 0)
    for name in ("a flipped bit", "a flipped bit, when all was scanned anew"):
        status, rows, ended = here.verify()
        t.equal(name, (status, rows), (1, [row]))
        t.equal(f"{name}: why", json.loads(ended.out)["why"], f"differs 0 to 108 in at:0:{piece}")
        t.equal(f"{name}: what is kept", (here.kept("whole"), here.differs("whole")), (row[1:], [("differs", 0, 108)]))
        touch(piece)
        here.scan()
        t.equal(f"{name}: the first day stays", here.cat("first/whole"), first)
        for path in here.catalogues.glob("*.cat"):
            path.unlink()
        here.scan()
    t.equal("the catalogue is made anew where its piece changed", here.cat("whole"), here.joined(f"at:0:{piece}"))
    t.equal(
        "one alone is verified by its name",
        [here.verify(name)[:2] for name in ("parts", "whole")],
        [(0, []), (1, [row])],
    )
    ended = t.archive("accept", here.db, "whole")
    said = f"dropped 0 header 4 88 {t.m[:16].hex()}\nrenewed 3 notes 0 disputed 1 dropped\n"
    t.equal("a change is accepted, and what is dropped is printed", (ended.status, ended.out), (0, said))
    status, rows, _ = here.verify()
    t.equal("a change that is accepted", (status, rows, here.kept("whole")), (0, [], (3, 3, 264, 264, 0, 0, 0)))


def try_accept(t: Trial, here: Folder) -> None:
    """A change of a block is accepted."""
    # M's packets at 0 and 216 are in one block each, and the one at 108 in none: its byte 120 begins the second block.
    here.put("blocks/0.range", t.m[:120])
    here.put("blocks/120.range", t.m[120:])
    here.scan()
    here.put("blocks/0.range", flipped(t.m, 60)[:120])
    status, rows, _ = here.verify()
    t.equal("a flipped bit of a block", (status, rows), (1, [("blocks", 1, 2, 48, 156, 1, 0, 108)]))
    t.equal(
        "a flipped bit of a block: what is kept", here.differs("blocks"), [("differs", 0, 108), ("unknown", 108, 216)]
    )
    t.equal("a change of a block is accepted", t.archive("accept", here.db, "blocks").status, 0)
    status, rows, _ = here.verify()
    t.equal(
        "a block whose change is accepted", (status, rows, here.kept("blocks")), (0, [], (2, 2, 156, 156, 0, 0, 108))
    )


def try_another(t: Trial, here: Folder) -> None:
    """Another recording is accepted with --drop alone."""
    # M stands where W stood, which has one packet of essence more than M has: that is another recording.
    another = here.put("another/0.piece", t.w)
    here.scan()
    kept = here.cat("first/another")
    another.write_bytes(t.m)
    packets = ((0, "header 4 88"), (108, "body 4 88"), (216, "essence 4 100"))
    dropped = "".join(f"dropped {start} {said} {t.w[start : start + 16].hex()}\n" for start, said in packets)
    ended = t.archive("accept", here.db, "another")
    t.equal(
        "another recording isn't accepted",
        (ended.status, ended.out),
        (1, dropped + "not renewed 6 notes 0 disputed 3 dropped\n"),
    )
    t.equal("and the first day stays", here.cat("first/another"), kept)
    ended = t.archive("accept", here.db, "another", "--drop")
    t.equal(
        "with --drop another recording is accepted",
        (ended.status, ended.out),
        (0, dropped + "renewed 6 notes 0 disputed 3 dropped\n"),
    )
    for name in ("another", "blocks"):
        shutil.rmtree(here.recordings / name)
    t.archive("remove", here.db, "another", "blocks")
    ended = t.archive("accept", here.db, "none")
    t.equal(
        "no recording is accepted that isn't there",
        (ended.status, ended.err),
        (2, "mxf_archive: no recording that was scanned: none\n"),
    )


def try_match(t: Trial, here: Folder) -> None:
    """Some bytes are found in their recording, by the catalogues of a scan."""
    fragment = here.root / "fragment"
    fragment.write_bytes(t.m[50:])
    piece = here.recordings / "whole/0.piece"
    piece.write_bytes(t.m)
    here.scan()
    t.archive("accept", here.db, "whole")
    ended = t.archive("match", here.db, f"range:0:{fragment}", "--csv")
    t.equal(
        "a recording is found by some bytes of it",
        (ended.status, ended.out.splitlines()[1]),
        (0, f"range:0:{fragment},whole,50,2,2,0"),
    )
    fragment.write_bytes(bytes.fromhex("060e2b34010101010301021001000000") + b"\0")
    ended = t.archive("match", here.db, f"range:0:{fragment}", "--csv")
    t.equal(
        "bytes that no recording has are found nowhere",
        (ended.status, ended.out.splitlines()[1]),
        (1, f"range:0:{fragment},,,0,1,0"),
    )


def try_loss(t: Trial, here: Folder) -> None:
    """A recording that came later, and one that is gone."""
    here.put("halves/0.piece", t.m[:108])
    here.put("halves/108.piece", t.m[108:])
    shutil.rmtree(here.recordings / "parts")
    t.verdict("a recording that came later is added", "added halves\n" in here.scan().out)
    status, rows, ended = here.verify()
    t.equal(
        "a recording that is gone is told by verify", (status, rows, ended.err), (1, [], "mxf_archive: parts is gone\n")
    )
    t.archive("remove", here.db, "parts")
    status, rows, ended = here.verify()
    t.equal("a recording that was removed is no longer asked for", (status, rows, ended.err), (0, [], ""))
    t.equal("and the one that came later is verified", here.kept("halves"), (3, 3, 264, 264, 0, 0, 0))


def try_cut(t: Trial, here: Folder) -> None:
    """A piece that was taken away, is cut, or can't be read; a recording that was taken away."""
    first = here.cat("first/halves")
    (here.recordings / "halves/0.piece").unlink()
    status, rows, ended = here.verify()
    t.equal("a piece was taken away", (status, rows), (1, [("halves", 2, 3, 156, 264, 0, 0, 0)]))
    t.equal("a piece was taken away: why", json.loads(ended.out)["why"], "unverified 0 to 108")
    here.put("halves/0.piece", t.m[:108])
    here.put("halves/108.piece", t.m[108:158])
    status, rows, _ = here.verify()
    t.equal("a piece is cut", (status, rows), (1, [("halves", 1, 3, 108, 264, 0, 1, 0)]))
    t.equal("a piece is cut: what is kept", here.differs("halves"), [("cut", 108, 216), ("unverified", 108, 264)])
    (here.recordings / "halves/0.piece").unlink()
    (here.recordings / "halves/0.piece").mkdir()
    status, rows, ended = here.verify()
    t.equal("a piece can't be read", (status, rows), (1, [("halves", *[None] * 7)]))
    t.verdict(
        "a piece can't be read: why",
        json.loads(ended.out)["why"].startswith("verify ended with status 3: read fault: "),
        ended.out,
    )
    shutil.rmtree(here.recordings / "halves")
    status, rows, ended = here.verify()
    t.equal("a recording was taken away", (status, rows, ended.err), (1, [], "mxf_archive: halves is gone\n"))
    here.scan()
    t.equal("the first day is known where pieces went", here.cat("first/halves"), first)
    t.archive("remove", here.db, "halves")
    # On its first day a recording had a packet whose front alone was there, and its length is another now.
    here.put("cut/0.piece", t.m[:128])
    here.scan()
    here.put("cut/0.piece", flipped(t.m, 127)[:128])
    status, rows, _ = here.verify("cut")
    t.equal("a flipped bit of a head", (status, rows), (1, [("cut", 1, 2, 108, 128, 1, 0, 0)]))


def try_unmounted(t: Trial, here: Folder) -> None:
    """A folder that isn't there, and one that is empty: nothing is changed."""
    rows, cats = here.sql("SELECT * FROM scanned ORDER BY 1"), sorted(here.catalogues.rglob("*.cat"))
    count = here.sql("SELECT count(*) FROM verifications")
    away = here.root / "away"
    here.recordings.rename(away)
    for what, said in (("that isn't there", f"read fault: {here.recordings}: No such file or directory"),
                       ("that isn't mounted", f"no recording in {here.recordings}: is it mounted?")):  # fmt: skip
        for ended, command in (
            (here.scan(), "scan"),
            (t.archive("verify", here.db), "verify"),
            (t.archive("accept", here.db, "whole"), "accept"),
        ):
            t.equal(
                f"{command} of a folder {what}", (ended.status, ended.out, ended.err), (3, "", f"mxf_archive: {said}\n")
            )
        here.recordings.mkdir(exist_ok=True)
    t.equal(
        "what is known stays",
        (here.sql("SELECT * FROM scanned ORDER BY 1"), sorted(here.catalogues.rglob("*.cat"))),
        (rows, cats),
    )
    t.equal("and no verification is kept", here.sql("SELECT count(*) FROM verifications"), count)
    none = t.archive("scan", here.root / "none.db", here.recordings)
    t.equal("of an empty folder no database is made", (none.status, (here.root / "none.db").exists()), (3, False))
    here.recordings.rmdir()
    away.rename(here.recordings)
