"""Tries how mxf_archive gathers a folder of recordings: what comes and goes, what is damaged, failures, kills and signals."""
from __future__ import annotations

import contextlib
import os
import pathlib
import resource
import shutil
import signal
import sqlite3
import subprocess
import time

from archive_trial import ROW, WHOLE, PARTS, Trial, Folder, touch, said_in


# Kills the program, which leads a session of its own, and the group that this call is of.
KILL = "kill -9 $(ps -o sid= -p $$) 0"

STEPS = (
    "join --strict",
    "show --json",
    "describe --json",
    "check --doubts --json cat:",
    "check --json --sources",
    "plan --json",
    "map --json",
)


def try_first(t: Trial) -> Folder:
    """Two recordings, one of which lacks its front; again nothing, where nothing changed."""
    here = Folder(t, "first")
    here.put("whole/0.piece", t.m)
    here.put("parts/336.piece", t.w[336:594])
    ended = here.scan()
    t.equal(
        "recordings are added by their names",
        (ended.status, sorted(ended.out.splitlines()[:2])),
        (0, ["added parts", "added whole"]),
    )
    t.equal("two recordings, one of which lacks its front", here.sql(ROW), [PARTS, WHOLE])
    t.equal(
        "what each recording lacks, as one stretch", here.orders(), [("parts", 0, 336, "header,entry", "0.piece", None)]
    )
    text = t.archive("orders", here.db).out.splitlines()
    t.equal("for people", text[1].split(), ["parts", "0", "336", "336", "header,entry", "at", "0.piece", "-"])
    ended = here.scan(tool="/none")
    wanted = "2 recordings: 0 gathered, 2 as they were, 0 failed, 0 gone\n"
    t.equal(
        "nothing is made again where nothing changed, and mxf_tool isn't called", (ended.status, ended.out), (0, wanted)
    )
    (here.catalogues / "whole.cat").unlink()
    t.equal("a large recording is joined in slices", here.scan("--large", 10).status, 0)
    t.equal(
        "its catalogue is that of one call", here.cat("whole"), here.joined(f"at:0:{here.recordings}/whole/0.piece")
    )
    for path in ("parts.cat", "first/parts.cat"):
        (here.catalogues / path).unlink()
        here.scan()
        t.verdict(f"{path} is made again if it is missing", (here.catalogues / path).exists())
    return here


def try_stretches(t: Trial, here: Folder) -> None:
    """Orders that touch or lie over one another are one, by rows that are written by hand."""
    order = "INSERT INTO orders SELECT id, ?, ?, ?, NULL, 'gap', NULL, ?, 0 FROM recordings WHERE name = 'parts'"
    trials: dict[str, tuple[list[tuple[int, int | None, int]], list[tuple[int, int | None, str]]]] = {
        "orders that touch are one stretch": ([(0, 108, 0), (108, 336, 0)], [(0, 336, "0.piece")]),
        "orders that lie over one another are one stretch": ([(280, 290, 0), (250, 300, 1)], [(250, 300, "250.range")]),
        "orders with a byte between are two": ([(11, 12, 0), (7, 10, 1)], [(7, 10, "7.range"), (11, 12, "11.piece")]),
        "behind an order without an end all is one":
            ([(10, None, 0), (20, 30, 1), (5, 9, 0)], [(5, 9, "5.piece"), (10, None, "10.piece")]),
        "where nothing is ordered there is no stretch": ([], []),
    }  # fmt: skip
    kept = here.db
    for name, (orders, wanted) in trials.items():
        here.db = here.root / "stretches.db"
        shutil.copy(kept, here.db)
        with contextlib.closing(sqlite3.connect(here.db)) as connection, connection:
            connection.execute("DELETE FROM orders")
            connection.executemany(order, [(number, *one) for number, one in enumerate(orders, 1)])
        t.equal(name, [(row[1], row[2], row[4]) for row in here.orders()], wanted)
    here.db = kept


def try_growing(t: Trial, here: Folder) -> None:
    """What comes to a recording, and what goes; blocks of which one is lost; an end that is lost."""
    here.put("parts/50.range", t.w[50:336])
    front = here.root / "front"
    front.write_bytes(t.w[:108])
    t.asked("join", "--out", here.recordings / "parts/front.cat", f"at:0:{front}")
    here.rows("a range and a catalogue are gathered with the piece that was there", ("parts", 0, 0, 0, 0), WHOLE)
    (here.recordings / "parts/50.range").unlink()
    parts = ("parts", 1, 0, 1, 228)
    here.rows("what was taken away is known no longer", parts, WHOLE)
    for start, length in ((0, 120), (120, 30), (180, 84)):
        here.put(f"blocks/{start}.range", t.m[start : start + length])
    here.put("endless/0.piece", t.w[:444])
    blocks, endless = ("blocks", 1, 0, 1, 30), ("endless", 0, 0, 1, 0)
    here.rows("of blocks the lost bytes are missing, and an end that is lost is ordered", blocks, endless, parts, WHOLE)
    lacks = [("blocks", 150, 180, "footer", "150.range", None), ("endless", 444, None, "index", "444.piece", None),
             ("parts", 108, 336, "entry", "108.piece", None)]  # fmt: skip
    t.equal("what blocks lack", here.orders(), lacks)
    here.put("blocks/150.range", t.m[150:180])
    here.rows("the block that was lost is restored", ("blocks", 0, 0, 0, 0), endless, parts, WHOLE)
    t.equal("the catalogue of blocks is that of the whole", here.cat("blocks"), here.cat("whole"))
    status, rows, _ = here.verify()
    t.equal("blocks are as on the first day", (status, rows), (0, []))
    # The first day knows the packets of each block by itself: the header and the random index pack.
    t.equal("blocks: what is kept of it", here.kept("blocks"), (2, 2, 156, 156, 0, 0, 108))
    t.equal("blocks: what the first day doesn't know", here.differs("blocks"), [("unknown", 108, 216)])
    others = [(444, 4), (258, 3), (264, 3)]
    kept = [here.kept(name)[1:4:2] for name in ("endless", "parts", "whole")]
    t.equal("all others are as on the first day", kept, [(packets, size) for size, packets in others])
    for name in ("blocks", "endless"):
        shutil.rmtree(here.recordings / name)
    t.archive("remove", here.db, "blocks", "endless")


def try_damage(t: Trial, here: Folder) -> None:
    """A damaged piece, a damaged catalogue beside a good piece, and a piece that can't be read: the others go on."""
    here.put("damaged/0.piece", t.m[:108] + b"\0" + t.m[109:])
    here.put("fault/0.piece", t.m[:108])
    here.put("fault/known.cat", here.cat("whole")[:100])
    (here.recordings / "unread/0.piece").mkdir(parents=True)
    damaged, parts = ("damaged", 1, 1, 1, 1), ("parts", 1, 0, 1, 228)
    ended = here.scan()
    t.equal(
        "what is damaged stands as damaged, and faults stop no other recording", here.sql(ROW), [damaged, parts, WHOLE]
    )
    t.equal("a scan with faults has status 1", ended.status, 1)
    said = ended.err.splitlines()
    t.verdict(
        "a damaged catalogue is said with its recording",
        any(line.startswith("mxf_archive: fault: join ended with status 4: catalogue fault: ") for line in said),
        ended.err,
    )
    t.verdict(
        "a piece that can't be read is said with its recording",
        any(line.startswith("mxf_archive: unread: join ended with status 3: read fault: ") for line in said),
        ended.err,
    )
    t.equal("which piece is damaged, and where", here.sql("SELECT recording, what, place FROM damaged WHERE path IS NOT NULL"),
            [("damaged", "not-ul", 108)])  # fmt: skip
    t.verdict("with a damaged catalogue there is a first day", (here.catalogues / "first/fault.cat").exists())
    here.put("fault/known.cat", here.cat("whole"))
    here.scan()
    t.equal("it is tried again by the next scan", here.sql(ROW)[1], ("fault", 0, 0, 0, 0))


def try_damaged_whole(t: Trial) -> None:
    """Where the key of a packet of a whole file is lost, the file is read on behind it: what is ordered goes up to the footer
    partition at 29184, which the header names."""
    here = Folder(t, "hit")
    here.put("hit.mxf", t.long[:18944] + bytes(36) + t.long[18980:])
    here.scan()
    t.equal("a whole file that is damaged is read on behind", here.sql(ROW), [("hit", 1, 1, 1, 0)])
    t.equal("its end is known", here.sql('SELECT "end" FROM states'), [(30265,)])
    t.equal("what is ordered of it", here.orders(), [("hit", 18944, 29184, "gap", "18944.piece", "again")])
    here.put("hit/18944.piece", t.long[18944:29184])
    here.scan()
    t.equal("beside what was restored nothing is ordered", here.sql(ROW), [("hit", 0, 1, 0, 0)])
    t.equal("its files are known again", here.scan().out, "1 recording: 0 gathered, 1 as they were, 0 failed, 0 gone\n")


def try_pages(t: Trial, here: Folder) -> None:
    """Pages of recordings that are damaged, can't be read any more, or are gone."""
    pages = here.root / "pages"
    ended = t.archive("pages", here.db, pages)
    names = sorted(path.name for path in pages.iterdir())
    t.equal(
        "faults stop no page",
        (ended.status, names),
        (0, ["damaged.html", "fault.html", "index.html", "parts.html", "whole.html"]),
    )
    t.equal(
        "what the page of all says of them",
        said_in(pages),
        {"damaged": "Damaged", "fault": "Whole", "parts": "Parts are missing", "whole": "Whole"},
    )
    here.put("fault/known.cat", here.cat("whole")[:100])
    here.scan()
    t.archive("pages", here.db, pages)
    t.equal("and of one that can't be read any more", said_in(pages)["fault"], "Can't be read")
    for name in ("fault", "unread"):
        shutil.rmtree(here.recordings / name)
    ended = here.scan()
    t.archive("pages", here.db, pages)
    t.equal("and of one that is gone", said_in(pages)["fault"], "Gone")
    t.equal(
        "recordings that are gone are told by name",
        [line for line in ended.out.splitlines() if "gone:" in line],
        ["gone: fault", "gone: unread"],
    )


def try_gone(t: Trial, here: Folder) -> None:
    """Recordings that are gone are told until they are removed."""
    t.equal("the scan says that they are gone each time", here.scan().out.count("gone: "), 2)
    lacks = [("damaged", 108, None, "footer", "108.piece", None), ("parts", 108, 336, "entry", "108.piece", None)]
    t.equal("what recordings lack that are gone is listed no more", here.orders(), lacks)
    t.equal("they stay in the database", [row[0] for row in here.sql(ROW)], ["damaged", "fault", "parts", "whole"])
    ended = t.archive("remove", here.db, "fault", "unread")
    t.equal(
        "until they are removed", (ended.status, [row[0] for row in here.sql(ROW)]), (0, ["damaged", "parts", "whole"])
    )
    t.verdict("with their catalogues", not list(here.catalogues.glob("**/fault*")))
    t.equal(
        "then they are told no more", here.scan().out, "3 recordings: 0 gathered, 3 as they were, 0 failed, 0 gone\n"
    )


def try_failures(t: Trial, here: Folder) -> None:
    """A call of the program fails, as if memory ran out, or the machine is lost: the next scan makes up for it."""
    piece = here.recordings / "damaged/0.piece"
    rows = here.sql(ROW)
    for words in STEPS:
        touch(piece)
        states = here.sql("SELECT count(*) FROM history WHERE recording = 'damaged'")
        ended = here.scan(tool=t.stand_in(words, "exit 5"))
        said = ended.err.startswith("mxf_archive: damaged: ")
        t.equal(f"a scan fails with {words}, and names the recording", (ended.status, said), (1, True))
        t.equal(
            f"no state is kept: {words}", here.sql("SELECT count(*) FROM history WHERE recording = 'damaged'"), states
        )
        t.equal(f"the next scan makes up for {words}", (here.scan().status, here.sql(ROW)), (0, rows))
    for words in STEPS:
        touch(piece)
        ended = here.scan(tool=t.stand_in(words, KILL), start_new_session=True)
        t.equal(f"a kill at {words}", ended.status, -9)
        t.equal(f"what a kill at {words} left is made up for", here.scan().status, 0)
        t.equal(f"the rows after a kill at {words}", here.sql(ROW), rows)
    left = [path.name for path in here.catalogues.iterdir() if path.name.startswith(".") and path.name != ".lock"]
    t.equal("kills leave nothing beside the catalogues", left, [])


def try_first_day_killed(t: Trial) -> None:
    """A kill while the first day is made, or as it is renamed, loses none."""
    here = Folder(t, "killed")
    here.put("blocks/0.range", t.m[:120])
    here.put("blocks/120.range", t.m[120:])
    ended = here.scan(tool=t.stand_in("join --out", KILL), start_new_session=True)
    t.equal("a kill at the first day", ended.status, -9)
    t.equal("is made up for", (here.scan().status, (here.catalogues / "first/blocks.cat").exists()), (0, True))
    first = here.cat("first/blocks")
    (here.recordings / "blocks").rename(here.recordings / "renamed")
    ended = here.scan(tool=t.stand_in("find --json", KILL), start_new_session=True)
    t.equal("a kill as a recording that was renamed is looked for", ended.status, -9)
    ended = here.scan()
    t.verdict("it is told by the next scan", "renamed is blocks\n" in ended.out, ended.out)
    t.equal("and keeps its first day", here.cat("first/renamed"), first)
    former = here.put("former/0.piece", t.m)
    (here.catalogues / "first/former.cat").write_bytes(first)
    here.scan()
    t.equal(
        "a first day that was there before the first scan stays",
        (former.exists(), here.cat("first/former")),
        (True, first),
    )


def try_side_by_side(t: Trial, here: Folder) -> None:
    """Two scans at once, what comes while a recording is joined, and two gatherings within a second."""
    rows = here.sql(ROW)
    touch(here.recordings / "damaged/0.piece")
    words = [t.top / "report/mxf_archive", "scan", here.db, here.recordings]
    environment = {**os.environ, "MXF_TOOL": t.tool}
    scans = [
        subprocess.Popen(list(map(str, words)), env=environment, stdout=subprocess.PIPE, stderr=subprocess.PIPE)
        for _ in range(2)
    ]
    said = b"".join(one.communicate()[0] for one in scans)
    t.equal("two scans side by side", [one.returncode for one in scans], [0, 0])
    t.equal("what two scans leave", (here.sql(ROW), said.count(b"replaced damaged")), (rows, 1))
    t.equal("two scans leave nothing to gather", here.scan().out.split(": ")[1].split(",")[0], "0 gathered")
    # The packet at 108 comes while the join reads the sources that it was told of.
    late = here.root / "late"
    late.write_bytes(t.w[108:216])
    comes = (
        f"list=$(cat); sleep 0.1; cp '{late}' '{here.recordings}/parts/108.piece'; exec '{t.tool}' \"$@\" <<<\"$list\""
    )
    touch(here.recordings / "parts/336.piece")
    here.scan(tool=t.stand_in("join --strict", comes))
    t.equal("what comes during a join is in no row yet", here.sql(ROW), rows)
    here.rows("what came during a join is gathered by the next scan", rows[0], ("parts", 1, 0, 1, 120), rows[2])
    (here.recordings / "parts/108.piece").unlink()
    here.scan()
    counts = here.sql("SELECT gathered, missing FROM history WHERE recording = 'parts' ORDER BY number DESC LIMIT 2")
    t.equal("two gatherings within a second are both kept", [missing for _, missing in counts], [228, 120])
    here.put("parts/known.cat", here.cat("whole")[:100])
    ended = here.scan()
    t.equal("a recording that can't be joined any more stays as it was", (ended.status, here.sql(ROW)), (1, rows))
    (here.recordings / "parts/known.cat").unlink()
    t.equal("it is joined again by the next scan", (here.scan().status, here.sql(ROW)), (0, rows))


def is_running(pid: str) -> bool:
    """Whether a process runs. One that has ended may wait for its parent to ask for its status."""
    try:
        return ") Z " not in pathlib.Path(f"/proc/{pid}/stat").read_text()
    except OSError:
        return False


def try_signals(t: Trial) -> None:
    """A signal ends a scan and its calls, and nothing is left."""
    here = Folder(t, "signals")
    for name in ("one", "two"):
        here.put(f"{name}.mxf", t.m)
    for words in ("join --strict", "plan --json"):
        pids = here.root / "pids"
        pids.write_text("")
        program = t.stand_in(words, f"echo $$ >>'{pids}'; exec sleep 600")
        call = [str(t.top / "report/mxf_archive"), "scan", str(here.db), str(here.recordings), "--jobs", "2"]
        scan = subprocess.Popen(
            call, env={**os.environ, "MXF_TOOL": program}, stdout=subprocess.PIPE, stderr=subprocess.PIPE
        )
        while len(pids.read_text().split()) < 2 and scan.poll() is None:
            time.sleep(0.01)
        scan.send_signal(signal.SIGTERM)
        said = scan.communicate()
        t.verdict(f"SIGTERM ends a scan at {words}", scan.returncode == 128 + signal.SIGTERM, scan.returncode, *said)
        left = [pid for pid in pids.read_text().split() if is_running(pid)]
        t.equal(f"its calls end too: {words}", left, [])
        t.equal(f"and nothing is left: {words}", [path.name for path in here.catalogues.glob(".begun*")], [])
    t.equal("the next scan gathers both", here.scan().out.count("added "), 2)


def try_kills(t: Trial) -> None:
    """Kills at any time leave each recording as it was or as it is to be, and the next scan makes up for the rest."""
    here = Folder(t, "kills")
    files = [here.put(path, data) for path, data in (("flat.mxf", t.intra), ("ranges/0.range", t.long[:9000]),
             ("ranges/20000.range", t.long[20000:]), ("damaged/0.piece", t.m[:108] + b"garbage"))]  # fmt: skip
    control = here.root / "control.db"
    t.archive("scan", control, here.recordings)
    call = [str(t.top / "report/mxf_archive"), "scan", str(here.db), str(here.recordings)]
    said: set[tuple[int, str]] = set()
    for number in range(15):
        for file in files:
            touch(file)
        environment = {**os.environ, "MXF_TOOL": t.tool}
        scan = subprocess.Popen(call, env=environment, start_new_session=True, stdout=subprocess.DEVNULL)
        time.sleep(0.1 * number)
        with contextlib.suppress(ProcessLookupError):
            os.killpg(scan.pid, signal.SIGKILL)
        scan.wait()
        # Until the first transaction ends, the file has no tables.
        if here.db.exists() and here.sql("PRAGMA user_version") != [(0,)]:
            ended = t.archive("list", here.db)
            said.update([(ended.status, ended.err)])
    t.verdict("after each of 15 kills the database is sound", said <= {(0, "")}, said)
    t.equal("a scan after 15 kills", here.scan().status, 0)
    with contextlib.closing(sqlite3.connect(control)) as connection:
        t.equal("has what a scan without them has", here.sql(ROW), connection.execute(ROW).fetchall())
    for path in sorted(here.catalogues.rglob("*.cat")):
        other = here.root / "control.db.catalogues" / path.relative_to(here.catalogues)
        t.equal(f"and its catalogues: {path.relative_to(here.catalogues)}", path.read_bytes(), other.read_bytes())
    t.equal("and nothing is left", [path.name for path in here.catalogues.glob(".begun*")], [])


def try_terminal(t: Trial) -> None:
    """How far a scan is stands on a terminal alone."""
    here = Folder(t, "terminal")
    here.put("one.mxf", t.m)
    t.equal("elsewhere nothing is told", here.scan().err, "")
    touch(here.recordings / "one.mxf")
    master, terminal = os.openpty()
    call = [str(t.top / "report/mxf_archive"), "scan", str(here.db), str(here.recordings)]
    subprocess.run(
        call, env={**os.environ, "MXF_TOOL": t.tool}, stdout=subprocess.DEVNULL, stderr=terminal, check=False
    )
    os.close(terminal)
    t.verdict("on a terminal it is told how far a scan is", b"1 of 1 recordings" in os.read(master, 1000))
    os.close(master)


def try_full_disk(t: Trial, here: Folder) -> None:
    """A full disk leaves the database as it was: files may have 2,000 bytes."""
    touch(here.recordings / "damaged/0.piece")
    states = here.sql("SELECT recording, number FROM states")
    ended = here.scan(before=lambda: resource.setrlimit(resource.RLIMIT_FSIZE, (2000, 2000)))
    t.equal("a full disk is a write fault", (ended.status, "write fault: " in ended.err), (73, True))
    t.equal("and leaves the database", here.sql("SELECT recording, number FROM states"), states)
    t.equal("with room again it is gathered", "replaced damaged" in here.scan().out, True)
