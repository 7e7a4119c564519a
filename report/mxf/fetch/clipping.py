"""A minute of a recording as a file that plays, made by ffmpeg."""
from __future__ import annotations

import contextlib
import hashlib
import os
import shutil
import subprocess
import sys
from collections.abc import Iterator
from fractions import Fraction
from pathlib import Path

from mxf.faults import NO_PROGRAM, OUTPUT, USAGE, OwnFault
from mxf.fetch import looking
from mxf.fetch.calls import Call, tell_minute
from mxf.fetch.cuts import Cut, cut_of
from mxf.fetch.forms import end_of
from mxf.fetch.minutes import get_units
from mxf.fetch.sparse import layout_of, write_sparse
from mxf.fetch.spans import Span
from mxf.lines import Line

PLAYER = "ffmpeg"

# ffmpeg looks for the key frame so many seconds ahead of the place that is named, if pictures are stored in another order
# than they are shown in.
AHEAD = Fraction(3, 23)
MORE = 8  # units by which the times of pictures and of sounds that are stored together may differ


def clip(call: Call) -> int:
    """Gets the edit units, and cuts them out of what came, into a file that is written whole or not at all."""
    words = call.words
    path = Path(words.out or words.sparse or "")
    if words.out is not None and shutil.which(PLAYER) is None:
        raise OwnFault(NO_PROGRAM, f"clip needs {PLAYER}, and there is none on the PATH")
    check_free(path, words.force)
    with beside(path) as part:
        looking.look(call.getting, call.asking)
        minute = get_units(call.getting, call.asking, call.asked())
        tell_minute(call, minute)
        if minute.status != 0 or minute.counted is None:
            return minute.status or 1
        cut = cut_of(call.asking, call.asked(), minute.counted)
        make(call, cut, part)
        check_free(path, words.force)
        os.replace(part, path)
    print(f"clipped {path} from {begin_text(call, cut)} to {unit_text(words.last)}")
    return 0


def check_free(path: Path, may_replace: bool) -> None:
    """Sees that no file is replaced that may not be."""
    if path.exists() and not may_replace:
        raise OwnFault(USAGE, f"bad output: {path}: it is there, and --force isn't given")


@contextlib.contextmanager
def beside(path: Path) -> Iterator[Path]:
    """The file beside another that is written first, which is made before anything is got. Its name ends as the other's."""
    part = path.with_name(f".{path.stem[:180]}.{os.getpid()}.part{path.suffix}")
    try:
        try:
            part.touch(exist_ok=False)
            yield part
        finally:
            part.unlink(missing_ok=True)
    except OSError as fault:
        raise OwnFault(OUTPUT, f"write fault: {path}: {fault.strerror}") from fault


def make(call: Call, cut: Cut, part: Path) -> None:
    """Makes the file."""
    shown = call.asking.lines("show")
    size = call.getting.size or max(span.end for span in call.getting.folder.held())
    if call.words.sparse is not None:
        write_sparse(part, call.getting.folder, layout_of(shown, cut.units), size)
        secure(part)
        return
    sparse = call.getting.folder.path / "sparse.part"
    try:
        write_sparse(sparse, call.getting.folder, layout_of(shown, cut.units), size)
        has_pictures = any(line["line"] == "picture" for line in call.asking.lines("describe"))
        packets = run_player(player_words(call, cut, sparse, part, has_pictures))
        if has_pictures:
            check_packets(call, cut, packets, first_values(sparse, shown, cut.key))
    finally:
        sparse.unlink(missing_ok=True)
    secure(part)


def secure(path: Path) -> None:
    """Brings a file to the disk."""
    with open(path, "rb") as file:
        os.fsync(file.fileno())


def begin_text(call: Call, cut: Cut) -> str:
    """What the file begins with: a timecode, or the number of a unit."""
    return unit_text(call.words.first) if call.words.exact else cut.first


def unit_text(word: str | None) -> str:
    """A timecode, or the number of a unit, as people read it."""
    return word if word and ":" in word else f"unit {word}"


def player_words(call: Call, cut: Cut, sparse: Path, part: Path, has_pictures: bool) -> list[str]:
    """The call of ffmpeg. Beside the file it prints the digest of each picture as it is stored in that."""
    # A quarter of a unit at a border, so that no rounding takes one more or leaves one out.
    begin, length = cut.asked, cut.wanted * cut.tick - cut.unit / 4
    how = ["-c", "copy", "-avoid_negative_ts", "make_zero"]
    if has_pictures and call.words.exact:
        begin, length = cut.asked - cut.tick / 4, cut.wanted * cut.tick
        how = ["-q:v", "2", "-c:a", "copy", "-copypriorss:a", "0"]
    elif has_pictures:
        ahead = AHEAD if cut.keyed * cut.unit > AHEAD + 2 * cut.unit else Fraction(0)
        # Behind the last unit nothing is found, so the length bounds only how far ffmpeg looks.
        begin, length = cut.begin + ahead + cut.unit / 4, (cut.count + MORE) * cut.unit
    bounds = ["-t", seconds(length)]
    timed = ["-timecode", begin_text(call, cut)] if cut.is_timed else []
    given = [PLAYER, "-nostdin", "-v", "fatal", "-ss", seconds(begin), "-i", f"file:{sparse}"]
    made = ["-map", "0:v?", "-map", "0:a?", *bounds, *how, *timed, "-y", f"file:{part}"]
    told = ["-map", "0:v:0", *bounds, *how[:2], "-f", "framemd5", "pipe:1"] if has_pictures else []
    return [*given, *made, *told]


def seconds(time: Fraction) -> str:
    """A time as ffmpeg takes it. None is ahead of the recording."""
    return f"{float(max(time, Fraction(0))):.6f}"


def run_player(words: list[str]) -> list[tuple[str, str]]:
    """Runs ffmpeg, and answers the size and the digest of each picture that it says."""
    process = subprocess.Popen(words, stdin=subprocess.DEVNULL, stdout=subprocess.PIPE, text=True, errors="replace")
    try:
        printed, _ = process.communicate()
    except BaseException:
        process.terminate()
        process.wait()
        raise
    if process.returncode != 0:
        raise OwnFault(OUTPUT, f"write fault: {words[-1]}: {PLAYER} ended with status {process.returncode}")
    rows = [line.split(",") for line in printed.splitlines() if line and not line.startswith("#")]
    return [(row[4].strip(), row[5].strip()) for row in rows if len(row) > 5]


def first_values(sparse: Path, shown: list[Line], key: Span) -> set[str]:
    """The digests of what a player may take for the picture of the first unit: the unit, or the value of a packet in it."""
    spans = [key]
    for line in shown:
        if line["line"] == "note" and key.start <= line["offset"] < key.end:
            spans.append(Span(end_of(line) - line["length"], end_of(line)))
    digests = set()
    with open(sparse, "rb") as file:
        for span in spans:
            file.seek(span.start)
            digests.add(hashlib.md5(file.read(span.length), usedforsecurity=False).hexdigest())
    return digests


def check_packets(call: Call, cut: Cut, packets: list[tuple[str, str]], firsts: set[str]) -> None:
    """Sees that ffmpeg has found all pictures that are wanted, and begun with the one that is meant."""
    wanted = cut.wanted if call.words.exact else cut.count
    told = ""
    if len(packets) < wanted:
        told = f"{PLAYER} finds {len(packets)} of {wanted} pictures in what came"
    elif not call.words.exact and packets[0][1] not in firsts:
        told = f"{PLAYER} begins with another picture than that of {cut.first}"
    if told:
        sys.stdout.flush()
        raise OwnFault(1, f"no clip: {told}; --sparse leaves what came")
