"""The words of the command, and its run."""
from __future__ import annotations

import argparse
import os
import pathlib
import re

from mxf.faults import NO_PROGRAM, OUTPUT, USAGE, OwnFault
from mxf.files import check_place, write_whole
from mxf.report.asked import Words
from mxf.report.asking import Asking, is_skim
from mxf.running import end_by_signals, printed_by, status_of
from mxf.sources import Sources, check_read_often, sources_of
from mxf.summary.named import source_words
from mxf.summary.printing import print_comparison, print_summary
from mxf.timecodes import is_timecode


def digits(text: str) -> str:
    """A number of digits alone."""
    if not re.fullmatch(r"[0-9]+", text):
        raise argparse.ArgumentTypeError("a number has digits alone")
    return text


def edit_unit(text: str) -> str:
    """A number of digits alone, or a timecode."""
    if not re.fullmatch(r"[0-9]+", text) and not is_timecode(text):
        raise argparse.ArgumentTypeError("an edit unit is a number of digits alone, or a timecode HH:MM:SS:FF")
    return text


DESCRIPTION = (
    "Says what a recording is, how much of it is held, and what to restore next, by what mxf_tool says: in some lines, or "
    "with --out as a page to look at."
)

EPILOG = (
    "A source SRC is at:OFFSET:PATH, range:OFFSET:PATH, slice:OFFSET:LENGTH:PATH or cat:PATH, as of mxf_tool, or the path "
    "of a file: cat:PATH of a catalogue, range:0:PATH of any other. "
    "MXF_TOOL names another program."
)


def parser() -> argparse.ArgumentParser:
    """The words that are understood."""
    words = argparse.ArgumentParser(prog="mxf_report", allow_abbrev=False, description=DESCRIPTION, epilog=EPILOG)
    words.add_argument("--out", dest="page", metavar="PAGE", help="a page, which is written whole or not at all")
    words.add_argument("--json", action="store_true", help="print the lines as a JSON object")
    words.add_argument(
        "--compare", action="store_true", help="print what differs between two sources, whose essence is read"
    )
    words.add_argument("--title", metavar="TEXT", help="its heading; else the name of the first source")
    words.add_argument("--index", metavar="N", type=digits, help="the index of the edit units; else all, four at most")
    words.add_argument("--from", dest="first", metavar="N", type=edit_unit, help="the first edit unit, or its timecode")
    words.add_argument("--to", dest="last", metavar="N", type=edit_unit, help="the last edit unit, or its timecode")
    words.add_argument(
        "--against", metavar="SOURCE", action="append", default=[], help="what the sources are compared with"
    )
    essence = words.add_mutually_exclusive_group()
    essence.add_argument("--read", action="store_true", help="read essence too; without it --against alone does")
    essence.add_argument("--skim", action="store_true", help="pass over essence, which the page then says; the default")
    words.add_argument("--sources", metavar="FILE", help="a list of sources, one a line; - is standard input")
    words.add_argument("--archive", metavar="DB", help="a page of many recordings, of a database of mxf_archive")
    words.add_argument("source", metavar="SRC", nargs="*", help="a source")
    return words


def is_replaceable(path: pathlib.Path) -> bool:
    """Whether a page may take the place of what is there: nothing, an empty file or a page."""
    if not path.exists():
        return True
    if not path.is_file():
        return False
    with open(path, "rb") as file:
        return file.read(15).upper() in (b"", b"<!DOCTYPE HTML>")


def named_sources(words: Words) -> Sources:
    """The sources that the words name."""
    return sources_of(source_words(words.source), words.sources)


def print_report(words: Words) -> int:
    """Prints the summary of the recording; the status."""
    sources = named_sources(words)
    if words.compare:
        first, second = (Sources([word]) for word in sources.each())
        return print_comparison(
            Asking(first, is_skim(words, first)), Asking(second, is_skim(words, second)), words.json
        )
    return print_summary(Asking(sources, is_skim(words, sources)), words.json)


def page_of(words: Words) -> str:
    """The page that is asked for. Its parts are looked for now, for they need jinja2, and those of a database SQLite too."""
    try:
        if words.archive is not None:
            from mxf.report.database_page import page_of_database

            return page_of_database(words.archive, words)
        from mxf.report.recording_page import page_of_recording
    except ImportError as fault:
        raise OwnFault(NO_PROGRAM, f"a page needs jinja2 of Python (python3-jinja2 of Debian): {fault.msg}") from fault
    sources = named_sources(words)
    check_read_often(words.against)
    return page_of_recording(Asking(sources, is_skim(words, sources)), words)


def write_report(words: Words) -> int:
    """Makes the page and writes it; the status."""
    path = pathlib.Path(os.path.realpath(words.out))
    try:
        if not is_replaceable(path):
            raise OwnFault(USAGE, f"bad output: {words.out}: it is there, and is no page")
        check_place(path)
        write_whole(path, page_of(words).encode("utf-8", "replace"))
    except OSError as fault:
        raise OwnFault(OUTPUT, f"write fault: {words.out}: {fault.strerror}") from fault
    return 0


def check_words(accepted: argparse.ArgumentParser, words: Words) -> None:
    """Sees that sources are named, or a database of many recordings and nothing that a page of these doesn't take."""
    is_of_many = words.archive is not None
    if not is_of_many and not words.source and words.sources is None:
        accepted.error("no source is named")
    others = (words.sources, words.index, words.first, words.last)
    if words.page is None and (is_of_many or words.against or words.title or any(other for other in others[1:])):
        accepted.error("--archive, --against, --title, --index, --from and --to are of a page: name it by --out")
    if words.compare and (words.page is not None or words.sources is not None or len(words.source) != 2):
        accepted.error("--compare takes two sources, and no --out and no --sources")
    if words.page is not None and words.json:
        accepted.error("--json prints what a page says, so it takes no --out")
    if is_of_many and (words.source or words.against or any(other is not None for other in others)):
        accepted.error("--archive takes no sources and no edit units")
    if is_of_many and (words.read or words.skim):
        accepted.error("--archive reads no recording, so it takes no --read and no --skim")


def main() -> int:
    """Runs the program, and answers its status."""
    accepted = parser()
    words = Words()
    accepted.parse_intermixed_args(namespace=words)
    check_words(accepted, words)
    end_by_signals()
    if words.page is None:
        return printed_by(lambda: print_report(words))
    words.out = words.page
    return status_of(lambda: write_report(words))
