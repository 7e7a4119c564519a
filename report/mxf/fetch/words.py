"""The words of a call of mxf_fetch."""
from __future__ import annotations

import argparse
import re
from collections.abc import Callable
from pathlib import Path

DESCRIPTION = "Gets of a recording that lies elsewhere what mxf_tool orders, in ranges of bytes."

EPILOG = """WHERE is a URL of http or https; or cmd:COMMAND, which is called with the first byte and the end (- if all from
there on is wanted) and prints these bytes; or the path of a file. A source SRC, as of mxf_tool, is something of the recording
that is there already. MXF_TOOL names another program. mxf_fetch COMMAND --help tells the words of a command."""

GIBI, MEBI = 1 << 30, 1 << 20
MOST_LOOKED = 10 * MEBI  # bytes that look gets
REQUESTS = 4  # side by side
TIMEOUT = 30  # seconds
TIMECODE = re.compile(r"\d{2}:\d{2}:\d{2}[:;]\d{2,5}", re.ASCII)
HEADER = re.compile(r"([!#$%&'*+.^_`|~0-9A-Za-z-]+):[ \t]*([\x20-\x7e\xa0-\xff]*)")
SOURCE = re.compile(r"(at:[0-9]+|range:[0-9]+|slice:[0-9]+:[0-9]+|cat):.+")


class Words(argparse.Namespace):
    """The words of a call."""

    command: str
    where: str
    into: str | None
    most: int
    jobs: int
    timeout: float
    header: list[dict[str, str]]
    source: list[str]
    first: str | None
    last: str | None
    index: str | None
    out: str | None
    sparse: str | None
    exact: bool
    force: bool

    @property
    def headers(self) -> dict[str, str]:
        """The headers of all options together."""
        return together(self.header)


def together(headers: list[dict[str, str]]) -> dict[str, str]:
    """The headers of several options."""
    return {name: value for some in headers for name, value in some.items()}


def number_of(least: int, most: int) -> Callable[[str], int]:
    """What reads a number of digits alone within bounds."""

    def number(text: str) -> int:
        if not re.fullmatch(r"[0-9]{1,19}", text) or not least <= int(text) <= most:
            raise argparse.ArgumentTypeError(f"a number from {least} to {most}, of digits alone")
        return int(text)

    return number


def digits(text: str) -> str:
    """A number of digits alone."""
    if not re.fullmatch(r"[0-9]+", text):
        raise argparse.ArgumentTypeError("a number has digits alone")
    return text


def edit_unit(text: str) -> str:
    """A number of digits alone, or a timecode."""
    if not re.fullmatch(r"[0-9]+", text) and not TIMECODE.fullmatch(text):
        raise argparse.ArgumentTypeError("an edit unit is a number of digits alone, or a timecode HH:MM:SS:FF")
    return text


def source(text: str) -> str:
    """A source of mxf_tool."""
    if not SOURCE.fullmatch(text):
        raise argparse.ArgumentTypeError(
            "a source is at:OFFSET:PATH, range:OFFSET:PATH, slice:OFFSET:LENGTH:PATH or cat:PATH"
        )
    return text


def header(text: str) -> dict[str, str]:
    """A header, or those of a file behind @, a line each. What is wrong with one is said without its value."""
    try:
        lines = Path(text[1:]).read_text("latin-1").splitlines() if text.startswith("@") else [text]
    except OSError as fault:
        raise argparse.ArgumentTypeError(f"{text[1:]}: {fault.strerror}") from fault
    found = [HEADER.fullmatch(line.rstrip()) for line in lines if line.strip()]
    if not all(found):
        raise argparse.ArgumentTypeError("a header is NAME: VALUE, of letters that HTTP takes")
    return {one[1]: one[2] for one in found if one}


def add_place(command: argparse.ArgumentParser, most: int) -> None:
    """The words that each command has."""
    command.add_argument("where", metavar="WHERE", help="a URL, cmd:COMMAND or a path")
    command.add_argument("--into", metavar="FOLDER", help="keeps the ranges, and begins with those that it has")
    said = f"requests side by side, {REQUESTS} without it"
    command.add_argument("--jobs", metavar="N", type=number_of(1, 64), default=REQUESTS, help=said)
    said = f"the most that the call may get, {most} without it"
    add_requests(command, said)
    command.set_defaults(most=most, timeout=TIMEOUT)


def add_requests(command: argparse.ArgumentParser, bounded: str) -> None:
    """The options of each request, and of how much may be got, which is said so. What isn't named is None."""
    command.add_argument("--most", metavar="BYTES", type=number_of(0, 2**63 - 1), help=bounded)
    said = f"the seconds in which something has to come, {TIMEOUT} without it"
    command.add_argument("--timeout", metavar="N", type=number_of(1, 3600), help=said)
    said = "a header of each request, for the host of WHERE alone; @FILE names a file of them"
    command.add_argument("--header", metavar="HEADER", type=header, action="append", default=[], help=said)


def add_units(command: argparse.ArgumentParser) -> None:
    """The options that name edit units."""
    command.add_argument(
        "--from", dest="first", metavar="A", type=edit_unit, required=True, help="a number or a timecode"
    )
    command.add_argument("--to", dest="last", metavar="B", type=edit_unit, required=True, help="the last one likewise")
    command.add_argument("--index", metavar="N", type=digits, help="the index of the units; else the one with a clock")


def add_sources(command: argparse.ArgumentParser) -> None:
    """The words that name sources."""
    said = "what is there of the recording already"
    command.add_argument("source", metavar="SRC", nargs="*", type=source, default=[], help=said)


def of_look(command: argparse.ArgumentParser) -> None:
    """The words of look."""
    add_place(command, MOST_LOOKED)
    add_sources(command)


def of_units(command: argparse.ArgumentParser) -> None:
    """The words of units."""
    add_place(command, GIBI)
    add_units(command)
    add_sources(command)


def of_clip(command: argparse.ArgumentParser) -> None:
    """The words of clip."""
    add_place(command, GIBI)
    add_units(command)
    what = command.add_mutually_exclusive_group(required=True)
    what.add_argument("--out", metavar="FILE", help="the file that plays, in the form that its ending says")
    what.add_argument(
        "--sparse", metavar="FILE", help="leaves what came at its offsets in a sparse file, in place of that"
    )
    said = "encode anew, and begin with A itself; else it begins with the key frame at A or before it"
    command.add_argument("--exact", action="store_true", help=said)
    command.add_argument("--force", action="store_true", help="replace a file that is there")


def of_whole(command: argparse.ArgumentParser) -> None:
    """The words of whole."""
    add_place(command, GIBI)


# The commands, what each does, and what adds its words.
COMMANDS: dict[str, tuple[str, Callable[[argparse.ArgumentParser], None]]] = {
    "look": ("get what says what the recording is, and print that", of_look),
    "units": ("get what lies between two timecodes or unit numbers", of_units),
    "clip": ("the same, as a file that plays, by ffmpeg", of_clip),
    "whole": ("get all that isn't there", of_whole),
}


def read_words(given: list[str]) -> Words:
    """The words of a call. Words that aren't understood end the program."""
    program = argparse.ArgumentParser(prog="mxf_fetch", allow_abbrev=False, description=DESCRIPTION, epilog=EPILOG)
    commands = program.add_subparsers(metavar="COMMAND", dest="command", required=True)
    each: dict[str, argparse.ArgumentParser] = {}
    for name, (said, add_words) in COMMANDS.items():
        described = f"{said[0].upper()}{said[1:]}."
        each[name] = commands.add_parser(name, help=said, description=described, allow_abbrev=False)
        add_words(each[name])
    words = Words()
    if given and given[0] in each:
        words.command = given[0]
        each[given[0]].parse_intermixed_args(given[1:], words)
    else:
        program.parse_args(given, words)
    words.source = getattr(words, "source", [])
    if words.command == "whole" and words.into is None:
        each["whole"].error("the following arguments are required: --into")
    return words
