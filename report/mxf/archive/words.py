"""The words of a call: the commands, the words behind each, its options, and the help that tells them."""
from __future__ import annotations

import argparse
import os
from collections.abc import Callable, Sequence
from typing import Any, NoReturn

from mxf.fetch.words import MOST_LOOKED, REQUESTS, add_requests


class Words(argparse.Namespace):
    """The words of a call: those of its command are there."""

    command: str
    database: str
    name: str  # none of a list
    source: list[str]
    sources: str | None
    catalogue: str | None
    skim: bool
    listed: str | None
    where: str | None
    kept: str | None
    most: int | None
    timeout: int | None
    header: list[dict[str, str]]
    jobs: int
    what: str
    days: int | None
    form: str
    word: list[str]
    by: str
    merge: int
    against: list[str]
    file: list[str]
    folder: str
    large: int
    joined: str | None
    into: str
    part: tuple[int, int]
    drop: bool
    names: list[str]
    old: str
    new: str


DESCRIPTION = (
    "Keeps what mxf_tool says of the recordings of an archive in a database, and answers what is asked of all."
)
EPILOG = (
    "DB is the file of the database. A source SRC is at:OFFSET:PATH, range:OFFSET:PATH, slice:OFFSET:LENGTH:PATH or cat:PATH, "
    "as of mxf_tool. MXF_TOOL names another program. mxf_archive COMMAND --help tells the words of a command."
)

# Stands before a word behind --, which is no option whatever it looks like: Python's parse_intermixed_args forgets a -- ahead
# of all words that are no options. No word of a call has a zero character.
BEHIND = "\0"


Adds = Callable[[Any], object]  # what adds words to a command, or to a group of its options

LARGE = 4_000_000_000  # bytes of a recording of which slices are joined side by side


class WordFault(Exception):
    """Words that aren't understood: the usage of the command, if it is known, and what is wrong."""


class Parser(argparse.ArgumentParser):
    """A parser with the option --help alone, whose faults this program says itself, also where nobody can be told."""

    def __init__(self, prog: str, description: str, **more: Any) -> None:
        super().__init__(prog=prog, description=description, allow_abbrev=False, add_help=False, **more)
        self.add_argument("--help", action="help", help="print this")

    def error(self, message: str) -> NoReturn:
        """Refuses the words."""
        raise WordFault(f"{self.format_usage()}{self.prog}: error: {message}\n")


def number(text: str) -> int:
    """A number of digits alone, below 2^63."""
    if not (text.isascii() and text.isdigit() and len(text) <= 19) or int(text) >= 2**63:
        raise argparse.ArgumentTypeError("a number has digits alone, and is below 2^63")
    return int(text)


def number_from_1(text: str) -> int:
    """A number that isn't 0."""
    if number(text) == 0:
        raise argparse.ArgumentTypeError("a number from 1 on is wanted")
    return number(text)


def word(text: str) -> str:
    """A word that is no option."""
    return text.removeprefix(BEHIND)


def part(text: str) -> tuple[int, int]:
    """Which part is meant, of how many."""
    which, _, parts = text.partition("/")
    if not 1 <= number(which) <= number(parts):
        raise argparse.ArgumentTypeError("a part is K/N, from 1/N to N/N")
    return int(which), int(parts)


def argument(*names: str, **more: Any) -> Adds:
    """What adds an option to a command, by the words of argparse."""
    return lambda command: command.add_argument(*names, **more)


def words_for(name: str, metavar: str, said: str, **more: Any) -> Adds:
    """What adds a word that is no option, or several."""
    return argument(name, metavar=metavar, type=word, help=said, **more)


def one_of(field: str, default: str, told: dict[str, str], *others: Adds) -> Adds:
    """What adds options of which one may be there, each the value of a field and what it says; and others beside them."""
    flags = [
        argument(f"--{name}", dest=field, action="store_const", const=name, default=default, help=said)
        for name, said in told.items()
    ]

    def add(command: Any) -> None:
        """Adds them as one group."""
        group = command.add_mutually_exclusive_group()
        for each in (*flags, *others):
            each(group)

    return add


def sources(metavar: str = "SRC", said: str = "a source") -> tuple[Adds, ...]:
    """What adds the words that name sources, and the option of a list of them."""
    listed = argument("--sources", metavar="FILE", help="a list of sources, one a line; - is standard input")
    return words_for("source", metavar, said, nargs="*", default=[]), listed


def asked(*named: str) -> tuple[Adds, ...]:
    """What adds the words that say what is asked of a recording."""
    catalogue = argument("--catalogue", metavar="FILE", help="a saved catalogue of it, asked in place of its sources")
    skim = argument("--skim", action="store_true", help="pass over essence, as mxf_tool does")
    return catalogue, skim, *sources(*named)


DATABASE = words_for("database", "DB", "the file of the database")
NAME = words_for("name", "NAME", "the name of the recording")
FOLDER = words_for("folder", "FOLDER", "the folder of recordings")
FORMS = one_of("form", "table", {"csv": "print CSV", "json": "print a JSON object a line"})
JOBS = argument(
    "--jobs", metavar="N", type=number_from_1, default=os.cpu_count() or 1,
    help="how many recordings go on side by side; else as many as there are processors",
)  # fmt: skip

# The commands, what each does, and what adds its words.
COMMANDS: dict[str, tuple[str, tuple[Adds, ...]]] = {
    "add": ("put a recording into the database, or in its own place", (
        DATABASE, *asked("NAME SRC", "the name of the recording, and its sources"),
        argument("--from", dest="where", metavar="WHERE", type=word, help="where it lies, in place of sources: a URL, "
                 "cmd:COMMAND or a path, of which little is got, as mxf_fetch look does"),
        argument("--into", dest="kept", metavar="FOLDER", help="keeps what is got, and begins with what is there"),
        argument("--list", dest="listed", metavar="FILE", help="a list of recordings, each a line with its name and its "
                 "sources, and a tab before each source, or with its name, a tab and a URL or cmd:COMMAND; - is standard "
                 "input"),
        argument("--jobs", metavar="N", type=number_from_1, default=0, help="how many of a list are asked for at once (1); "
                 f"beside --from how many requests go on side by side ({REQUESTS})"),
        lambda command: add_requests(
            command, f"the most bytes that are got of a recording that lies elsewhere ({MOST_LOOKED})"),
    )),
    "list": ("print recordings", (
        DATABASE,
        one_of("what", "all", {
            "missing": "those that lack bytes", "damaged": "those that can't be read, aren't as they were, or are in doubt",
            "disputed": "those that are held in two readings", "changed": "those that aren't as on the first day",
        }, argument("--unverified-since", metavar="DAYS", dest="days", type=number,
                    help="those not verified for so many days")),
        FORMS,
    )),
    "find": ("print which recordings have words, an identifier or a timecode", (
        DATABASE, words_for("word", "WORD", "words of a name or a coding, the end of a UMID, or a timecode", nargs="+"), FORMS,
    )),
    "show": ("print all of a recording", (DATABASE, NAME, FORMS)),
    "orders": ("print what is to be restored", (
        DATABASE,
        argument("--by", choices=("name", "offset"), default="name", help="what the orders go by"),
        argument("--merge", metavar="BYTES", type=number, default=0, help="orders that lie less apart are one"),
        FORMS,
    )),
    "scan": ("put the recordings of a folder into the database, again only those that changed", (
        DATABASE, FOLDER, JOBS,
        argument("--large", metavar="BYTES", type=number, default=LARGE,
                 help=f"a file of more than so many bytes is read in slices side by side ({LARGE})"),
        argument("--joined", metavar="CATALOGUES",
                 help="a folder of catalogues that join made, which are taken in place of reading"),
    )),
    "verify": ("verify recordings, and keep what comes of it", (
        DATABASE, words_for("name", "NAME", "the name of the recording; without it all that were scanned", nargs="?"),
        argument("--against", metavar="SOURCE", action="append", default=[],
                 help="a source of the reference; there may be several; without it the first day"),
        JOBS, *sources(), FORMS,
    )),
    "accept": ("take what is there now for the first day of a recording", (
        DATABASE, NAME,
        argument("--drop", action="store_true", help="also if more essence is dropped than is there"),
    )),
    "pages": ("make a page of each recording that was scanned, and one of all", (
        DATABASE, words_for("folder", "FOLDER", "the folder of the pages"), JOBS,
    )),
    "rename": ("give a recording another name", (
        DATABASE, words_for("old", "OLD", "the name of the recording"), words_for("new", "NEW", "its new name"),
    )),
    "remove": ("take recordings out of the database", (
        DATABASE, words_for("names", "NAME", "the name of a recording", nargs="+"),
    )),
    "match": ("print of which recording fragments are, and where they lie in it", (DATABASE, *sources(), FORMS)),
    "join": ("join recordings of a folder on one of many machines, for a scan", (
        FOLDER, words_for("into", "CATALOGUES", "the folder of the catalogues"),
        argument("--part", metavar="K/N", type=part, default=(1, 1), help="the recordings of one of N parts; else all"),
        JOBS,
    )),
    "lines": ("print what add would put into the database", (NAME, *asked())),
    "load": ("put recordings into the database of which lines were printed", (
        DATABASE, words_for("file", "FILE", "a file of lines; - is standard input", nargs="+"),
    )),
}  # fmt: skip


def check_add(words: Words) -> None:
    """Takes the name of a recording, which stands before its sources. Either that is named or a list."""
    words.name, words.source = next(iter(words.source), ""), words.source[1:]
    if words.listed is None and not words.name:
        raise argparse.ArgumentTypeError("the following arguments are required: NAME")
    is_elsewhere, is_listed = words.where is not None, words.listed is not None
    are_sources = bool(words.source) or words.sources is not None or words.catalogue is not None
    is_requested = bool(words.header) or words.most is not None or words.timeout is not None
    refused = {
        "--jobs: not allowed without argument --list or --from": words.jobs and not (is_listed or is_elsewhere),
        "--list: not allowed with NAME, --from, --sources or --catalogue": is_listed
        and (words.name or is_elsewhere or are_sources),
        "--from: not allowed with SRC, --sources or --catalogue": is_elsewhere and are_sources,
        "--into: not allowed without argument --from": words.kept is not None and not is_elsewhere,
        "--header, --most, --timeout: not allowed without argument --from or --list": is_requested
        and not (is_listed or is_elsewhere),
    }
    for said, is_refused in refused.items():
        if is_refused:
            raise argparse.ArgumentTypeError(f"argument {said}")


def check_verify(words: Words) -> None:
    """Sees that there is a reference for sources that are named, and a recording for a reference."""
    if words.against and words.name is None:
        raise argparse.ArgumentTypeError("the following arguments are required: NAME")
    if not words.against and (words.source or words.sources is not None):
        raise argparse.ArgumentTypeError("the following arguments are required: --against")


# What is seen to beyond that.
CHECKS: dict[str, Callable[[Words], None]] = {"add": check_add, "verify": check_verify}


def program_parser() -> argparse.ArgumentParser:
    """What reads the first word, the name of a command."""
    program = Parser("mxf_archive", DESCRIPTION, epilog=EPILOG)
    commands = program.add_subparsers(metavar="COMMAND", required=True)
    for name, (said, _) in COMMANDS.items():
        commands.add_parser(name, help=said, description=said)
    return program


def command_parser(name: str) -> argparse.ArgumentParser:
    """What reads the other words of a command."""
    said, arguments = COMMANDS[name]
    command = Parser(f"mxf_archive {name}", f"{said[0].upper()}{said[1:]}.")
    command.set_defaults(command=name)
    for add in arguments:
        add(command)
    return command


def read_words(given: Sequence[str]) -> Words | None:
    """The fields of the words of a call; None if help is asked for, which is printed."""
    for place, text in enumerate(given, 1):
        if not is_text(text):
            program_parser().error(f"argument {place} is not UTF-8")
    end = given.index("--") if "--" in given else len(given)
    # An option -h of argparse would be taken for -hyphen too.
    front = ["--help" if text == "-h" else text for text in given[:end]]
    behind = [BEHIND + text for text in given[end + 1 :]]
    try:
        if not front or front[0] not in COMMANDS:
            program_parser().parse_args(front[:1])
        return words_of(command_parser(front[0]), [*front[1:], *given[end : end + 1], *behind])
    except SystemExit:
        return None


def words_of(command: argparse.ArgumentParser, given: Sequence[str]) -> Words:
    """The fields of the words of a command."""
    words = Words()
    _, unknown = command.parse_known_intermixed_args(given, namespace=words)
    if unknown:
        # Words behind an unknown option stand among the unknown ones too.
        options = [one for one in unknown if one.startswith("-")]
        command.error(f"unrecognized arguments: {' '.join(map(word, options or unknown))}")
    try:
        CHECKS.get(words.command, lambda _: None)(words)
    except argparse.ArgumentTypeError as fault:
        command.error(str(fault))
    return words


def is_text(text: str) -> bool:
    """Whether a word is UTF-8."""
    try:
        text.encode()
    except UnicodeEncodeError:
        return False
    return True
