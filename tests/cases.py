#!/usr/bin/env python3
"""Runs the program on the cases of tests/cases: bytes that are laid from named packets, and the lines that are wanted.

    tests/cases.py PROGRAM [WORD]    all cases, or those whose name has the WORD; the last line is 'N passed, M failed'
    tests/cases.py --bytes NAME      the bytes of the cases of that name, a field a line, or of a worked file
    tests/cases.py --write NAME      the bytes of the first piece of the case of that name, or of a worked file, as they are

Before, the worked files are compared with the bytes in tests/worked and with those that stand in crates of tests, and
each form of a printed line (forms.txt, and the tables of docs/FORMATS.md) has to be wanted by a case.

A case is some lines of a text file in tests/cases. A number sign begins a comment.

    case NAME
    table COLUMN | COLUMN              the case is run for each row below, `{COLUMN}` standing for the row's entry; a line
                                       that an entry leaves empty isn't there
        ENTRY | ENTRY
    in each order                      the sources are handed in each order
    at OFFSET: PACKET                  a piece that begins at OFFSET; the packets that follow in it stand indented below
        PACKET
        but NAME WORD ..               the first packet before it of this NAME, or the set of this identifier, is stated
                                       by these words too, and no longer by those of the same names
        without NAME                   it isn't there
        up to END                      of the packets before it, these bytes
    range OFFSET: PACKET               a range that begins at OFFSET, where the first PACKET may be the end of one
    packets of FILE: OFFSET OFFSET     the packets of a file of tests/cases/files.txt that stand there, each a piece
    against OFFSET: PACKET             a piece of the reference of `verify`; the packets that follow in it stand as in `at`
    together OFFSET: PACKET            packets that are put together of bytes at hand, as in `at`: the catalogue has them
    at hand                            bytes are at hand that no packet has, so `plan`, `map` and `units` say more of the
                                       sources than of the catalogue, and are asked of the sources alone
    show [WORD ..]                     what `show` prints, or those of its lines that begin with one of the words
        LINE
    check [doubts]                     what `check` prints, and with `--doubts` where that stands there. `describe [WORD
                                       ..]`, `locate INDEX UNIT`, `units [timecode] FROM TO [INDEX]`, `plan [INDEX FROM
                                       TO]`, `map [extents] COLUMNS ROWS` and `join` stand so too. A word `-` is left out
        LINE
    verify [whole] [timecode] [INDEX FROM TO]
        LINE                           what `verify` prints against the pieces of the reference, with `--whole` and
                                       `--timecode` where that stands there, and with the units of an index
    json show [WORD ..]                the same with `--json`; a WORD is the name of a line's form. Each command may
        LINE                           stand so
    skim show [WORD ..]                the same with `--skim`, of the pieces alone, since a catalogue has the digests that
        LINE                           a skim doesn't know. Each command but `verify` may stand so
    status N                           the status of the command above, if it isn't 0
    told LINE                          what it says on standard error, if anything, a line each

In a LINE `..` stands for any text, `<U+0080>` for that character, and a `$` at its end shows a space there. packets.py
says how a PACKET is named. Each command is run on the pieces, and then on the catalogue that `join` saves of them: that
prints the same without the lines of pieces; `verify` is run against the catalogue that `join` saves of the reference,
which prints the same without stops. What a command prints with `--json` gives back its text (json_lines.py). The
catalogue itself has to be the file of the packets that were laid, and of the heads of those that are cut, byte by byte
(notes.py).
"""
import concurrent.futures
import itertools
import pathlib
import re
import subprocess
import sys
import tempfile

import json_lines
import notes
import packets

CASES = pathlib.Path(__file__).parent / "cases"
WORKED = pathlib.Path(__file__).parent / "worked"
CRATES = pathlib.Path(__file__).parent.parent / "crates"
EXAMPLES = pathlib.Path(__file__).parent.parent / "examples"
COMMANDS = ("show", "check", "describe", "locate", "units", "plan", "map", "join", "verify")
OPTIONS = {
    "locate": ("--index", "--unit"),
    "units": ("--from", "--to", "--index"),
    "plan": ("--index", "--from", "--to"),
    "map": ("--columns", "--rows"),
    "verify": ("--index", "--from", "--to"),
}
# The options of a command that take no value: their words in a case are the options' without the dashes.
FLAGS = {"verify": ("whole", "timecode"), "units": ("timecode",), "map": ("extents",), "check": ("doubts",)}
# The commands of whose lines words of a case choose some.
CHOOSING = ("show", "describe")
# What is said of bytes at hand too, which a saved catalogue hasn't.
OF_BYTES = ("plan", "map", "units")
# What may stand before a command, the option of that name.
FORMS = ("json", "skim")
# The lines of `check` that say that there is nothing.
NOTHING_FOUND = ("findings 0", "doubts 0", '{"line":"findings","findings":0}', '{"line":"doubts","doubts":0}')
NAME = re.compile(r'\{"line":"([^"]*)"')

# A worked file in a crate of tests: its name and its bytes, as hexadecimal digits with comments.
IN_CRATE = re.compile(r"const ([A-Z]): \[u8; \d+\] = \[\n(.*?)^\];", re.MULTILINE | re.DOTALL)


def fits(form, line):
    """Whether the line is the form, in which `..` stands for any text."""
    return re.fullmatch(re.escape(form).replace(r"\.\.", ".*"), line) is not None


def name_of(line):
    """The name of a line's form in JSON, or its first word."""
    named = NAME.match(line)
    return named[1] if named else line.split(" ")[0]


def with_characters(line):
    """The line with the characters that it names by their numbers."""
    return re.sub(r"<U\+([0-9A-F]{4,6})>", lambda number: chr(int(number[1], 16)), line)


class Command:
    """A command, the words that choose among its lines, the lines that are wanted, what it says, and its status."""

    def __init__(self, words, form):
        self.name = words[0]
        self.form = [f"--{form}"] if form in FORMS else []
        self.chosen = words[1:] if self.name in CHOOSING else []
        options = OPTIONS.get(self.name, ())
        flags = [f"--{word}" for word in words[1:] if word in FLAGS.get(self.name, ())]
        given = [pair for pair in zip(options, words[1 + len(flags) :]) if pair[1] != "-"]
        self.arguments = flags + [text for pair in given for text in pair]
        self.lines = []
        self.told = ""
        self.status = 0

    def accepts(self, printed, lines):
        """Whether these are the lines that are wanted."""
        if self.chosen:
            printed = [line for line in printed if name_of(line) in self.chosen]
        return len(printed) == len(lines) and all(map(fits, lines, printed))


class Case:
    """The pieces of a case, each an offset, its packets and whether it is a piece or a range, those of the reference of
    `verify`, those that are put together, and its commands."""

    def __init__(self, name):
        self.name = name
        self.pieces = []
        self.reference = []
        self.together = []
        self.last = None
        self.commands = []
        self.in_each_order = False
        self.at_hand = False

    def begin(self, offset, sort):
        """Begins a piece or a range, a piece of the reference, or what is put together."""
        self.last = (offset, [], "range" if sort == "range" else "at")
        {"against": self.reference, "together": self.together}.get(sort, self.pieces).append(self.last)

    def lay(self, line, files):
        """Adds the packet of this line, or the packets of the file of that name, to the last piece, or states one of them
        otherwise."""
        lines = self.last[1]
        word, _, rest = line.partition(" ")
        if word == "up":
            lines[:] = front_of(lines, self.last[0], int(rest.removeprefix("to ")))
        elif word in ("but", "without"):
            name, *words = rest.split()
            place = next(at for at, before in enumerate(lines) if name in before.split()[:2])
            lines[place : place + 1] = [stated(lines[place], words)] if word == "but" else []
        else:
            lines += files.get(line, [line])

    def lay_all(self):
        """Lays the packets of all pieces."""
        for offset, lines, _ in self.pieces + self.reference + self.together:
            lines[:] = packets.laid(lines, offset)


def front_of(lines, offset, end):
    """The packets of these lines up to an end, which may cut one."""
    for line, at in packets.numbered(lines, offset):
        size = packets.size_of(packets.packet(line, at))
        if at < end:
            yield line if at + size <= end else f"{line} front={end - at}"


def stated(line, words):
    """The packet of a line, stated by these words too, and no longer by those of the same names."""
    stated_anew = [word.partition("=")[0] for word in words]
    return " ".join([word for word in line.split() if word.partition("=")[0] not in stated_anew] + words)


def packets_at(lines, offsets):
    """The packets of a file that stand at these offsets, each a piece, as lines."""
    standing = {at: line for line, at in packets.numbered(lines, 0)}
    return [(offset, [standing[offset]], "at") for offset in offsets]


def lines_of(path):
    """The lines of a file without comments, each with its number and whether it stands indented."""
    for at, line in enumerate(path.read_text().splitlines(), 1):
        text = re.sub(r"(^|\s)#.*", "", line).rstrip()
        if text:
            yield at, text.startswith(" "), text.strip()


def blocks_of(path):
    """The cases and files of a file: the name of each and its lines."""
    blocks = []
    for at, indented, text in lines_of(path):
        if not indented and text.split(" ")[0] in ("case", "file"):
            blocks.append((text, []))
        else:
            blocks[-1][1].append((at, indented, text))
    return blocks


def rows_of(lines):
    """The rows of the table of a case, each as its columns' entries, and the other lines."""
    rows, others, columns = [], [], None
    for at, indented, text in lines:
        if text.startswith("table ") and not indented:
            columns = [column.strip() for column in text.removeprefix("table ").split("|")]
        elif columns is not None and indented and not others:
            rows.append(dict(zip(columns, (entry.strip() for entry in text.split("|")), strict=True)))
        else:
            others.append((at, indented, text))
    return rows or [{}], others


def filled(text, row):
    for column, entry in row.items():
        text = text.replace("{" + column + "}", entry)
    return text


def case_of(name, lines, files):
    """The case of these lines."""
    case = Case(name)
    takes_packets = False
    for at, indented, text in lines:
        word, _, rest = text.partition(" ")
        try:
            if indented and takes_packets:
                case.lay(text, files)
            elif indented:
                case.commands[-1].lines.append(with_characters(text.removesuffix("$")))
            elif text == "in each order":
                case.in_each_order = True
            elif text == "at hand":
                case.at_hand = True
            elif word in ("at", "range", "against", "together"):
                takes_packets = True
                offset, _, packet = rest.partition(": ")
                case.begin(int(offset), word)
                if packet:
                    case.lay(packet, files)
            elif word == "packets":
                takes_packets = False
                file, _, offsets = rest.removeprefix("of ").partition(": ")
                case.pieces += packets_at(files[file], map(int, offsets.split()))
            elif word in COMMANDS or word in FORMS:
                takes_packets = False
                words = text.split()[word in FORMS :]
                case.commands.append(Command(words, word))
            elif word == "status":
                case.commands[-1].status = int(rest)
            elif word == "told":
                case.commands[-1].told += rest + "\n"
            else:
                raise packets.Mistake("no such line")
        except (packets.Mistake, KeyError, IndexError, ValueError, StopIteration) as mistake:
            sys.exit(f"{name}, line {at}: {text}: {mistake!r}")
    try:
        case.lay_all()
    except (packets.Mistake, KeyError, IndexError, ValueError) as mistake:
        sys.exit(f"{name}: {mistake!r}")
    return case


def all_files():
    """The worked files: the lines of the packets of each."""
    blocks = blocks_of(CASES / "files.txt")
    return {name.removeprefix("file "): [text for _, _, text in lines] for name, lines in blocks}


def all_cases(files):
    """All cases, one for each row of their tables."""
    for path in sorted(set(CASES.glob("*.txt")) - {CASES / "files.txt", CASES / "forms.txt"}):
        for head, lines in blocks_of(path):
            rows, others = rows_of(lines)
            for row in rows:
                in_row = [(at, indented, filled(text, row).strip()) for at, indented, text in others]
                stated_lines = [line for line in in_row if line[2]]
                yield case_of(f"{path.stem}: {filled(head.removeprefix('case '), row)}", stated_lines, files)


def commands_of(case):
    """The commands of a case that have no reference."""
    return [command for command in case.commands if command.name != "verify"]


def bytes_of(laid):
    """The bytes of these packets."""
    return b"".join(map(packets.bytes_of, laid))


def notes_of(offset, laid, sort):
    """The notes of a piece: of the packets that were laid in it, and of what the bytes after them begin. Those of a
    range are read."""
    if sort == "range":
        found, heads, _ = notes.read_range(offset, bytes_of(laid))
        yield from found + heads
        return
    for number, fields in enumerate(laid):
        if fields[0][0] != "key" or offset + packets.size_of(fields) > notes.GREATEST_END:
            found, heads, _ = notes.read_piece(offset, bytes_of(laid[number:]))
            yield from found + heads
            return
        (_, key), (_, length), *value = fields
        yield notes.whole(offset, key, len(length), packets.bytes_of(value))
        offset += packets.size_of(fields)


def catalogue(pieces):
    """The catalogue file of these pieces and ranges."""
    return notes.file_of(note for piece in pieces for note in notes_of(*piece))


class Run:
    """Runs of a program in a folder of their own."""

    def __init__(self, program, folder):
        self.program = program
        self.folder = folder

    def call(self, name, arguments, sources):
        """The lines that the program prints, what it says on standard error, and its status."""
        words = [self.program, name, *arguments, *sources]
        done = subprocess.run(words, capture_output=True, text=True, check=False)
        return done.stdout.split("\n")[:-1], done.stderr, done.returncode

    def sources(self, pieces, name=""):
        """The sources of pieces, whose files have the name and a number."""
        named = []
        for number, (offset, laid, sort) in enumerate(pieces):
            path = f"{self.folder}/{name}{number}"
            pathlib.Path(path).write_bytes(bytes_of(laid))
            named.append(f"{sort}:{offset}:{path}")
        return named

    def saved(self, sources):
        """The source of the catalogue that is saved of these sources, and its bytes."""
        path = pathlib.Path(f"{self.folder}/catalogue")
        path.write_bytes(b"")
        self.call("join", ["--out", str(path)], sources)
        return f"cat:{path}", path.read_bytes()

    def wrong(self, case):
        """What is wrong with a case, as lines; none if it prints what is wanted."""
        orders = [self.sources(case.pieces)]
        if case.in_each_order:
            orders = [list(order) for order in itertools.permutations(orders[0])]
        lines, contents = self.wrong_beside(case, orders[0]), set()
        for sources in orders:
            for command in commands_of(case):
                lines += self.wrong_at(command, sources, command.lines, command.status)
            saved, content = self.saved(sources)
            if content not in contents:
                lines += self.wrong_when_saved(case, saved)
            contents.add(content)
        if contents != {catalogue(case.pieces + case.together)}:
            lines.append("  the saved catalogue isn't the file of the packets")
        return lines

    def wrong_beside(self, case, sources):
        """The same for sources beside the reference, and beside its catalogue if no stop is wanted."""
        verified = [command for command in case.commands if command.name == "verify"]
        if not verified:
            return []
        pieces, lines = self.sources(case.reference, "reference"), []
        path = pathlib.Path(f"{self.folder}/reference")
        self.call("join", ["--out", str(path)], pieces)
        for command in verified:
            against = [word for piece in pieces for word in ("--against", piece)]
            lines += self.wrong_at(command, against + sources, command.lines, command.status)
            if not any(name_of(line) == "stop" for line in command.lines):
                lines += self.wrong_at(command, ["--against", f"cat:{path}", *sources], command.lines, command.status)
        return lines

    def wrong_when_saved(self, case, saved):
        """The same for a saved catalogue, of which no line of a piece is printed."""
        lines = []
        for command in commands_of(case):
            if case.at_hand and command.name in OF_BYTES or "--skim" in command.form:
                continue
            wanted = [line for line in command.lines if name_of(line) not in ("piece", "stop")]
            found = any(line not in NOTHING_FOUND for line in wanted)
            status = int(found) if command.name == "check" else command.status
            lines += self.wrong_at(command, [saved], wanted, status)
        return lines

    def begin_anew(self):
        """Takes away what a join saved: of nothing it saves nothing where a catalogue is."""
        pathlib.Path(self.folder, "joined").unlink(missing_ok=True)

    def wrong_at(self, command, sources, wanted, status):
        arguments = ["--out", f"{self.folder}/joined"] if command.name == "join" else command.arguments
        self.begin_anew()
        printed, said, ended = self.call(command.name, command.form + arguments, sources)
        if command.accepts(printed, wanted) and said == command.told and ended == status:
            return [] if command.form else self.wrong_in_json(command, arguments, sources, printed, status)
        heads = [f"  {command.name} {' '.join(sources)}: status {ended}, wanted {status}"]
        return heads + [f"  < {line}" for line in wanted] + [f"  > {line}" for line in printed + said.splitlines()]

    def wrong_in_json(self, command, arguments, sources, printed, status):
        """The same of the command with `--json`, whose lines have to give back the text."""
        self.begin_anew()
        objects, said, ended = self.call(command.name, ["--json", *arguments], sources)
        try:
            texts, why = list(json_lines.texts_of(command.name, objects)), ""
        except ValueError as mistake:
            texts, why = objects, str(mistake)
        if texts == printed and said == command.told and ended == status:
            return []
        heads = [f"  {command.name} --json {' '.join(sources)}: status {ended}, wanted {status} {why}"]
        return heads + [f"  < {line}" for line in printed] + [f"  > {line}" for line in texts + said.splitlines()]


def worked_in_crates():
    """The worked files that stand in crates of tests: the file of each, its name and its bytes."""
    for path in sorted(CRATES.glob("*/src/**/*.rt")):
        for name, lines in IN_CRATE.findall(path.read_text()):
            spelled = re.findall(r"0x([0-9A-F]{2})", re.sub("//.*", "", lines))
            yield path, name, bytes.fromhex("".join(spelled))


def wrong_in_the_cases(files, cases):
    """What is wrong with the cases themselves, each as lines: worked files of other bytes, and forms none wants."""
    for path, name, data in worked_in_crates():
        if data != bytes_of(packets.laid(files[name], 0)):
            yield [f"{path.relative_to(CRATES)}: {name} has other bytes than in files.txt"]
    for path in sorted(WORKED.glob("*.bin")):
        if path.read_bytes() != bytes_of(packets.laid(files[path.stem], 0)):
            yield [f"{path.name} has other bytes than in files.txt"]
    wanted = [line for case in cases for command in case.commands for line in command.lines]
    for _, _, form in lines_of(CASES / "forms.txt"):
        if not any(fits(form, line) for line in wanted):
            yield [f"no case wants a line {form}"]
    for form in json_lines.FORMS:
        commands = [command for case in cases for command in case.commands if command.name == form.command]
        lines = (line for command in commands for line in command.lines)
        if form.command in COMMANDS and not any(map(form.pattern().fullmatch, lines)):
            yield [f"no case wants a line {form.text} of {form.command}, as docs/FORMATS.md has it"]


def run_all(program, word, files):
    """Runs the cases whose name has the word, prints those that fail, and whether none does."""
    cases = list(all_cases(files))
    chosen = [case for case in cases if word in case.name]

    def wrong_of(case):
        with tempfile.TemporaryDirectory() as folder:
            return Run(program, folder).wrong(case)

    with concurrent.futures.ThreadPoolExecutor() as threads:
        found = list(threads.map(wrong_of, chosen))
    failures = list(wrong_in_the_cases(files, cases))
    failures += [[case.name, *wrong] for case, wrong in zip(chosen, found) if wrong]
    for lines in failures:
        print("FAILED:", "\n".join(lines))
    print(f"{found.count([])} passed, {len(failures)} failed")
    return not failures


def print_bytes(name, files):
    """Prints the fields of a worked file, or of the pieces of the cases of this name, with their offsets."""
    pieces = [(name, 0, packets.laid(files[name], 0), "at")] if name in files else []
    pieces += [(case.name, *piece) for case in all_cases(files) for piece in case.pieces if name in case.name]
    for of, offset, laid, _ in pieces:
        print(f"# {of}, from {offset}")
        for field, data in (field for packet in laid for field in packet):
            shown = data.hex() if len(data) <= 48 else f"{data[:32].hex()}.. {len(data)} bytes"
            if data:
                print(f"{offset:>8}  {shown}  # {field}")
            offset += len(data)


def write_bytes(name, files):
    """Writes the bytes of a worked file, or of the first piece of the case of this name."""
    named = (bytes_of(case.pieces[0][1]) for case in all_cases(files) if case.name == name)
    written = bytes_of(packets.laid(files[name], 0)) if name in files else next(named)
    sys.stdout.buffer.write(written)


def main():
    files = all_files()
    if len(sys.argv) == 3 and sys.argv[1] == "--bytes":
        print_bytes(sys.argv[2], files)
    elif len(sys.argv) == 3 and sys.argv[1] == "--write":
        write_bytes(sys.argv[2], files)
    elif len(sys.argv) in (2, 3):
        sys.exit(0 if run_all(sys.argv[1], (sys.argv + [""])[2], files) else 1)
    else:
        sys.exit(__doc__)


if __name__ == "__main__":
    main()
