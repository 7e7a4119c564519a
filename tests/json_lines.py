#!/usr/bin/env python3
"""Gives back the texts of lines that were printed with `--json`, by the forms of lines in the tables of docs/FORMATS.md.

    tests/json_lines.py COMMAND <LINES    the text of each line that the command printed

Each line has to be the one JSON object of a form of its command, byte by byte: names, order and types as in the form, no
white space between members, and a backslash in a string before a quotation mark or a backslash alone. A line that isn't
ends it with status 1. The text is given back by the fields that the text has.
"""
import itertools
import json
import pathlib
import re
import sys

FORMATS = pathlib.Path(__file__).resolve().parent.parent / "docs" / "FORMATS.md"
TYPES = {"number": (int, float), "word": str, "text": str, "hex": str, "flag": bool}
# Strings that are spelled in one way: of a rate of two numbers, of a length of time, and of a timecode.
SPELLED = {"rate": r"-?\d+/-?\d+", "length": r"\d{2,}:\d\d:\d\d\.\d{3}", "timecode": r"\d\d:\d\d:\d\d[:;]\d{2,}"}
# The head of a table of lines, with its command.
HEAD = re.compile(r"\| Line of `(\w+)` \|")
# A field with its type: in capital letters, a number if nothing stands behind it. With `=` it always has this word.
FIELD = re.compile(r"([A-Z][A-Z-]*[A-Z]|[A-Z])(:[a-z]+)?(\?)?(=[\w-]+)?")
# What JSON alone has, the word of a flag, and a field.
PART = re.compile(r"\{([^}]*)\}|\[([\w-]+)\]|" + FIELD.pattern)
# What stands in the text of some lines alone, with the space before it.
GROUP = re.compile(r" \(([^)]*)\)")


def sort_of(field):
    """The type of a field that was found."""
    _, sort, may_be_none, always = field
    return always or (sort or ":number")[1:] + (may_be_none or "")


def members_of(form):
    """The types of the members of a form by their names, in their order. `line` is among them if the form has it."""
    members = {}
    for alone, flag, *field in PART.findall(form):
        if flag:
            members[flag] = "flag"
        for one in FIELD.findall(alone) if alone else [field] if field[0] else []:
            members[one[0].lower()] = sort_of(one)
    return members


class Form:
    """A form of a line: its command, its name, its text without what JSON alone has, and the types of all its members by
    their names."""

    def __init__(self, command, form):
        members = members_of(form)
        self.command = command
        self.text = re.sub(r" ?\{[^}]*\}$|\{[^}]*\}", "", form)
        self.name = members.pop("line", "=" + self.text.split()[0])[1:]
        self.members = members

    def fits(self, line):
        """Whether the line has these fields and members in this order, each of its type."""
        return (
            list(line) == ["line", *self.members]
            and line["line"] == self.name
            and all(is_of(line[name], sort) for name, sort in self.members.items())
        )

    def text_of(self, line):
        """The text of a line of this form, by its fields."""
        words = []
        for word in self.text.split(" "):
            flag = word.startswith("[") and word.strip("[]")
            if not flag:
                words.append(FIELD.sub(lambda field: self.shown(line[field[1].lower()]), word))
            elif line[flag]:
                words.append(flag)
        return " ".join(words)

    def pattern(self):
        """A pattern of the lines of this form in text."""
        words = []
        for word in self.text.split(" "):
            parts = re.split("(" + FIELD.pattern.replace("(", "(?:") + ")", word)
            parts[::2] = map(re.escape, parts[::2])
            parts[1::2] = map(self.pattern_of_field, parts[1::2])
            is_flag = word.startswith("[")
            words.append(f"(?: {re.escape(word.strip('[]'))})?" if is_flag else f" {''.join(parts)}")
        return re.compile("".join(words).removeprefix(" "))

    def pattern_of_field(self, field):
        """A pattern of the text of a field, which is spelled with its type."""
        return r" *-?\d[\d.]*" if self.members[FIELD.match(field)[1].lower()] == "number" else ".*"

    def shown(self, value):
        """The text of a value; one that isn't there has a word."""
        if value is None:
            return "none" if self.name in ("copy", "preferred", "described") else "-"
        if isinstance(value, list):
            return " ".join(map(str, value))
        return str(value)


def is_of(value, sort):
    """Whether a value is of a type."""
    if sort.startswith("="):
        return value == sort[1:]
    if value is None:
        return sort.endswith("?")
    if sort == "numbers":
        return isinstance(value, list) and all(is_of(one, "number") for one in value)
    if sort.rstrip("?") in SPELLED:
        return isinstance(value, str) and re.fullmatch(SPELLED[sort.rstrip("?")], value) is not None
    return isinstance(value, TYPES[sort.rstrip("?")]) and isinstance(value, bool) == (sort == "flag")


def forms_of(text):
    """The forms that one stands for: without and with each part that stands in some lines alone."""
    parts = GROUP.split(text)
    for choice in itertools.product((False, True), repeat=len(parts) // 2):
        yield "".join(part if place % 2 == 0 else f" {part}" * choice[place // 2] for place, part in enumerate(parts))


def forms_in(cell):
    """The forms of a cell. If the last has only what JSON alone has, it belongs to each of them."""
    texts = re.findall(r"`([^`]*)`", cell)
    is_shared = len(texts) > 1 and re.fullmatch(r"\{[^}]*\}", texts[-1])
    shared = f" {texts.pop()}" if is_shared else ""
    return [form + shared for text in texts for form in forms_of(text)]


def all_forms():
    """The forms in the first cells of the tables of docs/FORMATS.md that have lines of a command."""
    command = None
    for row in FORMATS.read_text(encoding="utf-8").splitlines():
        head = HEAD.match(row)
        command = head[1] if head else command if row.startswith("|") else None
        if command and not head:
            yield from (Form(command, form) for form in forms_in(row.split(" | ")[0]))


FORMS = list(all_forms())


def line_of(text):
    """The object of a line that is printed so and no other way."""
    line = json.loads(text)
    if json.dumps(line, separators=(",", ":"), ensure_ascii=False) != text:
        raise ValueError("it is printed otherwise")
    return line


def text_of(command, text, width):
    """The text of a line of a command. The offsets of the rows of a map have `width` characters."""
    line = line_of(text)
    for form in FORMS:
        if form.command == command and form.fits(line):
            row = form.name == "row"
            return f"row {line['offset']:>{width}} {line['cells']}" if row else form.text_of(line)
    raise ValueError(f"no form fits {text}")


def texts_of(command, lines):
    """The texts of the lines of a command."""
    rows = [line_of(text) for text in lines if text.startswith('{"line":"row",')]
    width = len(str(rows[-1].get("offset", ""))) if rows else 0
    for text in lines:
        yield text_of(command, text, width)


def main():
    for text in texts_of(sys.argv[1], sys.stdin.read().split("\n")[:-1]):
        print(text)


if __name__ == "__main__":
    main()
