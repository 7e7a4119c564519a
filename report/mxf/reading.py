"""How lines of mxf_tool are read as JSON, looked at by their forms, and taken by their names."""
from __future__ import annotations

import functools
import json
from collections.abc import Callable, Iterable, Mapping, Sequence
from typing import Any, NoReturn, TypeVar, cast

from mxf.lines import Line, PacketLine


class LineFault(ValueError):
    """A line that isn't one of mxf_tool, or not as its form says."""


def refuse(constant: str) -> NoReturn:
    """Refuses NaN and the infinities, which Python's module takes and JSON doesn't have (RFC 8259)."""
    raise ValueError(f"{constant} is no JSON")


DECODER = json.JSONDecoder(parse_constant=refuse)


def lines_in(texts: Sequence[bytes]) -> list[Line]:
    """The JSON objects of lines, each of which has its name. Many are read in less time together than each by itself."""
    try:
        lines = DECODER.decode(f"[{b','.join(texts).decode('utf-8', 'replace')}]")
    except (ValueError, RecursionError) as fault:
        raise LineFault("a line that is no JSON of mxf_tool") from fault
    if len(lines) != len(texts) or not all(
        isinstance(line, dict) and isinstance(line.get("line"), str) for line in lines
    ):
        raise LineFault("a line that is no JSON of mxf_tool")
    return cast("list[Line]", lines)


def line_of(text: bytes) -> Line:
    """The JSON object of a line."""
    return lines_in([text])[0]


Form = TypeVar("Form")

# What takes lines, by their names: the form that each has, and what is done with it.
Takers = Mapping[str, tuple[Any, Callable[[Any], None]]]

TYPES = {"int": int, "str": str, "bool": bool, "list[int]": list, "None": type(None)}


@functools.lru_cache(maxsize=None)
def members_of(form: Any) -> dict[str, tuple[tuple[type, ...], bool]]:
    """The members that a line of a form may have: of which types each is, and whether it always has it."""
    texts = {
        name: getattr(kind, "__forward_arg__", None) or kind.__name__ for name, kind in form.__annotations__.items()
    }
    needed = form.__required_keys__
    return {name: (tuple(TYPES[part] for part in text.split(" | ")), name in needed) for name, text in texts.items()}


def checked(line: Line, form: Callable[..., Form]) -> Form:
    """A line that has the members of its form. Others don't matter."""
    for name, (types, is_needed) in members_of(form).items():
        if name in line:
            if not isinstance(line[name], types):
                raise LineFault(f"a line {line['line']} with another {name}")
        elif is_needed:
            raise LineFault(f"a line {line['line']} without {name}")
    return cast(Form, line)


def take_line(line: Line, takers: Takers) -> None:
    """Hands a line to what takes the lines of its name. A line of an unknown name is passed over, as one is that nobody
    uses."""
    if line["line"] in takers:
        form, take = takers[line["line"]]
        take(checked(line, form))


def take_lines(lines: Iterable[Line], takers: Takers) -> None:
    """Hands each line to what takes the lines of its name."""
    for line in lines:
        take_line(line, takers)


def end_of_packet(line: PacketLine) -> int:
    """The offset after a packet: its key, its length and its value."""
    return line["offset"] + 16 + line["width"] + line["length"]


def fields_of(line: Mapping[str, object], names: Iterable[str]) -> tuple[Any, ...]:
    """These members of a line, in their order."""
    return tuple(line[name] for name in names)
