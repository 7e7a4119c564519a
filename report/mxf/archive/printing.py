"""Answers as a table for people, as CSV or as JSON."""
from __future__ import annotations

import csv
import json
import sys
from collections.abc import Iterable, Sequence
from typing import Any

# Characters of control, line ends of Unicode, and marks of direction: a terminal may obey them. Each is shown as ?.
CONTROL = dict.fromkeys((*range(0x20), *range(0x7F, 0xA0), *range(0x2028, 0x202F), *range(0x2066, 0x206A)), "?")

ENCODER = json.JSONEncoder(ensure_ascii=False, separators=(",", ":"))

# The columns of names, which may be long, and how many letters of one a table has. The other forms have it whole.
NAMES = ("recording", "name", "title", "company", "product", "version")
WIDEST = 60

Cells = Sequence[Any]  # the values of a row or a column
Part = tuple[str, Sequence[str], Sequence[Cells]]  # a table with its name: its heads and its rows


def width_of(head: str, names: Iterable[str | None]) -> int:
    """How wide a column of names is."""
    return min(WIDEST, max(map(len, [head, *(name or "-" for name in names)])))


def fitted(value: object) -> object:
    """A value in a column of names: a long one loses its end."""
    return f"{value[: WIDEST - 1]}…" if isinstance(value, str) and len(value) > WIDEST else value


def rows_fitted(heads: Sequence[str], rows: Sequence[Cells]) -> Sequence[Cells]:
    """The rows of a table, whose names are no wider than a table has room for."""
    places = [place for place, head in enumerate(heads) if head in NAMES]
    places = [place for place in places if any(row[place] and len(row[place]) > WIDEST for row in rows)]
    if not places:
        return rows
    return [[fitted(value) if place in places else value for place, value in enumerate(row)] for row in rows]


def cell(value: object) -> str:
    """A value in a table: - if there is none."""
    return "-" if value is None else shown(str(value))


def shown(text: str) -> str:
    """A text without what a terminal may obey. None of that can be printed."""
    return text if text.isprintable() else text.translate(CONTROL)


def print_lines(lines: Iterable[str]) -> None:
    """Prints the lines of a table."""
    sys.stdout.writelines(f"{shown(line)}\n" for line in lines)


def print_laid_out(layout: str, heads: Sequence[str], rows: Sequence[Cells]) -> None:
    """Prints the lines of a table by a layout for %."""
    print_lines([layout % tuple(heads)])
    print_lines(layout % tuple("-" if value is None else value for value in row) for row in rows_fitted(heads, rows))


def laid_out(head: str, column: Cells, is_last: bool) -> list[str]:
    """A head and the cells below it, - if there is none, each as wide as the widest: numbers stand on the right, and nothing
    stands after the last column."""
    cells = [head, *("-" if value is None else str(value) for value in column)]
    is_number = any(isinstance(value, int) for value in column)
    if is_last and not is_number:
        return cells
    width = max(map(len, cells))
    return [text.rjust(width) if is_number else text.ljust(width) for text in cells]


def print_table(heads: Sequence[str], rows: Sequence[Cells]) -> None:
    """Prints columns side by side."""
    columns = list(zip(*rows_fitted(heads, rows))) or [()] * len(heads)
    last = len(heads) - 1
    print_lines(
        map("  ".join, zip(*(laid_out(head, columns[place], place == last) for place, head in enumerate(heads))))
    )


def print_csv(heads: Sequence[str], rows: Sequence[Cells]) -> None:
    """Prints CSV by RFC 4180, with a line of heads. A value that there isn't is empty."""
    writer = csv.writer(sys.stdout)
    writer.writerow(heads)
    writer.writerows(rows)


def print_json(heads: Sequence[str], rows: Sequence[Cells]) -> None:
    """Prints a JSON object a line, with a member for each column."""
    print_objects(dict(zip(heads, row)) for row in rows)


def print_objects(lines: Iterable[object]) -> None:
    """Prints JSON objects, each on a line of its own."""
    sys.stdout.writelines(f"{ENCODER.encode(line)}\n" for line in lines)


FORMS = {"table": print_table, "csv": print_csv, "json": print_json}


def print_answer(form: str, heads: Sequence[str], rows: Sequence[Cells], layout: str | None = None) -> None:
    """Prints rows in a form of FORMS: a table by a layout for %, if there is one."""
    if form == "table" and layout is not None:
        print_laid_out(layout, heads, rows)
    else:
        FORMS[form](heads, rows)


def print_parts(form: str, parts: Sequence[Part]) -> None:
    """Prints tables one after another: each a name, its heads and its rows. In JSON each object says its table first; in
    CSV a line has the table, the number of the row, a head and a value."""
    if form == "csv":
        cells = [(name, number, head, value) for name, heads, rows in parts for number, row in enumerate(rows, 1)
                 for head, value in zip(heads, row)]  # fmt: skip
        print_csv(("table", "row", "column", "value"), cells)
        return
    for place, (name, heads, rows) in enumerate(parts):
        if form == "json":
            print_json(("table", *heads), [(name, *row) for row in rows])
        else:
            sys.stdout.write(f"\n{name}\n" if place else f"{name}\n")
            print_table(heads, rows)


def number_or_none(value: int | str | None) -> int | None:
    """A number of the database, which stands as text if it is large."""
    return None if value is None else int(value)
