"""Drawings of cells: the bar of a recording, and strips of edit units."""
from __future__ import annotations

import itertools
from collections.abc import Iterator, Sequence
from typing import NamedTuple

from mxf.report.bounds import CELLS, NAMES, STRIP
from mxf.report.facts import Facts
from mxf.report.guide import MARKS, STANDINGS, STANDING_WORDS
from mxf.report.strips import Strip

# What fills a cell: its ground, and the marks over it, which can be told apart without colour.
FILLS: dict[str, tuple[str, tuple[tuple[str, dict[str, object]], ...]]] = {
    "held": ("#46708f", ()),
    "metadata": ("#46708f", (("circle", {"cx": 3, "cy": 3, "r": 1.3, "fill": "#fff"}),)),
    "index": ("#46708f", (("path", {"d": "M1 0V6", "stroke": "#fff", "stroke-width": 1.4}),)),
    "part": ("#fff", (("path", {"d": "M0 6L6 0", "stroke": "#46708f", "stroke-width": 1.8}),)),
    "hand": ("#fff", (("path", {"d": "M0 2H6", "stroke": "#2f7d4f", "stroke-width": 2}),)),
    "missing": ("#fff", (("circle", {"cx": 3, "cy": 3, "r": .9, "fill": "#b04a3a"}),)),
    "named": ("#fff", (("circle", {"cx": 3, "cy": 3, "r": 1.9, "fill": "none", "stroke": "#b04a3a"}),)),
    "unknown": ("#e4e8ec", (("path", {"d": "M3 1V5M1 3H5", "stroke": "#5c6873", "stroke-width": .8}),)),
    "disputed": ("#f2b544", (("path", {"d": "M0 0L6 6M0 6L6 0", "stroke": "#1b2630", "stroke-width": 1.2}),)),
    "partition": ("#1b2630", ()),
}  # fmt: skip


class Box(NamedTuple):
    """Equal cells one after another: where they are drawn, what fills them, what is said of them, and a letter if there is
    room for one."""

    x: float
    width: float
    fill: str
    title: str
    letter: str


class Drawing(NamedTuple):
    """Boxes side by side, and what their fills and letters say."""

    boxes: list[Box]
    legend: list[tuple[str, str, str]]


def runs_of(cells: Sequence[object]) -> Iterator[tuple[int, int, float, float]]:
    """The runs of equal cells: the place of the first, the place after the last, and where they are drawn, how wide."""
    place, unit = 0, CELLS / max(1, len(cells))
    for _, run in itertools.groupby(cells):
        begin, place = place, place + len(list(run))
        yield begin, place, 10 + begin * unit, (place - begin) * unit


def drawing_of_bar(facts: Facts) -> Drawing:
    """The bar of the whole recording, with a letter over each partition if there is room."""
    boxes, letter_end = [], -20.0
    cells = facts.mapped.cells
    for begin, end, x, width in runs_of(cells):
        has_letter = cells[begin] in "HFBRo!" and x > letter_end
        letter_end = x + 10 if has_letter else letter_end
        fill, title = MARKS[cells[begin]][0], bar_title(facts, begin, end)
        boxes.append(Box(x, width, fill, title, cells[begin] if has_letter else ""))
    return Drawing(boxes, [(fill, mark, words) for mark, (fill, words) in MARKS.items() if mark in cells])


def bar_title(facts: Facts, begin: int, end: int) -> str:
    """What is said of some cells of the bar: their bytes, what their mark says, and what begins there."""
    mapped = facts.mapped
    words = f"Bytes {mapped.end_of(begin)} to {mapped.end_of(end) - 1}: {MARKS[mapped.cells[begin]][1]}"
    named = [facts.shown.begins[cell] for cell in range(begin, end) if cell in facts.shown.begins]
    names = [name for rows in named for _, name in rows.kept][:NAMES]
    left = sum(rows.count for rows in named) - len(names)
    return words + (f" ({', '.join(names)}{f', and {left} more' if left else ''})" if names else "")


def drawing_of_strip(strip: Strip) -> Drawing:
    """Edit units as a strip, of which each cell has some units and stands by the worst of them."""
    boxes, size = [], -(-len(strip.codes) // STRIP)
    cells = [min(strip.codes[begin : begin + size]) for begin in range(0, len(strip.codes), size)]
    for begin, end, x, width in runs_of(cells):
        fill, letter, _ = STANDINGS[STANDING_WORDS[cells[begin]]]
        first, after = begin * size, min(end * size, len(strip.codes))
        told = ", ".join(f"{count} {word}" for word, count in strip.counts(first, after).items())
        title = f"Units {strip.first + first} to {strip.first + after - 1}: {told}"
        boxes.append(Box(x, width, fill, title, letter if width > 16 else ""))
    return Drawing(boxes, [(*STANDINGS[word][:2], f"{word}: {STANDINGS[word][2]}") for word in strip.counts()])
