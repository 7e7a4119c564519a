"""The drawing of partitions."""
from __future__ import annotations

import collections
import itertools
from collections.abc import Iterator, Sequence
from typing import NamedTuple

from mxf.report.bounds import NODES
from mxf.report.facts import Facts
from mxf.lines import PartitionLine


class Node(NamedTuple):
    """A row of the drawing of partitions: the offset, the pack that is held there, if there is one, and words."""

    offset: int
    pack: PartitionLine | None
    words: str

    def letter(self) -> str:
        """The letter of its pack."""
        return self.pack["part"][0].upper() if self.pack else "o"


def named_by(facts: Facts, packs: Sequence[PartitionLine]) -> dict[int, str]:
    """The places that packs name as partitions, and at which no clear one is held, with who names them."""
    shown = facts.shown
    named: dict[int, str] = {}
    disputed = {*facts.told.readings.offsets, *(place["offset"] for place in facts.planned.disputed.kept)}
    for pack in packs:
        if pack["link"] == "missing":
            named.setdefault(pack["previous"], f"the partition at {pack['offset']} names it as the one before")
        if pack["footer"] and pack["footer"] not in shown.offsets:
            named.setdefault(pack["footer"], f"the partition at {pack['offset']} names it as the footer")
    for entry in shown.entries.kept:
        if entry["standing"] == "missing":
            named.setdefault(entry["offset"], "the random index pack names it")
    first = itertools.islice(sorted(named.items()), NODES // 2)
    return {place: f"{'in dispute' if place in disputed else 'not held'}; {words}" for place, words in first}


def nodes_of(facts: Facts) -> tuple[list[Node], int]:
    """The rows of the drawing in their order, and how many partitions are left out before the second half."""
    shown, left = facts.shown, 0
    packs = shown.partitions.kept[:NODES]
    if shown.partitions.count > NODES:
        packs = packs[: NODES // 2] + list(shown.last)
        left = shown.partitions.count - len(packs)
    listed = {entry["offset"] for entry in shown.entries.kept if entry["standing"] != "missing"}
    nodes = [Node(pack["offset"], pack, pack_words(pack, listed)) for pack in packs]
    nodes += [Node(offset, None, words) for offset, words in named_by(facts, packs).items()]
    return sorted(nodes, key=lambda node: (node.offset, node.pack is None)), left


def pack_words(pack: PartitionLine, listed: set[int]) -> str:
    """What is said beside a partition in the drawing."""
    words = f"{pack['part']}, {pack['status']}"
    links = {"first": "the first", "wrong": "names a wrong one before it", "skips": "skips the one before it"}
    words += f"; {links[pack['link']]}" if pack["link"] in links else ""
    return words + ("; in the random index pack" if pack["offset"] in listed else "")


class Link(NamedTuple):
    """How a partition names another: a path with what is said of it, or words at a height if it leads nowhere."""

    words: str
    y: float
    path: str = ""
    kind: str = "link"


class Drawing(NamedTuple):
    """The drawing of partitions: its rows, each at its height, and what they name; how many partitions are left out, and
    the height of what says so; and where it ends."""

    nodes: list[tuple[Node, float]]
    links: list[Link]
    left: int
    left_at: int
    bottom: int


def previous_of(node: Node, heights: dict[int, float], left_out: float | None) -> Link | None:
    """How a partition names the one before it: an arrow on the left, or words."""
    pack, y = node.pack, heights[node.offset]
    if not pack or pack["link"] == "first":
        return None
    to = heights.get(pack["previous"], left_out)
    if pack["link"] == "wrong" or to is None:
        return Link(f"{pack['link']} {pack['previous']} \u2717", y)
    reach = 170 - min(30 + abs(y - to) / 3, 150)
    kind = {"held": "link", "skips": "link skips", "missing": "link absent"}[pack["link"]]
    words = f"The partition at {node.offset} names the one at {pack['previous']} before it: {pack['link']}"
    return Link(words, y, f"M170 {y - 4:g}C{reach:g} {y - 4:g} {reach:g} {to + 4:g} 170 {to + 4:g}", kind)


def footers_of(nodes: list[Node], heights: dict[int, float]) -> Iterator[Link]:
    """How partitions name the footer: a rail on the right for each footer that is named."""
    named: dict[int, list[int]] = collections.defaultdict(list)
    for node in nodes:
        if node.pack and node.pack["footer"] in heights and node.pack["footer"] != node.offset:
            named[node.pack["footer"]].append(node.offset)
    for number, (footer, offsets) in enumerate(itertools.islice(named.items(), 6)):
        rail, to = 340 + 12 * number, heights[footer] - 3
        for offset in offsets:
            y = heights[offset] + 3
            yield Link(f"The partition at {offset} names the footer at {footer}", y, f"M320 {y:g}H{rail}V{to:g}H322")


def drawing_of_partitions(facts: Facts) -> Drawing:
    """The partitions from the first to the last, with what they name."""
    nodes, left = nodes_of(facts)
    packs = [place for place, node in enumerate(nodes) if node.pack]
    after = packs[NODES // 2] if left else len(nodes)
    heights = {node.offset: 20 + 26.0 * (place + (place >= after)) for place, node in enumerate(nodes)}
    links = [previous_of(node, heights, 20 + 26.0 * after if left else None) for node in nodes]
    placed = [(node, heights[node.offset]) for node in nodes]
    bottom = 26 * (len(nodes) + bool(left)) + 28
    return Drawing(placed, [*filter(None, links), *footers_of(nodes, heights)], left, 20 + 26 * after, bottom)
