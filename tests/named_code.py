"""Where the functions, methods, laws and types of the crates stand, for names that a document gives without their modules.

A name is its last parts, as `notes_from`, `Catalogue::add` or `kinds::table::kind`, or with its crate ahead, as
`mxf_read::gather`. It stands for the only item of its crates whose modules, type and name end with these parts. If there
are several, the only public one is meant, or the only one that is passed on.

A source is read by its layout, which `rt fmt` keeps: an item begins at the left, and what an `impl` or a trait has begins
four columns further in.
"""
from __future__ import annotations

import functools
import pathlib
import re
from dataclasses import dataclass, field

TOP = pathlib.Path(__file__).resolve().parent.parent
DECLARED = re.compile(
    r"( {4})?(pub(?:\(\w+\))? )?(?:const )?(?:fn|struct|enum|trait|type|ghost(?= \w+(?:: | = )\{)) (\w+)"
)
OWNER = re.compile(r"(?:pub )?(impl|trait)\b(.*?)(?: where.*)?(?: \{.*)?$")


@dataclass
class Item:
    """A function, a method or a type: its modules, its type and its name, whether it is public, and its clauses."""

    path: tuple[str, ...]
    is_public: bool
    clauses: list[str] = field(default_factory=list)


def owner_of(line: str) -> str | None:
    """The type or the trait whose block begins with this line."""
    found = OWNER.match(line)
    if not found:
        return None
    words = re.sub(r"<[^<>]*>", "", re.sub(r"<[^<>]*>", "", found[2].split(" for ")[-1]))
    names: list[str] = re.findall(r"\w+", words)
    return names[-1 if found[1] == "impl" else 0]


def items_of(source: pathlib.Path, modules: tuple[str, ...]) -> list[Item]:
    """The items of a source in their order."""
    items: list[Item] = []
    owner, is_of_trait = None, False
    for line in source.read_text(encoding="utf-8").splitlines():
        if line and not line[0].isspace():
            block = owner_of(line)
            if block or line.startswith(("}", "pub ", "fn ", "struct ", "enum ", "mod ")):
                owner, is_of_trait = block, " for " in line or "trait " in line
        found = DECLARED.match(line)
        if found and (owner or not found[1]):
            path = (*modules, owner, found[3]) if found[1] and owner else (*modules, found[3])
            is_law = found[0].lstrip().startswith("ghost")
            items.append(Item(path, found[2] == "pub " or bool(found[1]) and is_of_trait and not is_law))
        clause = re.match(r"\s*ensures (\w+) \{", line)
        if clause and items:
            items[-1].clauses.append(clause[1])
    return items


@functools.cache
def items(crate: str) -> tuple[Item, ...]:
    """All items of a crate."""
    folder = TOP / "crates" / crate / "src"
    found: list[Item] = []
    for source in sorted(folder.rglob("*.rt")):
        parts = source.relative_to(folder).with_suffix("").parts
        found += items_of(source, () if parts in (("lib",), ("main",)) else parts)
    return tuple(found)


def is_named(item: Item, parts: list[str]) -> bool:
    """Whether an item's path ends with these parts. A function's name alone doesn't stand for a method."""
    if list(item.path[-len(parts) :]) != parts:
        return False
    before = item.path[: -len(parts)]
    return not before or before[-1].islower()


def found_in(name: str, crates: list[str]) -> list[Item]:
    """The items that a name may stand for, with the crates ahead that it is looked for in."""
    crate, *parts = name.split("::")
    if crate.startswith("mxf_"):
        crates = [crate]
    else:
        parts = [crate, *parts]
    there = [item for one in crates for item in items(one) if is_named(item, parts)]
    return [item for item in there if item.is_public] or there


def is_module(name: str) -> bool:
    """Whether a name is that of a crate and a module of it."""
    crate, *modules = name.split("::")
    return crate.startswith("mxf_") and (TOP / "crates" / crate / "src").joinpath(*modules).with_suffix(".rt").exists()


def fault_of_name(name: str, clauses: list[str], crates: list[str]) -> str | None:
    """Why a name stands for no item of these crates, or for several, or the item lacks these clauses; or None."""
    if is_module(name):
        return None
    there = found_in(name, crates)
    if len(there) != 1:
        places = ", ".join("::".join(item.path) for item in there)
        return (
            f"several have this name: {places}"
            if there
            else f"nothing of {', '.join(crates) or 'its crate'} has this name"
        )
    missing = [clause for clause in clauses if clause not in there[0].clauses]
    return f"no clause {', '.join(missing)}" if missing else None
