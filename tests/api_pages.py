#!/usr/bin/env python3
"""Makes the pages of the libraries from the sources: a page for each library, README.md, which lists them, and files.md.

    tests/api_pages.py                looks at the pages: each public item, method and trait's function has its sentence,
                                      and each link between the pages leads to a heading
    tests/api_pages.py --out FOLDER   writes the pages into a folder; `packaging/pages` calls it so

A library is a crate of crates.txt whose src/lib.rt passes items on. Its page has the comment of the crate, then each
item that lib.rt passes on: types, functions, traits and constants, and apart from them the laws, those of src/laws.rt
too. A law is a function that takes nothing and answers nothing. Of ghost code nothing is shown but the names of
clauses. files.md says of each file of the crates what it has, by its first sentence.

A source is read by its layout, which `rt fmt` keeps: each item begins at the indentation of its block, and its body
ends there. Only failures are printed; the last line is 'N passed, M failed'.
"""
from __future__ import annotations

import argparse
import functools
import itertools
import pathlib
import re
import sys
from collections.abc import Iterator
from dataclasses import dataclass, field

TOP = pathlib.Path(__file__).resolve().parent.parent
KINDS = {
    "struct": "Types", "enum": "Types", "type": "Types", "fn": "Functions", "trait": "Traits", "const": "Constants",
}  # fmt: skip
SECTIONS = ("Types", "Functions", "Traits", "Constants", "Laws")
DECLARED = re.compile(r"pub (struct|enum|type|fn|trait|const) (\w+)")
# How the page that lists the libraries begins.
FRONT = """# The libraries, item by item

These pages are for those who build on the libraries. Each page has what one library passes on: its types, functions,
traits and constants, and apart from them its laws. `packaging/pages` makes the pages from the sources, and
`packaging/release` those of a release.

A page begins with the comment of its crate. Of a law it has the whole comment, of all else the first sentence. The rest
stands in the source that the page names.

A clause (`ensures`) says what a function answers and what it leaves. A condition (`requires`) says what its caller has
to see to. The pages name them, and the sources have their statements. A law takes nothing and answers nothing: its
clauses say what holds.

[files](files.md) says which file has what. In the repository `docs/LAYERS.md` says which crate stands on which,
`docs/MODEL.md` what the definitions in the clauses say, and `crates/mxf_example` is a whole program that builds on the
libraries.

| Library | What it has |
|---|---|
"""
# How the page of files begins.
FILES = """# The files of the crates

What each file of a crate's `src/` has, by the first sentence of its comment."""
PASSED_ON = re.compile(r"pub use ([\w:]+?)::\{?([\w, ]+)\}?$")
CODE_LINK = re.compile(r"\[`([^`\]]+)`\](?:\(([^)]*)\))?")


@dataclass
class Item:
    """What a source declares: an item, an `impl`, a method, a field or a variant."""

    file: pathlib.Path
    docs: list
    attributes: list
    head: str = ""
    clauses: list = field(default_factory=list)
    body: list = field(default_factory=list)

    def names(self, word):
        """The names of its clauses that begin with the word; that of an unnamed one is empty."""
        return [name for line in self.clauses for name in re.findall(rf"^ *{word} (\w*) ?{{", line)]

    def inside(self):
        """What its body declares."""
        return declared([line[4:] for line in self.body], self.file)


def head_of(line, lines):
    """The first part of an item in one line, up to its clauses or its body: its first line, and those that follow."""
    parts = [line]
    while parts[-1].endswith(("(", "[", "<")):
        parts.append(next(lines))
        while parts[-1][:1] not in (")", "]", ">"):
            parts.append(next(lines))
    head = " ".join(part.strip() for part in parts)
    return re.sub(r",? ([)\]>])", r"\1", re.sub(r"([(\[<]) ", r"\1", head))


def take(item, line, lines):
    """Reads an item, from its first line on: its clauses up to its body, or up to its end, then its body."""
    item.head = last = head_of(line, lines)
    while not last.endswith(("{", "{}", ";", ",")) or last.startswith(" ") and not last.endswith(("};", "},")):
        last = next(lines)
        item.clauses.append(last)
    for line in lines if last.endswith("{") else ():
        if line.startswith("}"):
            break
        item.body.append(line)
    item.head = re.sub(r" ?(\{|\{\}|;|,)$", "", item.head)
    return item


def declared(lines, file):
    """What the lines declare, one after another; they stand at their least indentation."""
    found, docs, attributes, lines = [], [], [], iter(lines)
    for line in lines:
        if line.startswith("///"):
            docs.append(line[4:])
        elif line.startswith("#["):
            attributes.append(line)
        elif line and not line.startswith("//") and not line.startswith("#!"):
            found.append(take(Item(file, docs, attributes), line, lines))
            docs, attributes = [], []
    return found


@functools.cache
def source(file):
    """What a source declares."""
    return declared(file.read_text(encoding="utf-8").splitlines(), file) if file.exists() else []


def passed_on(file):
    """What a source passes on of other modules: each module as a list of names, and the name of the item."""
    for item in source(file):
        if item.head.startswith("pub use "):
            found = PASSED_ON.match(item.head + " ".join(item.body))
            if found is None:
                raise LookupError(f"{file}: this script doesn't know the form of {item.head}")
            for name in re.findall(r"\w+", found[2]):
                yield found[1].split("::"), name


def find(folder, module, name):
    """The item of this name that a module of a folder of sources declares or passes on, or None."""
    file = folder.joinpath(*module).with_suffix(".rt")
    for item in source(file):
        there = DECLARED.match(item.head)
        if there and there[2] == name:
            return item
    for inner, other in passed_on(file):
        if other == name:
            return find(file.with_suffix(""), inner, name)
    return None


@functools.cache
def exported(crate):
    """What a library passes on, by name: the item, or the name of the library from which it has it."""
    folder = TOP / "crates" / crate / "src"
    items = {}
    for file in pages_of_items(folder):
        items |= {there[2]: item for item in source(file) if (there := DECLARED.match(item.head))}
        for module, name in passed_on(file):
            module = module[1:] if module[0] == "crate" else module
            items[name] = module[0] if module[0].startswith("mxf_") else find(folder, module, name)
            if items[name] is None:
                raise LookupError(f"{crate} passes on {name}, which isn't found")
    return items


def pages_of_items(folder):
    """The files whose items a library has: lib.rt, and laws.rt if that is public."""
    file = folder / "lib.rt"
    is_public = any(item.head == "pub mod laws" for item in source(file))
    return [file, folder / "laws.rt"] if is_public else [file]


@functools.cache
def libraries():
    """The libraries in the order of crates.txt."""
    rows = (TOP / "crates.txt").read_text(encoding="utf-8").splitlines()
    return [name for name in (row.split(":")[0].strip() for row in rows if ":" in row) if exported(name)]


def parts_of_impl(head):
    """The trait of an `impl`, or None, and the name of its type."""
    rest, depth = head.removeprefix("impl"), 0
    if rest.startswith("<"):
        for at, character in enumerate(rest):
            depth += {"<": 1, ">": -1}.get(character, 0)
            if depth == 0:
                rest = rest[at + 1 :]
                break
    kind, _, target = rest.strip().rpartition(" for ")
    return kind or None, re.sub(r"^&('\w+ )?|<.*", "", target)


@functools.cache
def implementations(crate):
    """The blocks of `impl` of a crate by the names of their types: the trait of each, or None, and the block."""
    blocks = {}
    for file in sorted((TOP / "crates" / crate / "src").rglob("*.rt")):
        for item in source(file):
            if item.head.startswith("impl"):
                kind, target = parts_of_impl(item.head)
                blocks.setdefault(target, []).append((kind, item))
    return blocks


@functools.cache
def own_traits(crate):
    """The traits that a crate declares and doesn't pass on."""
    files = (TOP / "crates" / crate / "src").rglob("*.rt")
    names = {name for file in files for name in re.findall(r"\btrait (\w+)", file.read_text(encoding="utf-8"))}
    return names - set(exported(crate))


def kind_of(item):
    """The section of an item."""
    if isinstance(item, str):
        return "Types"
    kind = KINDS[DECLARED.match(item.head)[1]]
    return "Laws" if kind == "Functions" and item.head.endswith("()") else kind


def sections(crate):
    """The items of a library, by section, in the order in which lib.rt passes them on."""
    return {
        section: {name: item for name, item in exported(crate).items() if kind_of(item) == section}
        for section in SECTIONS
    }  # fmt: skip


@functools.cache
def anchors(crate):
    """The anchors of the items on the page of a library, as GitHub makes them: a second one of a name has a number."""
    seen, found = {crate: 1}, {}
    for section, items in sections(crate).items():
        for name in (section, *items) if items else ():
            count = seen.get(name.lower(), 0)
            seen[name.lower()] = count + 1
            found[name] = f"{name.lower()}-{count}" if count else name.lower()
    return found


def linked(text, crate, owner=None):
    """A text of the sources with its links to items as links to the pages; what isn't passed on has none."""

    def link(found):
        """The link to the first name of the path that a library passes on: the one that is named, this one, another."""
        path = re.findall(r"\w+", found[2] or found[1])
        path = [owner if word == "Self" else word for word in path]
        named = [word for word in path if word in libraries()]
        for library in dict.fromkeys((*named, crate, *libraries())):
            name = next((word for word in path if word in exported(library)), None)
            if name:
                page = "" if library == crate else f"{library}.md"
                return f"[`{found[1]}`]({page}#{anchors(library)[name]})"
        return f"`{found[1]}`"

    return CODE_LINK.sub(link, text)


def unwrapped(lines):
    """A comment with each paragraph, point of a list and row of a table in one line; blocks of code stay."""
    found, in_block, pipes = [""], False, 0
    for line in lines:
        last = found[-1]
        is_fence, is_row = line.startswith("```"), line.startswith("|")
        if is_row and not last.startswith("|"):
            pipes = line.count("|")
        if is_fence or in_block:
            found.append("```rust" if line == "```" and not in_block else line)
            in_block ^= is_fence
        elif last.startswith("|") and last.count("|") < pipes:
            found[-1] += f" {line}"
        elif line and last and not is_row and not line.startswith("- ") and not last.startswith(("|", "```")):
            found[-1] += f" {line.strip()}"
        elif line or last:
            found.append(line)
    return "\n".join(found).strip("\n")


def first_sentence(lines):
    """The first sentence of a comment."""
    paragraph = unwrapped(lines).split("\n")[0]
    return re.split(r"(?<=[.!?])\s+(?=[A-Z`\[\d])", paragraph, maxsplit=1)[0]


def listed(kind, names):
    """The clauses of a kind in words, by their names; one alone may have none."""
    *others, last = (f"`{name}`" if name else "an unnamed one" for name in names)
    if others:
        return f"its {kind}s {', '.join(others)} and {last}"
    return f"its {kind} {last}" if names[0] else f"its one {kind}"


def place(item):
    """Where an item stands, with its clauses."""
    conditions, clauses = item.names("requires"), item.names("ensures")
    told = [listed("condition", conditions)] if conditions else []
    told += [listed("clause", clauses)] if clauses else []
    verb = "stand" if len(conditions + clauses) > 1 else "stands"
    words = " and ".join(told or ["it"])
    path = item.file.relative_to(TOP).as_posix()
    return f"{words[0].upper()}{words[1:]} {verb} in `{path}`."


def signature(item):
    """What an item is called, and takes and gives, in one line."""
    return f"`{item.head.removeprefix('pub ')}`"


def told(item, crate, owner=None):
    """The first sentence of an item, and where it stands."""
    return f"{linked(first_sentence(item.docs), crate, owner)} {place(item)}".strip()


def method(item, crate, owner):
    """A method in one line. It stands beside its type or below it."""
    return f"- {signature(item)}: {linked(first_sentence(item.docs), crate, owner)}"


def member(item, crate, owner):
    """A field or a variant in one line: how it is declared, and its first sentence."""
    fields = ", ".join(inner.head for inner in item.inside())
    head = item.head.removeprefix("pub ") + (f" {{ {fields} }}" if fields else "")
    sentence = linked(first_sentence(item.docs), crate, owner)
    return f"- `{head}`: {sentence}" if sentence else f"- `{head}`"


def members(name, item, crate):
    """The public fields of a type, or its variants."""
    is_enum = item.head.startswith("pub enum ")
    shown = [inner for inner in item.inside() if is_enum or inner.head.startswith("pub ")]
    rows = [member(inner, crate, name) for inner in shown if not inner.head.startswith(("ghost ", "pub ghost "))]
    return ["Its variants:" if is_enum else "Its public fields:", "\n".join(rows)] if rows else []


def methods(name, item, crate):
    """The public methods of a type, first those that stand beside it."""
    blocks = [block for kind, block in implementations(crate).get(name, []) if kind is None]
    blocks.sort(key=lambda block: block.file != item.file)
    found = [inner for block in blocks for inner in block.inside() if inner.head.startswith("pub fn ")]
    return ["Its methods:", "\n".join(method(inner, crate, name) for inner in found)] if found else []


def trait_words(kind, block, crate):
    """A trait that a type has, with what an iterator gives, and the clauses that its functions have here."""
    link = linked(f"[`{kind.removeprefix('fmt::')}`]", crate)
    given = [item.head.removeprefix("type Item = ") for item in block.inside() if item.head.startswith("type Item = ")]
    own = {re.match(r"fn (\w+)|", item.head)[1]: item.names("ensures") for item in block.inside()}
    clauses = [f"`{name}` has {listed('clause', names)}" for name, names in own.items() if name and names]
    return link + "".join(f" of `{item}`" for item in given) + (f" ({', '.join(clauses)})" if clauses else "")


def traits(name, item, crate):
    """The traits of a type, derived or not, but for those of the proofs and those of the crate alone."""
    derived = re.findall(r"\w+", " ".join(re.findall(r"derive\(([^)]*)\)", " ".join(item.attributes))))
    words = [f"`{kind}`" for kind in derived]
    for kind, block in implementations(crate).get(name, []):
        if kind and kind != "Model" and kind not in own_traits(crate):
            words.append(trait_words(kind, block, crate))
    return [f"Its traits: {', '.join(words)}."] if words else []


def type_entry(name, item, crate):
    """What a page has of a type."""
    if isinstance(item, str):
        return [f"It is the one of [{item}]({item}.md#{anchors(item)[name]})."]
    parts = (members, methods, traits)
    return [*item_entry(name, item, crate), *(text for part in parts for text in part(name, item, crate))]


def trait_entry(name, item, crate):
    """What a page has of a trait."""
    found = [inner for inner in item.inside() if not inner.head.startswith("ghost ")]
    rows = [(method if inner.head.startswith("fn ") else member)(inner, crate, name) for inner in found]
    return [*item_entry(name, item, crate), "What it has:", "\n".join(rows)]


def item_entry(name, item, crate):
    """What a page has of a function or a constant, and first of all others."""
    return [f"{signature(item)}: {told(item, crate, name)}"]


def law_entry(_name, item, crate):
    """What a page has of a law: its whole comment."""
    return [linked(unwrapped(item.docs), crate), place(item)]


ENTRIES = {
    "Types": type_entry, "Functions": item_entry, "Traits": trait_entry, "Constants": item_entry, "Laws": law_entry,
}  # fmt: skip


def crate_comment(crate):
    """The lines of the comment of a crate."""
    lines = (TOP / "crates" / crate / "src/lib.rt").read_text(encoding="utf-8").splitlines()
    return [line[4:] for line in lines if line.startswith("//!")]


def page(crate):
    """The page of a library."""
    parts = [f"# {crate}", linked(unwrapped(crate_comment(crate)), crate)]
    for section, items in sections(crate).items():
        parts += [f"## {section}"] if items else []
        for name, item in items.items():
            parts += [f"### `{name}`", *ENTRIES[section](name, item, crate)]
    return "\n\n".join(parts) + "\n"


def front():
    """The page that lists the libraries."""
    rows = [f"| [{name}]({name}.md) | {linked(first_sentence(crate_comment(name)), name)} |" for name in libraries()]
    return unwrapped([*FRONT.splitlines(), *rows]) + "\n"


def comment_of(file):
    """The first sentence of the comment at the head of a file."""
    lines = itertools.takewhile(lambda line: line.startswith("//!"), file.read_text(encoding="utf-8").splitlines())
    return first_sentence([line[4:] for line in lines])


def files_of(crate):
    """The table of a crate's files: each with the first sentence of its comment."""
    folder = TOP / "crates" / crate / "src"
    for file in sorted(folder.rglob("*.rt"), key=lambda file: file.with_suffix("").parts):
        path = file.relative_to(folder).as_posix()
        yield f"| {path} | {linked(comment_of(file), crate)} |"


def files():
    """The page that says which file has what."""
    rows = (TOP / "crates.txt").read_text(encoding="utf-8").splitlines()
    parts = [FILES]
    for crate in (row.split(":")[0].strip() for row in rows if ":" in row):
        head = f"| In `crates/{crate}/src` | Has |"
        parts += [f"## {crate}", "\n".join((head, "|---|---|", *files_of(crate)))]
    return "\n\n".join(parts) + "\n"


@functools.cache
def pages():
    """The pages by the names of their files."""
    return {"README.md": front(), "files.md": files(), **{f"{name}.md": page(name) for name in libraries()}}


def told_items(crate: str) -> Iterator[tuple[str, str]]:
    """What a page says of each public item, of each public method and of each function of a trait: its name, and its
    first sentence, which is empty if it has none."""
    for name, item in exported(crate).items():
        if isinstance(item, str):
            continue
        yield name, first_sentence(item.docs)
        blocks = [block for kind, block in implementations(crate).get(name, []) if kind is None]
        for inner in itertools.chain.from_iterable(block.inside() for block in blocks):
            if inner.head.startswith("pub fn "):
                yield f"{name}::{inner.head.removeprefix('pub ')}", first_sentence(inner.docs)
        for inner in item.inside() if item.head.startswith("pub trait ") else ():
            if inner.head.startswith("fn "):
                yield f"{name}::{inner.head}", first_sentence(inner.docs)


def headings_of(text: str) -> set[str]:
    """The anchors of the headings of a page, as GitHub makes them."""
    names = [re.sub(r"[^\w\- ]", "", line.lstrip("# ").lower()).replace(" ", "-") for line in text_lines(text)]
    return {f"{name}-{names[:at].count(name)}" if name in names[:at] else name for at, name in enumerate(names)}


def text_lines(text: str) -> list[str]:
    """The headings of a page, without the lines of its blocks of code."""
    outside = re.sub(r"^```.*?^```", "", text, flags=re.MULTILINE | re.DOTALL)
    return [line for line in outside.splitlines() if line.startswith("#")]


def faults() -> Iterator[tuple[str, str | None]]:
    """What is looked at: of each thing its name, and what is wrong with it, or None."""
    for crate in libraries():
        for name, sentence in told_items(crate):
            yield f"{crate}: {name}", None if sentence else "it has no sentence"
    headings = {name: headings_of(text) for name, text in pages().items()}
    for name, text in pages().items():
        for page_name, anchor in re.findall(r"\]\(([\w.]*)#?([^)\s]*)\)", text):
            there = headings.get(page_name or name, set())
            is_there = anchor in there if anchor else bool(there)
            yield f"{name}: {page_name}#{anchor}", None if is_there else "the link leads nowhere"


def check() -> bool:
    """Prints what is wrong with the pages, and how many things were looked at. Whether nothing is wrong."""
    found = list(faults())
    failed = [(name, fault) for name, fault in found if fault]
    for name, fault in failed:
        print(f"FAILED: {fault}: {name}")
    print(f"{len(found) - len(failed)} passed, {len(failed)} failed")
    return not failed


def write(folder: pathlib.Path) -> None:
    """Writes the pages into a folder, and removes pages of libraries that are no more."""
    folder.mkdir(parents=True, exist_ok=True)
    for old in folder.glob("mxf_*.md"):
        if old.name not in pages():
            old.unlink()
    for name, text in pages().items():
        (folder / name).write_text(text, encoding="utf-8")


def main() -> int:
    parser = argparse.ArgumentParser(description="Looks at the pages of the libraries, or writes them.")
    parser.add_argument("--out", metavar="FOLDER", type=pathlib.Path, help="write the pages into this folder")
    folder = parser.parse_args().out
    if folder is None:
        return 0 if check() else 1
    write(folder)
    return 0


if __name__ == "__main__":
    sys.exit(main())
