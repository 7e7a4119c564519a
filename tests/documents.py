#!/usr/bin/env python3
"""Looks up each link of the documents: the file is there, and has the heading that the link names. If a link is to a
source and names a function or a type, or if one is named with its crate (`crate::module::call`, `crate::call`, or
several as `crate::Type::{call (clause), call}`), that is there, no other has this name, and the function has the
clauses that stand in parentheses after it. So is each name of the tables of docs/PROMISES.md, in the crates that stand
above its table. Sees that each line of a block that names a file of crates/ stands in it. Sees that each row of a
table stands in a table, which an empty line would end, and that the numbers of tests, edits, runs and files that a
document gives are those of the scripts and crates. Sees that each row of docs/PROMISES.md names a clause, what tries
it or edits that there are, and that its list has each public call that can be out of memory, and no name of none.
Sees that each definition that a clause of a public function of the libraries cites has a sentence where it stands, or
in docs/MODEL.md. Looks up each file of definitions that this names, in the crate of the heading above. Compares the
tables of docs/LAYERS.md and crates/README.md with crates.txt. Looks up the names of code of docs/MODEL.md,
docs/DECISIONS.md and docs/FORMATS.md in the sources.
Compares what docs/FORMATS.md owns (exit statuses, stops, forms of a source, findings, words of lines) with what
README.md, docs/GUIDE.md, the man page and the sources say of it. Sees that no sentence begins with "Of"
or "Those", and that none has more than 40 words. Only failures are printed; the last line is 'N passed, M failed'.
"""
import ast
import collections
import functools
import itertools
import pathlib
import re
import sys

import api_pages
import named_code

TOP = pathlib.Path(__file__).resolve().parent.parent
LINK = re.compile(r"\[[^\]]*\]\(([^)\s]+)\)")
CLAUSES = r"(?: \(((?:`\w+`,? ?)+))?"
CONTRACT = re.compile(r"\[`([\w:]+)`\]\(([^)\s]+\.rt)\)" + CLAUSES)
PLACED = re.compile(r"`(mxf_\w+(?:::\w+)+)`" + CLAUSES)
GROUPED = re.compile(r"`(mxf_\w+(?:::\w+)*)::\{([^`]*)\}`")
LIBRARIES = (
    "mxf_digests", "mxf_klv", "mxf_sets", "mxf_catalogue", "mxf_skim", "mxf_views", "mxf_references", "mxf_findings",
    "mxf_doubts", "mxf_tracks", "mxf_clocks", "mxf_places", "mxf_restore", "mxf_map", "mxf_units", "mxf_timed",
    "mxf_partial", "mxf_read", "mxf_readings", "mxf_verify", "mxf_hand", "mxf_find", "mxf_forms", "mxf_lines",
    "mxf_skimmed", "mxf_progress",
)  # fmt: skip
# What the program is made of beside them.
PROGRAM = ("mxf_asked", "mxf_saving", "mxf_watching", "mxf_commands", "mxf_hints", "mxf_sources", "mxf_tool")
IMPORT = re.compile(r"^ghost use Rattle\.(mxf_\w+)\.specs\.(\w+)\.\{([^}]*)\};", re.MULTILINE)
# Modules of small files alone, of which docs/MODEL.md names the file.
EXAMPLES = re.compile(r"Worked\w+|RefusedFiles")
QUOTED = re.compile(r"```\w+ (crates/\S+)")


def lines_of(document):
    """The lines of a document that are text: those of its blocks of code are empty."""
    in_block = False
    for line in document.read_text(encoding="utf-8").splitlines():
        fence = line.lstrip().startswith("```")
        in_block ^= fence
        yield "" if fence or in_block else line


def anchors_of(document):
    """The anchors of its headings, as GitHub makes them: from the second of a name on they have a number."""
    headings = (line.lstrip("#") for line in lines_of(document) if re.match(r"#+ ", line))
    names = [re.sub(r"[^\w\- ]", "", heading.strip().lower()).replace(" ", "-") for heading in headings]
    counts = (names[:place].count(name) for place, name in enumerate(names))
    return {f"{name}-{count}" if count else name for name, count in zip(names, counts)}


def fault_of_link(document, target):
    """Why the link leads nowhere, or None."""
    path, _, anchor = target.partition("#")
    file = (document.parent / path).resolve() if path else document
    if not file.exists():
        return "no such file"
    if anchor and anchor not in anchors_of(file):
        return "no such heading"
    return None


def verdicts_of_links(document):
    """For each link between the documents: its line, what it names, and why it leads nowhere, or None."""
    for number, line in enumerate(lines_of(document), 1):
        for target in LINK.findall(re.sub(r"`[^`]*`", "", line)):
            if "://" not in target:
                yield number, target, fault_of_link(document, target)


def text_of(file):
    """The text of a file, which is empty if there is none."""
    return file.read_text(encoding="utf-8") if file.exists() else ""


def fault_of_contract(text, name, clauses):
    """Why a source has no such function or type, or the function not these clauses, or None."""
    functions = re.split(r"^ *(?:pub(?:\(\w+\))? )?(?=fn )", text, flags=re.MULTILINE)
    own = [function for function in functions if re.match(rf"fn {name}\b", function)]
    if not own and not re.search(rf"\b(struct|enum|trait|type) {name}\b", text):
        return "no such function or type"
    missing = [clause for clause in clauses if not any(f"ensures {clause} {{" in function for function in own)]
    return f"no clause {', '.join(missing)}" if missing else None


def placed_in(line):
    """The functions and types that a line names with their crates, each with its clauses."""
    for name, clauses in PLACED.findall(line):
        yield name, re.findall(r"\w+", clauses)
    for place, names in GROUPED.findall(line):
        for name, clauses in re.findall(r"([\w:]+)(?: \(([\w, ]+)\))?", names):
            yield f"{place}::{name}", re.findall(r"\w+", clauses)


def verdicts_of_contracts(document):
    """For each function or type of a source that is named: its line, its name, and why it isn't there, or None."""
    for number, line in enumerate(lines_of(document), 1):
        for name, path, clauses in CONTRACT.findall(line):
            text = text_of(document.parent / path)
            yield number, name, fault_of_contract(text, name.split("::")[-1], re.findall(r"\w+", clauses))
        for name, clauses in placed_in(line):
            yield number, name, named_code.fault_of_name(name, clauses, [])


def verdicts_of_tables(document):
    """For each table, rows one below the other: its first line, that line, and what is wrong with it, or None."""
    rows = []
    for number, line in enumerate([*lines_of(document), ""], 1):
        if line.startswith("|"):
            rows.append(line)
        elif rows:
            is_table = len(rows) > 1 and re.fullmatch(r"\|[-| ]+\|", rows[1])
            yield number - len(rows), rows[0], None if is_table else "rows without a header"
            rows = []


def verdicts_of_quotes(document):
    """For each line of a block that names a file: its number, the line, and that the file hasn't it, or None."""
    file = None
    for number, line in enumerate(document.read_text(encoding="utf-8").splitlines(), 1):
        if line.startswith("```"):
            quoted = QUOTED.fullmatch(line)
            file = quoted and quoted[1]
        elif file:
            yield number, line, None if line in text_of(TOP / file).splitlines() else f"no such line of {file}"


def exported_by(crate):
    """The names that a library passes on, the laws' too."""
    return set(api_pages.exported(crate))


def clauses_of(text, exported):
    """The clauses of the public functions of a source, one text a function: of those that are passed on by their names
    or by those of their types."""
    lines, owner = iter(text.splitlines()), None
    for line in lines:
        if line.startswith("impl"):
            owner = re.search(r"(\w+)(?:<[^>]*>)?$", line.split(" where")[0].removesuffix(" {"))
        begin = re.match(r"( *)pub fn (\w+)", line)
        name = begin and (owner and owner[1] if begin[1] else begin[2])
        clauses = []
        while name in exported and not line.endswith(" {") and line.strip() not in ("{", "{}"):
            line = next(lines)
            clauses.append(line)
        yield "\n".join(clauses)


def cited_in(source, exported):
    """The definitions that the public clauses of a source cite: the file of each, and its name."""
    text = text_of(source)
    words = set(re.findall(r"\w+", " ".join(clauses_of(text, exported))))
    for crate, module, names in IMPORT.findall(text):
        for name in re.findall(r"\w+", names):
            if name in words:
                yield f"crates/{crate}/specs/{module}.antt", name


def has_entry(model, file, name):
    """Whether the text has the name of a definition, or that of its relation or record: a test and a maker have that in
    small letters. Of small files it has the file."""
    if EXAMPLES.fullmatch(pathlib.Path(file).stem):
        return re.search(rf"`(?:mxf_\w+/)?{pathlib.Path(file).name}`", model) is not None
    return f"`{name}`" in model or f"`{name.title().replace('_', '')}`" in model


@functools.cache
def with_sentences(file):
    """The definitions of a file that have a comment right above them."""
    lines = [line.lstrip() for line in text_of(TOP / file).splitlines()]
    below = [
        line for above, line in zip(lines, lines[1:]) if above.startswith("--") and not line.startswith(("--", "use "))
    ]
    named = (re.match(r"(?:(?:pub|abbrev|unfoldable|record|data) )*([^\s(){}:]+)", line) for line in below)
    return {name[1] for name in named if name}


def has_sentence(file, name):
    """Whether a definition has a sentence of its own where it stands: right above it; above the relation that it tests or
    computes, whose name has capital letters, and may begin with Is or Are; or in a comment that names it."""
    there = with_sentences(file)
    titles = {word.title().replace("_", "") for word in (name, re.sub(r"_(of|at|in)$", "", name))}
    known = {name, *titles, *(f"Is{title}" for title in titles), *(f"Are{title}" for title in titles)}
    return bool(known & there) or re.search(rf"--.*\b{re.escape(name)}\b", text_of(TOP / file)) is not None


def verdicts_of_definitions(document):
    """For each definition that a public clause of the libraries cites: that it has no sentence where it stands, and none
    in docs/MODEL.md, or None."""
    if document.name != "MODEL.md":
        return
    cited = set()
    for crate in LIBRARIES:
        for source in (TOP / "crates" / crate / "src").rglob("*.rt"):
            cited.update(cited_in(source, exported_by(crate)))
    for file, name in sorted(cited):
        is_said = has_sentence(file, name) or has_entry(text_of(document), file, name)
        yield 1, f"{name} of {file}", None if is_said else "no sentence says what this is, above it or here"


def verdicts_of_definition_files(document):
    """For each file of definitions that docs/MODEL.md names, with its crate or below the heading of that: its line, its
    name, and that it isn't there, or None."""
    if document.name != "MODEL.md":
        return
    below = ""
    for number, line in enumerate(lines_of(document), 1):
        heading = re.match(r"## (mxf_\w+)", line)
        below = heading[1] if heading else below
        for crate, name in re.findall(r"`(?:(mxf_\w+)/)?(\w+\.antt)`", line):
            file = TOP / "crates" / (crate or below) / "specs" / name
            yield number, name, None if file.exists() else f"no such file of {crate or below}"


def crates():
    """What each crate of crates.txt stands on."""
    rows = (line.split(":") for line in text_of(TOP / "crates.txt").splitlines() if ":" in line)
    return {name.strip(): set(below.split()) for name, below in rows}


def named_in_tables(document):
    """The crates whose folders begin the rows of a document, in their order."""
    rows = (re.match(r"\| \[(mxf_\w+)\]\((?:\.\./crates/)?mxf_\w+\) \|", line) for line in lines_of(document))
    return [row[1] for row in rows if row]


def verdicts_of_layers(document):
    """That crates/README.md has a row for each crate, and docs/LAYERS.md one for each that another uses or that has laws;
    or how their tables differ from crates.txt."""
    wanted = {"crates": sorted(crates()), "docs": sorted((set(LIBRARIES) | set(PROGRAM)) - {"mxf_tool"})}
    if (document.parent.name, document.name) in (("crates", "README.md"), ("docs", "LAYERS.md")):
        named = sorted(named_in_tables(document))
        differing = sorted(set(named) ^ set(wanted[document.parent.name])) or sorted(named)
        fault = None if named == wanted[document.parent.name] else f"crates.txt differs in {differing}"
        yield 1, "the table of crates", fault


# A word of a proof or a definition: its letters may be signs, and dashes join parts.
WORD = re.compile(r"[^\s(){}\[\],.;:|]+")
DECLARATION = re.compile(r"( *)(?:(?:pub|abbrev|unfoldable) )*(?:(?:record|data) ([\w-]\S*) |([\w-]\S*) : )")


def declarations(file):
    """What a file of definitions or lemmas declares: each name with the words of its own lines. These are its signature
    and its cases, and what stands further in below them."""
    depth, name, words, inside = 0, None, [], None
    for line in text_of(file).splitlines():
        if not line.strip() or line.lstrip().startswith(("use ", "--", "unfolding ")):
            continue
        indentation = len(line) - len(line.lstrip())
        inside = None if inside is not None and indentation <= inside else inside
        found = DECLARATION.match(line) if inside is None else None
        if name and indentation <= depth and line.split()[0] not in (name, ")", "}", "]"):
            yield name, words
            name = None
        if found and name is None:
            depth, name, words = indentation, found[2] or found[3], []
            inside = indentation if found[2] else None
        words += WORD.findall(line)
    if name:
        yield name, words


def verdicts_of_declarations(document):
    """For each crate: the definitions and lemmas that nothing names but their own lines, or None."""
    if document.name != "LAYERS.md":
        return
    files = {crate: [*(TOP / "crates" / crate).glob("specs/*.antt"), *(TOP / "crates" / crate).glob("proofs/*.antt")]
             for crate in crates()}  # fmt: skip
    named, own = collections.Counter(), collections.Counter()
    for file in (file for suffix in ("rt", "antt") for file in (TOP / "crates").glob(f"*/*/**/*.{suffix}")):
        if "/out/" not in file.as_posix():
            lines = (line for line in text_of(file).splitlines() if not re.match(r"\s*use ", line))
            named.update(WORD.findall("\n".join(lines)))
    for name, words in itertools.chain.from_iterable(map(declarations, itertools.chain(*files.values()))):
        own[name] += words.count(name)
    for crate, known in files.items():
        unnamed = sorted(f"{name} of {file.relative_to(TOP)}" for file in known for name, _ in declarations(file)
                         if named[name] == own[name])  # fmt: skip
        yield 1, f"declarations of {crate}", f"nothing names {', '.join(unnamed)}" if unnamed else None


# What a cell of docs/PROMISES.md has that names no clause and carries a promise: the two that rest on the language, and
# the one that rests on rows below.
CARRIED = ("each function's proof", "only lent (`&`)", "(#end-to-end)")
TRIED_BY = re.compile(r"(?:tests|benches|crates)/[\w./]*\w|mxf_\w+(?:::\w+)*|\(#[\w-]+\)")
TOPICS = re.compile(r"topics? (`\w+`(?:, `\w+`)*)")


def cells_below(document):
    """The cells of all rows of tables but the first of each: the line of each, the number of its column, the heading above
    it, and its text. That of a heading has no text."""
    headings = None
    for number, line in enumerate(lines_of(document), 1):
        cells = [cell.strip() for cell in line.split("|")[1:-1]]
        if not cells or headings is None:
            headings = cells or None
            yield from ((number, column, heading, None) for column, heading in enumerate(cells[1:], 1))
        elif not re.fullmatch(r"[-| ]+", line):
            yield from ((number, column, headings[column], cells[column]) for column in range(1, len(cells)))


def second_cells(document):
    """The second cells of all rows of tables: the line of each, the heading above it, and its text."""
    return ((number, heading, cell) for number, column, heading, cell in cells_below(document) if column == 1)


# The crates whose names stand without them in the tables below, as a section of docs/PROMISES.md says them.
CRATES_BELOW = re.compile(r"Crates?: (mxf_\w+(?:, mxf_\w+)*)\.")
# What cells name that several types have, or that is a part of a contract.
OF_SEVERAL = {"write_to", "read", "of", "Display", "Eq", "Ord", "history", "goes_on"}
NAMED = re.compile(r"`([\w:]+)(?:::\{([^`]*)\})?`" + CLAUSES)


def names_in(cell):
    """The functions, methods, laws and types that a cell of docs/PROMISES.md names, each with its clauses. What a link
    shows is no such name."""
    for name, several, clauses in NAMED.findall(LINK.sub("", cell)):
        members = re.findall(r"(\w+)(?: \(([\w, ]+)\))?", several) if several else ()
        yield from ((f"{name}::{member}", re.findall(r"\w+", own)) for member, own in members)
        if not several and name not in OF_SEVERAL:
            yield name, re.findall(r"\w+", clauses)


@functools.cache
def defined_in(crate):
    """The definitions of a crate, and the fields of its records."""
    files = sorted((TOP / "crates" / crate / "specs").glob("*.antt"))
    fields = (re.findall(r"^ +pub ([\w-]+) :", text_of(file), re.MULTILINE) for file in files)
    return {name for file in files for name, _ in declarations(file)}.union(*fields)


# The headings of the columns of docs/PROMISES.md in which each name is looked up.
NAMING = ("Carried by", "Field or contract", "Rests on these conditions")


def texts_with_names(document, crates_at):
    """The texts of docs/PROMISES.md that name items: the line of each, and the names that are looked up, with their
    clauses. In a paragraph below the crates of a section these are the names in small letters that have several words.
    Behind `tried` none is: a name with its crate is looked up as everywhere."""
    for number, _, heading, cell in cells_below(document):
        if cell is not None and heading in NAMING:
            yield number, names_in(cell.partition("tried")[0])
    for number, line in enumerate(lines_of(document), 1):
        if crates_at[number] and not line.startswith(("|", "#", "- ")):
            yield number, (named for named in names_in(line) if re.fullmatch(r"[a-z]+_\w+", named[0]))


def verdicts_of_names(document):
    """For each name of docs/PROMISES.md that is looked up: its line, the name, and that the crates above have no item of
    that name or several, or that the item lacks a clause; or None. Definitions and fields of records are named too."""
    crates_above, crates_at = [], {}
    for number, line in enumerate(lines_of(document) if document.name == "PROMISES.md" else (), 1):
        above = CRATES_BELOW.fullmatch(line)
        crates_above = above[1].split(", ") if above else [] if line.startswith("#") else crates_above
        crates_at[number] = crates_above
    for number, names in texts_with_names(document, crates_at) if crates_at else ():
        for name, clauses in names:
            is_defined = not clauses and any(name in defined_in(crate) for crate in crates_at[number])
            yield number, name, None if is_defined else named_code.fault_of_name(name, clauses, crates_at[number])


def fault_of_trial(words):
    """Why these words don't say what tries a promise: they name nothing, or no file that there is; or None."""
    topics = re.findall(r"\w+", " ".join(TOPICS.findall(words)))
    named = TRIED_BY.findall(words) + [f"tests/end_to_end.d/{topic}" for topic in topics]
    missing = [name for name in named if "/" in name and not (TOP / name).exists()]
    return f"no such file as {', '.join(missing)}" if missing else None if named else "not said by what it is tried"


def fault_of_promise(cell):
    """Why nothing carries the promise of a cell: it names no clause and not what tries it; or None."""
    proof, marked, trial = cell.partition("tried")
    if (proof or not marked) and not any(names_in(proof)) and not any(words in proof for words in CARRIED):
        return "neither a clause nor what it is tried by"
    return fault_of_trial(trial) if marked else None


def fault_of_edits(cell):
    """Why a cell doesn't name edits by their crates, as tests/edits takes them, or None."""
    grouped = re.findall(r"`(mxf_\w+)/\{?([\w, ]+)\}?`", cell)
    named = [(crate, name) for crate, names in grouped for name in names.split(", ")]
    missing = [f"{crate}/{name}" for crate, name in named if not list((TOP / "crates" / crate).glob(f"*/{name}.edit"))]
    return f"no such edit as {', '.join(missing)}" if missing else None if named else "no edit is named"


# What is looked up in the second cells of docs/PROMISES.md, by the heading above them.
PROMISED = {
    "Carried by": fault_of_promise, "Tried by": fault_of_trial, "Field or contract": None, "Edit": fault_of_edits,
}  # fmt: skip


def verdicts_of_promises(document):
    """For each table of docs/PROMISES.md: that nobody knows its second heading, or None. For each of its rows that has
    a promise: its line, what carries it, and why nothing does, or None."""
    for number, heading, cell in second_cells(document) if document.name == "PROMISES.md" else ():
        fault_of = PROMISED.get(heading)
        if cell is None:
            yield number, heading, None if heading in PROMISED else "no such heading of promises"
        elif fault_of:
            yield number, cell, fault_of(cell)


def calls_with_memory():
    """The public calls of the libraries that can answer that they are out of memory, by the pages that tests/api_pages.py
    makes: the type of each, which a function hasn't, and its name."""
    for page in (api_pages.pages()[f"{name}.md"] for name in LIBRARIES):
        owner = None
        for line in page.splitlines():
            heading = re.match(r"#+ `(\w+)`", line)
            owner = heading[1] if heading else owner
            call = re.match(r"(- )?`fn (\w+)[^`]*\balloc: Global\b[^`]*-> Result<", line)
            if call:
                yield owner if call[1] else None, call[2]


def verdicts_of_memory(document):
    """For each call that can answer that it is out of memory: that the list of such calls in docs/PROMISES.md hasn't
    its name, or None. For each name of the list: its line, and that its crates have no item of that name, or several, or
    None."""
    if document.name != "PROMISES.md":
        return
    listed, in_list = set(), False
    for number, line in enumerate(lines_of(document), 1):
        in_list = line == "### Calls that take memory" if line.startswith("#") else in_list
        item = re.match(r"- (mxf_\w+(?:, mxf_\w+)*): ", line) if in_list else None
        for name, _ in names_in(line) if item else ():
            listed.add(name)
            yield number, name, named_code.fault_of_name(name, [], item[1].split(", "))
    for owner, name in calls_with_memory():
        named = f"{owner}::{name}" if owner else name
        yield 1, named, None if named in listed else "not in the list of calls that take memory"


def length_of(script, name):
    """How many entries the list or table of this name has in a Python script."""
    for node in ast.parse(text_of(TOP / script)).body:
        if isinstance(node, ast.Assign) and getattr(node.targets[0], "id", None) == name:
            return len(getattr(node.value, "elts", None) or node.value.keys)
    return None


def number_in(script, pattern):
    """The number that the pattern finds in a script."""
    found = re.search(pattern, text_of(TOP / script))
    return found and int(found[1])


def tests_of(crate):
    """How many tests a crate has."""
    return sum(
        file.read_text(encoding="utf-8").count("#[test]") for file in (TOP / "crates" / crate / "src").rglob("*.rt")
    )


def edits_of(crate):
    """How many edits of a crate the gate tries."""
    return len(list((TOP / "crates" / crate / "must-fail").glob("*.edit")))


# Where a document gives a number that a script or a crate has: the document, how the number stands there, and what it
# is. A name of a crate that is found is handed on.
NUMBERS = (
    ("docs/PROMISES.md", r"()(\d+) small runs", lambda _: length_of("tests/refusals", "RUNS")),
    ("docs/PROMISES.md", r"()the same (\d+) runs", lambda _: length_of("tests/refusals", "RUNS")),
    ("docs/PROMISES.md", r"()in (\d+) of them each byte", lambda _: length_of("tests/refusals", "BYTEWISE")),
    ("docs/PROMISES.md", r"()(\d+) tests of mxf_refusals", lambda _: tests_of("mxf_refusals")),
    ("docs/PROMISES.md", r"()(\d+) files in tests/all", lambda _: number_in("tests/hostile.py", r'\["(\d+)", "0"\]')),
    ("docs/PROMISES.md", r"()(\d[\d,]*) in tests/long", lambda _: number_in("tests/long", r"\{1:-(\d+)\}")),
    ("docs/PROMISES.md", r"()(\d+) bytes of each example", lambda _: number_in("tests/hostile.py", r"FLIPPED = (\d+)")),
    ("docs/PROMISES.md", r"()each of (\d+) shapes", lambda _: length_of("tests/hostile_files.py", "MANY")),
    ("CONTRIBUTING.md", r"^\| (mxf_\w+) \|.*\((\d+) tests?\)", tests_of),
    ("CONTRIBUTING.md", r"^\| (mxf_\w+) \|.*\((\d+) edits?\)", edits_of),
)


def verdicts_of_numbers(document):
    """For each number of the document that a script or crate has: its line, the words, and that it differs, or None."""
    for name, pattern, count in NUMBERS:
        for number, line in enumerate(lines_of(document) if document == TOP / name else (), 1):
            for found in re.finditer(pattern, line):
                there = count(found[1])
                yield number, found[0][-80:], None if int(found[2].replace(",", "")) == there else f"it's {there}"


# A name of code in a document: in small letters with a `_`, or with a capital letter within. An unused crate has one.
NAME_OF_CODE = re.compile(r"\b(?!serde_json\b)(?:[a-z]+_\w+|[A-Z]+[a-z]\w*[A-Z]\w*)\b")


def words_of_sources():
    """The words of all sources, definitions and scripts."""
    files = [file for part in ("src", "specs", "proofs") for file in (TOP / "crates").glob(f"*/{part}/**/*.*t")]
    files += [
        file for folder in ("tests", "report") for file in (TOP / folder).rglob("*") if file.suffix in ("", ".py")
    ]
    return set().union(*(re.findall(r"\w+", text_of(file)) for file in files if file.is_file()))


def verdicts_of_code(document):
    """For each name of code of MODEL.md, DECISIONS.md and FORMATS.md: its line, the name, and that no source has it, or
    None."""
    if document.name not in ("MODEL.md", "DECISIONS.md", "FORMATS.md"):
        return
    known = words_of_sources()
    for number, line in enumerate(lines_of(document), 1):
        for quoted in re.findall(r"`([^`]+)`", line):
            for name in NAME_OF_CODE.findall(quoted):
                yield number, name, None if name in known else "no source has this name"


FORMATS = TOP / "docs/FORMATS.md"
MAN = "docs/mxf_tool.1"
GUIDE = "docs/GUIDE.md"
README = "README.md"
SOURCE_FORM = r"[a-z]+:(?:OFFSET:)?PATH"
# Tables of docs/FORMATS.md of which the man page has each word of the first column, in bold, in one of these sections.
WORDS_OF_THE_MAN_PAGE = {
    "STOP": ("show",), "LINK": ("show",), "TARGET": ("show",), "STANDING": ("units",), "REASON": ("plan",),
    "Character": ("map",), "WORD": ("verify", "units"),
}  # fmt: skip

# Tables of docs/FORMATS.md whose first column has the words of a type: its source and its name.
PRINTED = {
    "STOP": ("crates/mxf_klv/src/piece.rt", "Stop"),
    "LINK": ("crates/mxf_views/src/chain.rt", "Link"),
    "STANDING": ("crates/mxf_units/src/standing.rt", "UnitStanding"),
    "REASON": ("crates/mxf_places/src/reason.rt", "Reason"),
}


def rows_below(header):
    """The rows of the table of docs/FORMATS.md whose header begins with a word, each a list of its cells."""
    rows, in_table = [], False
    for line in lines_of(FORMATS):
        in_table = line.startswith("|") and (in_table or re.match(rf"\| {header}\b", line) is not None)
        if in_table:
            rows.append([cell.strip() for cell in re.split(r"(?<!\\)\|", line)[1:-1]])
    return rows[2:]


def words_below(header):
    """The words of the first column of a table of docs/FORMATS.md, each without what stands with it."""
    return {word.split()[0] for row in rows_below(header) for word in re.findall(r"`([^`]+)`", row[0])}


def plain_man_page():
    """The text of the man page without its marks, but for those that begin an item or a section."""
    lines = []
    for line in text_of(TOP / MAN).splitlines():
        macro, _, rest = line.partition(" ")
        words = [quoted or word for quoted, word in re.findall(r'"([^"]*)"|(\S+)', rest)]
        if macro in (".BI", ".BR", ".RB", ".IR", ".RI"):
            line = "".join(words)
        elif macro in (".B", ".I"):
            line = " ".join(words)
        lines.append(re.sub(r"\\f.|\\\|", "", line).replace("\\~", " ").replace("\\-", "-"))
    return "\n".join(lines)


def man_statuses():
    """What the man page says of each exit status."""
    section = plain_man_page().split(".SH EXIT STATUS\n")[-1].split("\n.SH ")[0].split("\n.PP\n")[0]
    return dict(item.split("\n", 1) for item in section.removeprefix(".TP\n").split("\n.TP\n"))


def formats_statuses():
    """The exit statuses that docs/FORMATS.md has."""
    return {row[0]: True for row in rows_below("Status")}


def formats_commands_of_1():
    """The commands that can end with status 1, by docs/FORMATS.md."""
    return dict.fromkeys(words_below(r"Command \| Status 1"), True)


def man_commands_of_1():
    """The commands that can end with status 1, by the man page."""
    return {word: True for word in re.findall(r"^(\w+)(?: --strict)?[:,]", man_statuses().get("1", ""), re.MULTILINE)}


def formats_faults():
    """The status of each line of a fault, by docs/FORMATS.md, without the place or the path in it. Those of refused
    arguments aren't retold, nor those that `clap` keeps from being seen."""
    rows = (row for row in rows_below("Line") if row[-1].isdigit() and "refuses it first" not in row[1])
    lines = ((re.match(r"`(?!error:|clap)([a-z ]+:?)", row[0]), row[-1]) for row in rows)
    return {line[1].strip(): status for line, status in lines if line}


def man_faults():
    """The statuses at which the man page names each line of a fault that docs/FORMATS.md has."""
    told = {fault: [status for status, text in man_statuses().items() if fault in text] for fault in formats_faults()}
    return {fault: ", ".join(statuses) for fault, statuses in told.items()}


def faults_with_status(document):
    """The lines of faults of which a document says the status beside them: of each all that it says."""
    pairs = re.findall(r"`([a-z ]+)`, (?:with )?status (\d)", text_of(TOP / document))
    return {fault: {status for name, status in pairs if name == fault} for fault, _ in pairs}


def formats_faults_named(document):
    """Of these lines of faults the status, by docs/FORMATS.md."""
    known = {fault.rstrip(":"): {status} for fault, status in formats_faults().items()}
    return {fault: known.get(fault, set()) for fault in faults_with_status(document)}


def formats_words():
    """The words of the tables of docs/FORMATS.md that the man page has too."""
    return {f"{header}: {word}": True for header in WORDS_OF_THE_MAN_PAGE for word in words_below(header)}


def bold_in(section):
    """The words in bold of a section of the man page on lines that are printed, without what stands with them."""
    text = text_of(TOP / MAN).split(f"\n.SS {section}\n")[-1].split("\n.S")[0].replace("\\-", "-")
    return set(re.findall(r"^\.B[RI]? ([^\s\\]+)", text, re.MULTILINE)) | set(re.findall(r"\\fB([^\s\\]+)", text))


def man_words():
    """Those of them that the man page has, and what it has beside them as a stop."""
    bold = {header: set().union(*map(bold_in, sections)) for header, sections in WORDS_OF_THE_MAN_PAGE.items()}
    there = {f"{header}: {word}": True for header in bold for word in words_below(header) & bold[header]}
    return there | {f"STOP: {word}": True for word in re.findall(r"([a-z-]+) AT\b(?! )", plain_man_page())}


def formats_stops():
    """The words for a stop, by docs/FORMATS.md."""
    return {word: True for word in words_below("STOP")}


def stops_in(document):
    """The stops that a document says, by themselves or in a printed line."""
    text = text_of(TOP / document)
    spelled = [word for word in formats_stops() if re.search(rf"`{word}\b[ A-Z]*`", text)]
    printed = re.findall(r"\bstop ([a-z][a-z-]*)(?: \d+)?$", text, re.MULTILINE)
    return dict.fromkeys(spelled + printed + re.findall(r"`([a-z-]+) AT`", text), True)


def formats_forms():
    """The forms of a source, by docs/FORMATS.md."""
    named = re.search(r"^A source SRC is .*", text_of(FORMATS), re.MULTILINE)
    return {form: True for form in re.findall(rf"`({SOURCE_FORM})`", named[0] if named else "")}


def forms_in(text):
    """The forms of a source that a text says."""
    return {form: True for form in re.findall(rf"(?<!\w){SOURCE_FORM}\b", text)}


def formats_findings():
    """The text of each finding, by docs/FORMATS.md."""
    return {re.sub(r"\W.*", "", row[0].lstrip("[")): row[-1] for row in rows_below("CODE")}


def formats_doubts():
    """The text of each doubt, by docs/FORMATS.md."""
    return {row[0]: row[-1] for row in rows_below("Doubt")}


def all_of(pattern, text):
    """What a pattern finds in a text."""
    return dict.fromkeys(re.findall(pattern, text, re.MULTILINE), True)


def pairs_of(pattern, text):
    """What the two groups of a pattern find in a text, the first by the second's name."""
    return dict(re.findall(pattern, text, re.MULTILINE))


def printed_by(source, name):
    """A source, and the words that it prints for the values of a type."""
    return source, all_of(rf'\b{name}::\w+.* => "([a-z-]+)"', text_of(TOP / source))


def retold():
    """What docs/FORMATS.md owns and something else retells: its name, what docs/FORMATS.md has, where it is retold, and
    what stands there."""
    codes, exits = "crates/mxf_findings/src/finding.rt", "crates/mxf_hints/src/exit.rt"
    guide, man = text_of(TOP / GUIDE), plain_man_page()
    return (
        ("status", formats_statuses(), MAN, dict.fromkeys(man_statuses(), True)),
        ("status", formats_statuses(), exits, all_of(r"Exit::\w+ => (\d)", text_of(TOP / exits))),
        ("command of status 1", formats_commands_of_1(), MAN, man_commands_of_1()),
        ("status of", formats_faults(), MAN, man_faults()),
        ("status of", formats_faults_named(GUIDE), GUIDE, faults_with_status(GUIDE)),
        ("word of", formats_words(), MAN, man_words()),
        ("stop", formats_stops(), GUIDE, stops_in(GUIDE)),
        *(
            ("word of " + table, dict.fromkeys(words_below(table), True), *printed_by(*by))
            for table, by in PRINTED.items()
        ),
        ("form of a source", formats_forms(), README, forms_in(text_of(TOP / README))),
        ("form of a source", formats_forms(), GUIDE, forms_in(guide)),
        ("form of a source", formats_forms(), MAN, forms_in(man)),
        ("text of", formats_findings(), GUIDE, pairs_of(r"^\| (F\d+) \| ([^|]+?) \|", guide)),
        ("text of", formats_doubts(), GUIDE, pairs_of(r"^\| (G\d+) \| ([^|]+?) \|", guide)),
        ("text of", formats_findings(), MAN, pairs_of(r"^(F\d+)\n(.+)$", man)),
        ("text of", formats_findings(), codes, pairs_of(r'Code::(F\d+) => "(.*)"', text_of(TOP / codes))),
    )


def verdicts_of_facts(document):
    """For each fact of docs/FORMATS.md that is retold: that something else says it otherwise, or None. A kind of fact
    that isn't found at all is a failure too."""
    if document != FORMATS:
        return
    for name, owned, file, there in retold():
        yield 1, f"{name}, in {file}", None if owned and there else "nothing is found to compare"
        for key in sorted(owned.keys() | there.keys()):
            yield 1, f"{name} {key}", fault_of_fact(file, owned.get(key), there.get(key))


def fault_of_fact(file, owned, there):
    """How what stands in a file differs from what docs/FORMATS.md has, or None."""
    if owned == there:
        return None
    if owned is None or there is None:
        return f"{file} lacks it" if owned else f"{file} alone has it"
    return f"{file} says {there}, and this {owned}"


# The longest sentence that a document may have, in words; a word of code is one.
MOST_WORDS = 40
FONTS = (".B", ".I", ".BR", ".BI", ".RB", ".IR", ".RI")


def paragraphs(document):
    """The paragraphs, list items and cells of a document, each with its first line."""
    lines, first = [], 0
    for number, line in enumerate([*lines_of(document), ""], 1):
        text = line.strip()
        mark = re.match(r"- |\d+\. ", text)
        if lines and (not text or mark or text.startswith(("|", "#"))):
            yield first, " ".join(lines)
            lines = []
        if text.startswith("|"):
            cells = [] if re.fullmatch(r"\|[-| ]+\|", text) else re.split(r"(?<!\\)\|", text)[1:-1]
            yield from ((number, cell.strip()) for cell in cells if cell.strip())
        elif text and not text.startswith("#"):
            first = first if lines else number
            lines.append(text[mark.end() :] if mark else text)


def man_paragraphs(document):
    """The paragraphs of a man page, each with its first line. What is in bold or italics is a word of code."""
    lines, first = [], 1
    for number, line in enumerate([*text_of(document).splitlines(), ".PP"], 1):
        macro, _, rest = line.partition(" ")
        if macro in FONTS:
            last = rest.split()[-1]
            lines.append("`code`" + (last if re.fullmatch(r"[.,;:)]+", last) else ""))
        elif not line.startswith("."):
            lines.append(re.sub(r"\\f[BI].*?\\f[RP]", "`code`", line))
        elif not line.startswith('.\\"'):
            if lines:
                yield first, " ".join(lines)
            lines, first = [], number + 1


def fault_of_sentence(words):
    """What is wrong with a sentence, or None: its noun stands nowhere, or it is too long."""
    if words[0] in ("Of", "Those"):
        return f"a sentence begins with {words[0]}"
    return f"a sentence of {len(words)} words" if len(words) > MOST_WORDS else None


def verdicts_of_sentences(document):
    """For each sentence of a document: its line, its first words, and what is wrong with it, or None."""
    for number, text in man_paragraphs(document) if document.suffix == ".1" else paragraphs(document):
        text = re.sub(r"!?\[([^\]]*)\]\([^)]*\)", r"\1", re.sub(r"`[^`]*`", "`code`", text)).replace("*", "")
        for sentence in re.split(r"(?<=[.!?])\s+", text):
            words = sentence.split()
            if words:
                yield number, " ".join(words[:12]), fault_of_sentence(words)


VERDICTS = (
    verdicts_of_promises, verdicts_of_names, verdicts_of_memory,
    verdicts_of_links, verdicts_of_contracts, verdicts_of_tables, verdicts_of_quotes,
    verdicts_of_definitions, verdicts_of_definition_files, verdicts_of_layers, verdicts_of_numbers, verdicts_of_code,
    verdicts_of_facts, verdicts_of_declarations, verdicts_of_sentences,
)  # fmt: skip


def main():
    names = ("README.md", "SECURITY.md", "CONTRIBUTING.md", "CHANGELOG.md", "examples/README.md", "crates/README.md")
    documents = [
        *(TOP / name for name in names),
        *sorted((TOP / "docs").glob("*.md")),
        *sorted((TOP / "docs").glob("*.1")),
    ]
    passed = failed = 0
    for document in documents:
        kinds = (verdicts_of_sentences,) if document.suffix == ".1" else VERDICTS
        for number, what, fault in itertools.chain.from_iterable(kind(document) for kind in kinds):
            passed += fault is None
            failed += fault is not None
            if fault:
                print(f"FAILED: {document.relative_to(TOP)}:{number}: {fault}: {what}")
    print(f"{passed} passed, {failed} failed")
    return failed > 0


if __name__ == "__main__":
    sys.exit(main())
