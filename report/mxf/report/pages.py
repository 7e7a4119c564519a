"""Makes pages by templates of jinja2, which stand in the folder templates."""
from __future__ import annotations

import html
import pathlib
import re
import time
import unicodedata
from typing import Any

import jinja2

from mxf import moments, wording
from mxf.report import bounds, guide
from mxf.report.drawings import FILLS

FOLDER = pathlib.Path(__file__).parent / "templates"

# Numbers stand as digits alone, as mxf_tool prints them, so they can be copied; to the eye long ones are in groups, but for
# what isn't ours and what is typed.
NUMBER = re.compile(r"(?<![\w.:])\d{5,}(?!\w|\.\d)(?![^<>]*>)")
GROUP = re.compile(r"\B(\d{3})(?=(?:\d{3})*$)")
ELEMENT = r'<(a|bdi|code|h1|script|style|title)\b.*?</\1>|<td class="digits">.*?</td>|<text\b.*?</text>'
ELEMENT_OR_NUMBER = re.compile(f"{ELEMENT}|{NUMBER.pattern}", re.DOTALL)

# A quote in a text needs no escape, for attributes stand in double quotes, and no text is in a tag.
QUOTE = re.compile(r"&#3[49];(?![^<>]*>)")


def clean(text: str, most: int = bounds.LETTERS) -> str:
    """A text of the recording or of the system as a page shows it: cut, and with `?` for each control character."""
    shown = "".join("?" if unicodedata.category(one) in ("Cc", "Cs") else one for one in text[:most])
    return shown + (" .." if len(text) > most else "")


def unlinked(text: str) -> str:
    """A text of the guide, with the words of its links alone."""
    return re.sub(r"\[([^\]]*)\]\([^)]*\)", r"\1", text)


def source_of(name: str) -> str:
    """Reads a template. The blanks before its lines and its empty lines are for people, and don't go into a page."""
    text = (FOLDER / name).read_text(encoding="utf-8")
    return re.sub(r"(?m)^\s+", "", text) if name.endswith(".html") else text


def environment() -> jinja2.Environment:
    """Makes what reads templates. Templates can use the names of bounds, guide and wording."""
    made = jinja2.Environment(
        loader=jinja2.FunctionLoader(source_of),
        undefined=jinja2.StrictUndefined,
        autoescape=True,
        trim_blocks=True,
        lstrip_blocks=True,
        keep_trailing_newline=True,
    )
    made.filters.update(clean=clean, unlinked=unlinked, short="{:g}".format)
    for module in (bounds, guide, wording):
        made.globals.update((name, value) for name, value in vars(module).items() if not name.startswith("_"))
    made.globals["FILLS"] = FILLS
    return made


def in_groups(found: re.Match[str]) -> str:
    """Sets a long number in groups of three digits. An element stays as it is, but the numbers of a text in a drawing are
    set in groups too."""
    if found[0].startswith("<text"):
        return NUMBER.sub(lambda number: GROUP.sub(r'<tspan dx="2">\1</tspan>', number[0]), found[0])
    return found[0] if found[1] or found[0].startswith("<") else GROUP.sub(r'<span class="group">\1</span>', found[0])


def page_of(template: str, title: str, **facts: Any) -> str:
    """Makes a page of facts by a template."""
    made = time.strftime("%Y-%m-%d %H:%M UTC", time.gmtime(moments.now()))
    page = environment().get_template(template).render(title=title, made=made, **facts)
    return ELEMENT_OR_NUMBER.sub(in_groups, QUOTE.sub(lambda quote: html.unescape(quote[0]), page))
