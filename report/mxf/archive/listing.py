"""The commands that print what is in the database."""
from __future__ import annotations

from mxf.archive import answering, database, printing
from mxf.archive.words import Words


def list(words: Words) -> int:
    """Prints recordings, all of them or those of which something holds."""
    with database.reading(words.database) as connection:
        what = "unverified" if words.days is not None else words.what
        rows = answering.listed(connection, what, words.days)
    printing.print_answer(words.form, answering.HEADS, rows, answering.layout_of(rows))
    return 0


def show(words: Words) -> int:
    """Prints all of a recording."""
    with database.reading(words.database) as connection:
        identity = answering.identity_of(connection, words.name)
        printing.print_parts(words.form, answering.shown(connection, identity, words.form))
    return 0


def orders(words: Words) -> int:
    """Prints what is to be restored."""
    with database.reading(words.database) as connection:
        printing.print_answer(words.form, *answering.ordered(connection, words.by, words.merge))
    return 0
