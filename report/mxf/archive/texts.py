"""Words of texts, by which recordings are found."""
from __future__ import annotations

import unicodedata


def words_of(text: str) -> list[str]:
    """The words of a text: runs of letters and digits, with the marks over them."""
    words = "".join(one if one.isalnum() or unicodedata.combining(one) else " " for one in text).split()
    return [word for word in words if any(map(str.isalnum, word))]


def question_of(text: str) -> str:
    """The question for FTS5 that finds the texts which have, for each word of this one, a word that begins so. Capitals and
    accents don't matter. It is empty if there is no word."""
    return " AND ".join(f'"{word}"*' for word in dict.fromkeys(words_of(text)))
