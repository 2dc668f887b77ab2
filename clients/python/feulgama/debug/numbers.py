"""Numbers among a user's words."""
from __future__ import annotations

MOST_DIGITS = 18  # the last turn has 16, and Python does not read thousands


def number_of(word: str) -> int | None:
    """The number that a word of digits is. None of any other word, and of one with more digits than any number here has."""
    return int(word) if word.isascii() and word.isdigit() and len(word) <= MOST_DIGITS else None
