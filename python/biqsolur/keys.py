"""Keys: each is one draw of a market. A study has one, as 64 hexadecimal digits; a sweep and a map have many."""

from __future__ import annotations

import re
from collections.abc import Sequence

from biqsolur.errors import KeysError
from biqsolur.study import Study

KEY_TEXT = re.compile(r"[0-9a-f]{64}")
BITS = 256
MARK = "0123456789abcdef" * 4       # stands where a study's key goes, until it is known


def key_of(value: int | str) -> str:
    """A key of 64 hexadecimal digits, from a number or from such a text. KeysError for anything else."""
    if isinstance(value, int) and not isinstance(value, bool) and 0 <= value < 1 << BITS:
        return f"{value:064x}"
    if isinstance(value, str) and KEY_TEXT.fullmatch(value):
        return value
    raise KeysError(f"keys: {value!r} is neither a number of {BITS} bits nor 64 lower-case hexadecimal digits")


def keys_of(value: int | Sequence[int | str]) -> list[str]:
    """Keys from how many they are (1, 2, 3 and so on), or from a list of numbers and texts. KeysError where there is
    none, or one stands there twice."""
    if isinstance(value, int) and not isinstance(value, bool):
        value = range(1, value + 1)
    if isinstance(value, (str, bytes)) or not isinstance(value, Sequence) or not value:
        raise KeysError("keys: a number from 1 on, or a list of keys, is wanted")
    keys = [key_of(item) for item in value]
    if len(set(keys)) < len(keys):
        twice = next(key for place, key in enumerate(keys) if key in keys[:place])
        raise KeysError(f"keys: {twice} stands there twice")
    return keys


class KeyedText:
    """A study's text for many keys: it is written once, and a key then costs no reading or writing of TOML."""

    def __init__(self, study: Study) -> None:
        text = study.with_("key", MARK).to_text()
        parts = text.split(MARK)
        if len(parts) != 2:                 # the digits stand elsewhere too, in a comment
            parts = Study.from_dict(study.with_("key", MARK).to_dict(), study.folder).to_text().split(MARK)
        self.head, self.tail = parts

    def of(self, key: str) -> str:
        """The text under a key of 64 hexadecimal digits."""
        return self.head + key + self.tail
