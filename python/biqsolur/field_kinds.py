"""Which fields of the messages of OUCH 4.2 and TotalView-ITCH 5.0 are no numbers, and what may stand in them: the
layouts of docs/FORMATS.md. This needs no numpy."""

from __future__ import annotations

import re

# (offset, length, kind) of each field of which not every byte may stand, by letter of the message.
OUCH_FIELDS: dict[str, list[tuple[int, int, str]]] = {
    "O": [(1, 14, "token"), (15, 1, "side"), (20, 8, "text"), (36, 7, "letters"), (47, 2, "letters")],
    "X": [(1, 14, "token")],
    "S": [(9, 1, "letters")],
    "A": [(9, 14, "token"), (23, 1, "side"), (28, 8, "text"), (44, 5, "letters"), (57, 2, "letters"),
          (63, 1, "letters"), (64, 1, "order state")],
    "C": [(9, 14, "token"), (27, 1, "letters")],
    "E": [(9, 14, "token"), (31, 1, "letters")],
    "J": [(9, 14, "token"), (23, 1, "letters")],
}
FEED_FIELDS: dict[str, list[tuple[int, int, str]]] = {
    "S": [(11, 1, "letters")],
    "R": [(11, 8, "text"), (19, 2, "letters"), (25, 9, "letters"), (38, 1, "letters")],
    "H": [(11, 8, "text"), (19, 1, "trading state"), (20, 5, "letters")],
    "A": [(19, 1, "side"), (24, 8, "text")],
    "E": [], "X": [], "D": [],
    "P": [(19, 1, "side"), (24, 8, "text")],
    "Q": [(19, 8, "text"), (39, 1, "letters")],
}

# What may stand in a field of each kind, and in words.
RIGHT = {
    "token": re.compile(rb"[0-9A-Za-z]+ *"), "text": re.compile(rb"[!-~]+ *"), "letters": re.compile(rb"[ -~]*"),
    "side": re.compile(rb"[BS]"), "order state": re.compile(rb"[LD]"), "trading state": re.compile(rb"[HPQT]"),
}
ASKED = {
    "token": "letters and digits, and then spaces", "text": "visible characters, and then spaces",
    "letters": "bytes from 20 to 7e", "side": "42 (B) or 53 (S)", "order state": "4c (L) or 44 (D)",
    "trading state": "48 (H), 50 (P), 51 (Q) or 54 (T)",
}


def field_faults(message: bytes, fields: list[tuple[int, int, str]], base: int = 0) -> list[str]:
    """Which of these fields (offset, length, kind) of a message have bytes that may not stand there; offsets are told
    from `base` on."""
    return [f"{message[offset:offset + length].hex()} at byte {base + offset}, where {ASKED[kind]} are to stand"
            for offset, length, kind in fields if not RIGHT[kind].fullmatch(message[offset:offset + length])]
