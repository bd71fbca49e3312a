"""What the command `facts` does; its words stand in `biqsolur.realism_commands`."""

from __future__ import annotations

import argparse
import sys
from dataclasses import replace
from pathlib import Path

import biqsolur
from biqsolur.errors import FactsError
from biqsolur.facts import Facts, of_branch, of_lobster, of_study, ranges_of, read_facts, write_page
from biqsolur.output import write_new

BUNDLE_START = b"\0\x09h"           # the length of a bundle's header and its letter


def main(words: argparse.Namespace) -> int:
    """Measures, writes what is asked for, and tells the table."""
    for path in (words.json, words.page):
        if path and Path(path).exists():
            raise biqsolur.OutputExistsError(f"{path} is there already; nothing was written")
    facts = measured(words)
    if words.json:
        write_new(words.json, facts.to_json().encode())
    if words.page:
        write_page(words.page, facts)
    sys.stdout.write(facts.text())
    return 0


def measured(words: argparse.Namespace) -> Facts:
    """The facts that the words ask for."""
    if (words.market is None) == (not words.lobster):
        raise FactsError("name a study or a bundle, or give --lobster MESSAGE ORDERBOOK: one of both")
    ranges = ranges_of(words.ranges) if words.ranges else None
    if words.lobster:
        return of_lobster(words.lobster, ranges)
    with open(words.market, "rb") as file:
        start = file.read(len(BUNDLE_START))
    if start[:1] == b"{":
        if words.page:
            raise FactsError(f"{words.market}: the numbers of facts have no curves to draw: give --page where they are "
                             "measured")
        return replace(Facts.from_dict(read_facts(words.market)), **({"ranges": ranges} if ranges else {}))
    if start == BUNDLE_START:
        return of_branch(biqsolur.read(words.market).branches[words.branch], words.symbol, ranges)
    return of_study(words.market, keys_of_words(words.keys), branch=words.branch, symbol=words.symbol,
                    processes=words.processes, program=words.program, ranges=ranges)


def keys_of_words(text: str) -> list[int]:
    """Keys from `30`, `101-130` or `3,5,8`."""
    try:
        if "-" in text:
            first, last = map(int, text.split("-"))
            keys = list(range(first, last + 1))
        elif "," in text:
            keys = [int(part) for part in text.split(",")]
        else:
            keys = list(range(1, int(text) + 1))
    except ValueError:
        keys = []
    if not keys:
        raise FactsError(f"--keys {text}: write how many (30), the first and the last (101-130), or each (3,5,8)")
    return keys
