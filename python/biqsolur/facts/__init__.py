"""Stylised facts of a market, held against the ranges that the literature reports.

    from biqsolur import facts
    found = facts.of_study("examples/reference_market.toml", keys=range(101, 131))
    print(found.text())                 # a line a number, and how many facts are met
    found.frame(), found.to_json()      # a data frame; a text that keeps each key's numbers
    facts.write_page("facts.html", found)
    facts.of_lobster([("AAPL_message_10.csv", "AAPL_orderbook_10.csv")])

docs/REALISM.md says what each fact is and which the reference market meets.
"""

from biqsolur.facts.catalogue import FACTS, NUMBERS, numbers_of
from biqsolur.facts.judgement import Estimate, Facts, median_interval, ranges_of, read_facts
from biqsolur.facts.measure import of_branch, of_lobster, of_study
from biqsolur.facts.page import write_page
from biqsolur.facts.tape import Tape, tape_of_branch, tape_of_lobster

__all__ = [
    "FACTS", "NUMBERS", "Estimate", "Facts", "Tape", "median_interval", "numbers_of", "of_branch", "of_lobster",
    "of_study", "ranges_of", "read_facts", "tape_of_branch", "tape_of_lobster", "write_page",
]
