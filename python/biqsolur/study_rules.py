"""What the rules of a study ask, and what of one an entry breaks, in words.

The program decides which rule a study breaks and where; here that place is looked at and the fault is described.
Nothing here refuses a study. The rules are those of docs/REFUSALS.md.
"""

from __future__ import annotations

from biqsolur.agent_rules import agent_faults, count_faults
from biqsolur.branch_rules import branch_faults, edit_faults
from biqsolur.market_rules import (
    cell_faults, change_faults, hours_faults, record_faults, series_key_faults, square_faults, stock_faults, top_faults)
from biqsolur.rule_words import (
    BILLION, DAY_END, HOUR, MILLION, MOST_EVENTS, MOST_JITTER, MOST_PRICE, NUMBER, ROWS, Table, entry_name, group_fault,
    key_faults, ordinal, range_faults, shown)

# What each rule asks, for where the entry itself cannot be looked at.
ASKED = {
    1: "each top key that has no default is there, each is of its type, and there is no other",
    2: "`version` is 1 or 2",
    3: "`key` has 64 digits, each 0 to 9 or a to f",
    4: f"0 <= `open` <= `close` <= {DAY_END:,}",
    5: f"`events` is 1 to {MILLION:,} and `stride` 100 to {MILLION:,}",
    6: "[exchange] has `group` and `delay`, [latency] has `base` and `jitter`, and neither has another key",
    7: "`base` and `jitter` are square and of one size, from 1 to 32",
    8: f"each number of `base` is 0 to {HOUR:,}, each of `jitter` 0 to {MOST_JITTER:,}",
    9: f"`group` of [exchange] is a group of [latency], and its `delay` is 0 to {HOUR:,}",
    10: "there are 1 to 16 `[[stock]]` tables",
    11: "a stock has its keys and no other, and its `series` is \"rule\" or \"rows\"",
    12: "`symbol` has 1 to 8 visible ASCII characters and no space",
    13: "no two stocks have one `symbol`",
    14: "`bands` has 1 to 16 pairs [from, tick]: the first from 0, then rising, each from a multiple of its tick; "
        f"`from` is at most {MOST_PRICE:,}, a tick 1 to {MILLION:,}",
    15: f"`add` and `take` are {-MILLION:,} to {MILLION:,}",
    16: f"`start` and `mean` are 1 to {MOST_PRICE:,}",
    17: f"`pull` is 0 to {MILLION:,}, `shock` 0 to {BILLION:,}, `every` at least 1, with at most 65,535 steps from "
        "`open` to `close`",
    18: "the top key `series` is there exactly where a stock has `series = \"rows\"`",
    19: f"the series file begins `symbol,time,value`, and each row has the symbol of a stock with rows, a time of at "
        f"most {DAY_END:,} that rises for each symbol, and a value of 1 to {MOST_PRICE:,}",
    20: "each stock with `rows` has a row at `open` or before it",
    21: "there are at most 1,024 changes, each with its keys and no other, of kind tick, fee, halt or resume",
    22: "`time` is from `open` to `close`, and not before that of the change above",
    23: "`stock` is the symbol of a stock",
    24: "`bands` and fees are as those of a stock",
    25: "there is an `[[agent]]` table, each `count` is 1 to 511, and so is their sum",
    26: "an agent has its keys and those of its kind, and no other",
    27: f"`group` is a group of [latency], `first` at least `open`, `every` 1 to {HOUR:,}, `spread` and `delay` 0 to "
        f"{HOUR:,}, `wobble` 0 to {MOST_JITTER:,}, and the last trader first wakes at {DAY_END:,} at most",
    28: "`stock` is the symbol of a stock",
    29: "the keys of an agent's kind are in their ranges",
    30: "there are at most 127 branches, or 255 in version 2; each has `name`, `parent` and `at`, in version 2 either "
        "`at` or `when`, perhaps `edit`, and no other key",
    31: "`name` has 1 to 32 of a to z, 0 to 9, _ and -, is not root, and not the name of a branch above",
    32: "`parent` is root or the name of a branch above",
    33: "`at` is not above `events`, `when` is from `open` to `close`, neither is below that of the parent, and all "
        "branches of one parent have the same of the two",
    34: "a branch has at most 16 edits, each of a known kind, with its keys and no other",
    35: "the stock, trader and groups of an edit exist, and its numbers are in range",
    36: f"(branches + 1) * `events` is at most {MOST_EVENTS:,}",
}


# ---------------------------------------------------------------- rule and place in words

ENTRY_OF_RULE = {
    **dict.fromkeys((11, 12, 13, 14, 15, 16, 17, 20), "stock"), **dict.fromkeys((21, 22, 23, 24), "change"),
    **dict.fromkeys((25, 26, 27, 28, 29), "agent"), **dict.fromkeys((30, 31, 32, 33, 34, 35), "branch"),
}


def place_name(study: Table, rule: int, place: int) -> str:
    """What the place of a rule is: an entry, a table, a key."""
    if rule in (6, 8, 9):
        return "[exchange]" if rule == 9 or rule == 6 and place == 0 else "[latency]"
    if rule == 7:
        return "[latency]"
    if rule == 19:
        return "series file"
    key = ENTRY_OF_RULE.get(rule)
    entries = study.get(key, []) if key else []
    most = 255 if study.get("version") == 2 else 127
    many = rule == 21 and place == 1024 or rule == 30 and place == most or rule == 25 and entries == []
    if key is None or many:
        return "top of the study"
    index = place // 16 if rule in (34, 35) else place
    return entry_name(key, index, entries[index] if index < len(entries) else None)


def faults_of(study: Table, rule: int, place: int) -> list[str]:
    """What of a rule is broken at this place."""
    if rule == 1:
        return top_faults(study, place)
    if rule == 2:
        return [f"`version` is {shown(study['version'])}, and is to be 1 or 2"]
    if rule == 3:
        return [f"`key` has {len(study['key'])} characters, {shown(study['key'])}, and is to have 64 digits, each 0 to "
                "9 or a to f"]
    if rule == 4:
        return hours_faults(study)
    if rule == 5:
        return range_faults(study, ["stride" if place else "events"])
    if rule == 6:
        return key_faults(study["latency"], {"base": ROWS, "jitter": ROWS}) if place else \
            key_faults(study["exchange"], {"group": NUMBER, "delay": NUMBER})
    if rule == 7:
        return square_faults(study)
    if rule == 8:
        return cell_faults(study, place)
    if rule == 9:
        return group_fault("group", study["exchange"]["group"], study) + range_faults(study["exchange"], ["delay"])
    if rule == 10:
        return [f"there are {len(study['stock'])} stocks, and are to be 1 to 16"]
    if rule == 18:
        return series_key_faults(study)
    if rule == 19:
        return record_faults(study, place)
    if rule == 25:
        return count_faults(study, place)
    if rule == 36:
        branches, events = len(study.get("branch", [])), study["events"]
        return [f"({branches} branches + 1) * `events` = {(branches + 1) * events:,}, and is to be at most "
                f"{MOST_EVENTS:,}: with these branches `events` is to be at most {MOST_EVENTS // (branches + 1):,}"]
    by_entry = {"stock": stock_faults, "change": change_faults, "agent": agent_faults, "branch": branch_faults}
    if rule in (34, 35):
        return edit_faults(study, rule, place)
    return by_entry[ENTRY_OF_RULE[rule]](study, rule, place)


def explain(study: Table | None, rule: int, place: int) -> str:
    """Rule and place in a sentence. Where the study cannot be looked at, what the rule asks and of which entry."""
    try:
        faults = faults_of(study, rule, place) if study is not None else []
    except (KeyError, IndexError, TypeError, ValueError, AttributeError):
        faults = []
    if not faults:
        edit = f"edit {place % 16} (its {ordinal(place % 16)}): " if rule in (34, 35) else ""
        faults = [f"{edit}this is asked: {ASKED.get(rule, f'rule {rule}')}"]
    return f"{place_name(study or {}, rule, place)}: " + "; ".join(faults)
