"""Agents and edits in words: "maker 1", "tick of ABM: 5 cents from 0 dollars"."""

from __future__ import annotations

from collections.abc import Callable, Mapping
from typing import TYPE_CHECKING, Any

from biqsolur.errors import InputError

if TYPE_CHECKING:
    from biqsolur.study import Study

PRICES = ("half", "step", "noise", "margin")            # parameters of traders that are prices
TIMES = ("every", "wobble", "delay", "pause")           # and those that are times
UNITS = (("s", 1_000_000_000), ("ms", 1_000_000), ("us", 1_000))
ENTER, CANCEL = 0x4F, 0x58
ENTER_SIZE, CANCEL_SIZE = 49, 19


def agent_names(study: Study) -> list[str]:
    """What each agent is called, by its number: "exchange", then kind and number of each trader ("maker 1")."""
    return ["exchange", *(name for _, _, name in study.traders)]


def names_of_agents(study: Study | None, count: int) -> list[str]:
    """The same for `count` agents; "trader 1" and so on without a study, or where the study has another number of
    them."""
    if study is not None:
        names = agent_names(study)
        if len(names) == count:
            return names
    return ["exchange", *(f"trader {number}" for number in range(1, count))][:count]


def edit_words(study: Study, branch: str, index: int) -> str:
    """An edit of a branch in words; `index` counts the branch's edits from 0. Raises InputError where there is none."""
    words = words_of_edits(study)
    if (branch, index) not in words:
        count = sum(name == branch for name, _ in words)
        raise InputError(f"no edit {index} of the branch {branch!r}, which has {count}; the branches with edits are "
                         f"{', '.join(dict.fromkeys(name for name, _ in words)) or 'none'}")
    return words[branch, index]


def words_of_edits(study: Study) -> dict[tuple[str, int], str]:
    """Each edit of a study in words, by the name of its branch and its number there, from 0."""
    agents = agent_names(study)
    return {(entry["name"], index): words_of_edit(edit, agents)
            for entry in study.to_dict().get("branch", []) for index, edit in enumerate(entry.get("edit", []))}


def words_of_edit(edit: Mapping[str, Any], agents: list[str]) -> str:
    """An edit, as a table of a study has it, in words; `agents` are the agents' names by number."""
    return WORDS[edit["kind"]](edit, agents)


def tick_words(edit: Mapping[str, Any], agents: list[str]) -> str:
    """tick of ABM: 1 cent from 0 dollars, 5 cents from 20 dollars"""
    bands = ", ".join(f"{amount_words(tick)} from {dollar_words(start)}" for start, tick in edit["bands"])
    return f"tick of {edit['stock']}: {bands}"


def fee_words(edit: Mapping[str, Any], agents: list[str]) -> str:
    """fees of ABM: -0.002 dollars a share to add, 0.003 to take"""
    add, take = decimal(edit["add"], 6), decimal(edit["take"], 6)
    return f"fees of {edit['stock']}: {add} dollars a share to add, {take} to take"


def latency_words(edit: Mapping[str, Any], agents: list[str]) -> str:
    """latency from group 1 to group 0: 50 us and up to 2 us more"""
    more = f" and up to {time_words(edit['jitter'])} more" if edit["jitter"] else ""
    return f"latency from group {edit['from']} to group {edit['to']}: {time_words(edit['base'])}{more}"


def agent_words(edit: Mapping[str, Any], agents: list[str]) -> str:
    """every of maker 1: 250 ms"""
    name, value = edit["name"], edit["value"]
    if name in TIMES:
        said = time_words(value)
    elif name in PRICES:
        said = amount_words(value)
    else:
        said = counted(value, "share") if name == "size" else str(value)
    return f"{name} of {trader_name(edit['agent'], agents)}: {said}"


def inject_words(edit: Mapping[str, Any], agents: list[str]) -> str:
    """order of noise 17: buy 100 ABM at 50.1 dollars, 1.5 s later"""
    message = bytes.fromhex(edit["message"])
    after = f", {time_words(edit['after'])} later" if edit["after"] else ""
    return f"order of {trader_name(edit['agent'], agents)}: {order_words(message)}{after}"


def order_words(message: bytes) -> str:
    """buy 100 ABM at 50.1 dollars; cancel A1 down to 40 shares"""
    if len(message) == CANCEL_SIZE and message[0] == CANCEL:
        left = int.from_bytes(message[15:19], "big")
        return f"cancel {text_of(message[1:15])}" + (f" down to {counted(left, 'share')}" if left else "")
    if len(message) == ENTER_SIZE and message[0] == ENTER:
        side = "buy" if message[15:16] == b"B" else "sell"
        hidden = ", hidden" if message[40:41] == b"N" else ""
        price = dollar_words(int.from_bytes(message[28:32], "big"))
        return f"{side} {int.from_bytes(message[16:20], 'big')} {text_of(message[20:28])} at {price}{hidden}"
    return f"a message of {len(message)} bytes"


def series_words(edit: Mapping[str, Any], agents: list[str]) -> str:
    """value of ABM: 5 cents more"""
    way = "less" if edit["offset"] < 0 else "more"
    return f"value of {edit['stock']}: {amount_words(abs(edit['offset']))} {way}"


WORDS: dict[str, Callable[[Mapping[str, Any], list[str]], str]] = {
    "tick": tick_words,
    "fee": fee_words,
    "halt": lambda edit, agents: f"halt of {edit['stock']}",
    "resume": lambda edit, agents: f"resume of {edit['stock']}",
    "latency": latency_words,
    "agent": agent_words,
    "silence": lambda edit, agents: f"silence of {trader_name(edit['agent'], agents)}",
    "inject": inject_words,
    "series": series_words,
}


def trader_name(number: int, agents: list[str]) -> str:
    """What a trader is called."""
    return agents[number] if 0 <= number < len(agents) else f"trader {number}"


def text_of(field: bytes) -> str:
    """A field of letters without the blanks behind it."""
    return field.decode("latin1").rstrip(" ")


def decimal(number: int, decimals: int) -> str:
    """A whole number with implied decimals, as short as it can be written: 5000 with four is "0.5"."""
    whole, rest = divmod(abs(number), 10**decimals)
    fraction = f".{rest:0{decimals}}".rstrip("0") if rest else ""
    return f"{'-' if number < 0 else ''}{whole}{fraction}"


def counted(number: int, thing: str) -> str:
    """1 share, 2 shares"""
    return f"{number} {thing}{'' if number == 1 else 's'}"


def dollar_words(price: int) -> str:
    """A price (four implied decimals) in dollars."""
    return f"{decimal(price, 4)} dollar{'' if price == 10_000 else 's'}"


def amount_words(price: int) -> str:
    """A difference of prices (four implied decimals): in cents below a dollar."""
    if 0 < abs(price) < 10_000:
        return f"{decimal(price, 2)} cent{'' if price == 100 else 's'}"
    return dollar_words(price)


def time_words(time: int) -> str:
    """A length of time, from nanoseconds, in the largest unit in which it is at least one."""
    for unit, size in UNITS:
        if time >= size:
            return f"{decimal(time, len(str(size)) - 1)} {unit}"
    return f"{time} ns"
