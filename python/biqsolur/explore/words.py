"""What an event was, in words and field by field, from the bytes of a bundle."""

from __future__ import annotations

from typing import Any

import numpy

from biqsolur import layouts
from biqsolur.explore.view import View
from biqsolur.messages import BODY_WORDS

# (offset, length, name, kind) of each field behind a message's first byte, OUCH 4.2 as the program writes it.
FIELDS: dict[tuple[str, int], list[tuple[int, int, str, str]]] = {
    ("w", 0): [],
    ("a", 2): [(0, 2, "stock", "stock")],
    ("q", 31): [(0, 2, "stock", "stock"), (2, 1, "trading state", "state"), (3, 4, "bid", "price"),
                (7, 8, "bid shares", "number"), (15, 4, "ask", "price"), (19, 8, "ask shares", "number"),
                (27, 4, "last price", "price")],
    ("i", 49): [(0, 1, "type", "letter"), (1, 14, "token", "text"), (15, 1, "side", "side"),
                (16, 4, "shares", "number"),
                (20, 8, "symbol", "text"), (28, 4, "price", "price"), (32, 4, "time in force", "force"),
                (36, 4, "firm", "text"), (40, 1, "display", "display"), (41, 1, "capacity", "letter"),
                (42, 1, "intermarket sweep", "letter"), (43, 4, "minimum quantity", "number"),
                (47, 1, "cross type", "letter"), (48, 1, "customer type", "letter")],
    ("i", 19): [(0, 1, "type", "letter"), (1, 14, "token", "text"), (15, 4, "shares that are to stay", "number")],
    ("o", 10): [(0, 1, "type", "letter"), (1, 8, "handled", "time"), (9, 1, "event code", "letter")],
    ("o", 66): [(0, 1, "type", "letter"), (1, 8, "handled", "time"), (9, 14, "token", "text"), (23, 1, "side", "side"),
                (24, 4, "shares", "number"), (28, 8, "symbol", "text"), (36, 4, "price", "price"),
                (40, 4, "time in force", "force"), (44, 4, "firm", "text"), (48, 1, "display", "display"),
                (49, 8, "reference", "number"), (57, 1, "capacity", "letter"), (58, 1, "intermarket sweep", "letter"),
                (59, 4, "minimum quantity", "number"), (63, 1, "cross type", "letter"),
                (64, 1, "order state", "letter"),
                (65, 1, "BBO weight", "letter")],
    ("o", 28): [(0, 1, "type", "letter"), (1, 8, "handled", "time"), (9, 14, "token", "text"),
                (23, 4, "shares that went", "number"), (27, 1, "reason", "reason")],
    ("o", 40): [(0, 1, "type", "letter"), (1, 8, "handled", "time"), (9, 14, "token", "text"),
                (23, 4, "shares", "number"), (27, 4, "price", "price"), (31, 1, "liquidity", "liquidity"),
                (32, 8, "match", "number")],
    ("o", 24): [(0, 1, "type", "letter"), (1, 8, "handled", "time"), (9, 14, "token", "text"),
                (23, 1, "reason", "reason")],
}
MEANINGS = {
    "state": {"T": "trading", "H": "halted"}, "side": {"B": "buy", "S": "sell"},
    "display": {"Y": "shown", "N": "hidden"},
    "liquidity": {"A": "rested in the book", "R": "met a resting order"},
    "reason": {"U": "its trader asked for it", "I": "it was good for this instant alone", "H": "the stock is halted",
               "S": "there is no such stock", "X": "the price is not allowed",
               "O": "the order is not one that is taken"},
    "force": {"0": "this instant alone", "99998": "the day", "99999": "the day"},
}


def clock(time: int) -> str:
    """A time of day with nine decimals of a second: 09:30:00.000000001."""
    seconds, rest = divmod(time, 10**9)
    return f"{seconds // 3600:02d}:{seconds // 60 % 60:02d}:{seconds % 60:02d}.{rest:09d}"


def dollars(price: int) -> str:
    """A price with four implied decimals in dollars: its cents at least, and more where there are more."""
    whole, part = divmod(abs(price), 10000)
    decimals = f"{part:04d}"
    decimals = decimals[:2] if decimals.endswith("00") else decimals
    return f"{'-' if price < 0 else ''}{whole:,}.{decimals}"


def money(millionths: int) -> str:
    """Millionths of a dollar in dollars, exact: its cents at least, and more where there are more."""
    whole, part = divmod(abs(millionths), 10**6)
    decimals = f"{part:06d}".rstrip("0").ljust(2, "0")
    return f"{'-' if millionths < 0 else ''}{whole:,}.{decimals}"


def decode(letter: str, body: bytes, symbols: list[str]) -> list[dict[str, Any]]:
    """Each field of a message's body: offset, length, name, bytes in hexadecimal digits, value, and what it means."""
    return [field_of(body, *field, symbols) for field in FIELDS.get((letter, len(body)), [])]


def field_of(body: bytes, offset: int, length: int, name: str, kind: str, symbols: list[str]) -> dict[str, Any]:
    """One field of a body, its value as a text."""
    raw = body[offset:offset + length]
    number = int.from_bytes(raw, "big")
    numeric = kind in ("number", "price", "time", "force", "stock")
    value = str(number) if numeric else raw.decode("latin1").rstrip(" ")
    meaning = MEANINGS.get(kind, {}).get(value, "")
    if kind == "price":
        meaning = dollars(number) if number else "none"
    elif kind == "time":
        meaning = clock(number)
    elif kind == "stock":
        meaning = symbols[number] if number < len(symbols) else "no stock"
    return {"offset": offset, "length": length, "name": name, "bytes": raw.hex(), "value": value, "meaning": meaning}


def values_of(letter: str, body: bytes, symbols: list[str]) -> dict[str, str]:
    """The value of each field by its name; a stock as its symbol, a side as a word."""
    return {field["name"]: field["meaning"] if field["name"] in ("stock", "side") else field["value"]
            for field in decode(letter, body, symbols)}


def sentence(view: View, event: int) -> str:
    """What an event was."""
    if event == 0:
        return "The opening: each trader waits for its first wakeup, and no order rests."
    head = view.head(event)
    said = message_words(view, chr(head["body"]), view.body(event), head["sender"], head["receiver"])
    if chr(head["delivery"]) == "P":
        who = view.people.name(head["receiver"])
        return f"{said[0].upper()}{said[1:]} comes while {who} is busy, and is put back to {clock(head['busy_until'])}."
    return consequence(view, event, head, said)


def message_words(view: View, letter: str, body: bytes, sender: int, receiver: int) -> str:
    """A message as a phrase: "the order of noise 7 to buy 34 ABM at 50.02"."""
    values = values_of(letter, body, view.symbols)
    name = view.people.name
    if letter == "w":
        return f"the wakeup of {name(receiver)}"
    if letter == "a":
        return f"the question of {name(sender)} for a quote of {values['stock']}"
    if letter == "q":
        return f"the quote of {values['stock']} to {name(receiver)}: {quote_words(values)}"
    if letter == "i" and len(body) == 49:
        hidden = "hidden " if values["display"] == "N" else ""
        return (f"the {hidden}order of {name(sender)} to {values['side']} {int(values['shares']):,} {values['symbol']} "
                f"at {dollars(int(values['price']))}")
    if letter == "i":
        return (f"the cancel of {name(sender)} for its order {values['token']}, of which "
                f"{values['shares that are to stay']} stay")
    return f"the reply to {name(receiver)} that {reply_words(body, values)}"


def quote_words(values: dict[str, str]) -> str:
    """Both sides of a quote, the last price and the trading state."""
    bid = f"{int(values['bid shares']):,} at {dollars(int(values['bid']))}" if values["bid"] != "0" else "no bid"
    ask = f"{int(values['ask shares']):,} at {dollars(int(values['ask']))}" if values["ask"] != "0" else "no ask"
    last = f"last {dollars(int(values['last price']))}" if values["last price"] != "0" else "no trade yet"
    state = "" if values["trading state"] == "T" else ", halted"
    return f"bid {bid}, ask {ask}, {last}{state}"


def reply_words(body: bytes, values: dict[str, str]) -> str:
    """What a reply says of its order."""
    token = f"its order {values.get('token', '')}"
    letter = chr(body[0])
    if letter == "A":
        return f"{token} was accepted under the reference {values['reference']}"
    if letter == "E":
        return (f"{values['shares']} shares of {token} traded at {dollars(int(values['price']))} (match "
                f"{values['match']})")
    if letter == "C":
        return (f"{values['shares that went']} shares of {token} were canceled: "
                f"{MEANINGS['reason'].get(values['reason'], '')}")
    if letter == "J":
        return f"{token} was rejected: {MEANINGS['reason'].get(values['reason'], '')}"
    return "the market speaks of itself"


def consequence(view: View, event: int, head: dict[str, int], said: str) -> str:
    """A delivered message: who heard it, or what the feed told of it."""
    letter, name = chr(head["body"]), view.people.name
    who = name(head["receiver"])
    hearer = f"{who[0].upper()}{who[1:]}"
    if letter == "w":
        return f"{hearer} wakes up."
    if letter in "qo":
        heard = said.replace(f" to {who}", "", 1).removeprefix("the reply that ")
        return f"{hearer} hears {heard if letter == 'q' else f'that {heard}'}."
    said = f"{said[0].upper()}{said[1:]} reaches the exchange"
    if letter != "i":
        return f"{said}."
    told = told_by_feed(view, event)
    return f"{said}: {'; '.join(told)}." if told else f"{said}, and the feed tells nothing of it."


def told_by_feed(view: View, event: int) -> list[str]:
    """What came of an order, as phrases: its trades, its rest, its cancel."""
    out = []
    for trade in trades_of(view, event):
        whom = resting_name(view, trade["resting"])
        out.append(f"{trade['shares']:,} trade at {dollars(trade['price'])} with {whom}")
    for kind, fields in feed_of(view, event):
        if kind == "A":
            out.append(f"{fields['shares']:,} rest at {dollars(fields['price'])} (reference {fields['reference']})")
        elif kind == "X":
            out.append(f"{fields['shares']:,} shares of order {fields['reference']} are canceled")
        elif kind == "D":
            out.append(f"order {fields['reference']} leaves the book")
    return out


def resting_name(view: View, agent: int) -> str:
    """Whose order rested; -1 where nobody had heard of it by the end."""
    return view.people.name(agent) if agent >= 0 else "a hidden order"


def trades_of(view: View, event: int) -> list[dict[str, Any]]:
    """The trades of an event as plain tables: the columns of `trades`."""
    trades = view.branch.trades
    events = trades["event"].to_numpy()
    rows = slice(*numpy.searchsorted(events, [event, event + 1]))
    return [{name: (value.item() if hasattr(value, "item") else value) for name, value in row.items()}
            for row in trades.iloc[rows].to_dict("records")]


def feed_of(view: View, event: int) -> list[tuple[str, dict[str, int]]]:
    """The feed that came with an event, after it: letter and whole-number fields of each message."""
    frames = view.branch.bundle.frames
    index, out = int(view.frames[event - 1]) + 1, []
    while index < len(frames.kinds) and chr(frames.kinds[index]) in "AEXDP":
        kind = chr(frames.kinds[index])
        record = frames.records(numpy.array([index]), layouts.FEED[kind])[0]
        out.append((kind, {name: int(record[name]) for name in record.dtype.names}))
        index += 1
    return out


def event_table(view: View, event: int) -> dict[str, Any]:
    """All that is to be said of an event: its frame's fields, its words, its body's fields and bytes, its feed."""
    table: dict[str, Any] = {"number": event, "time": view.time_of(event), "words": sentence(view, event)}
    if event == 0:
        return {**table, "kind": "opening", "fields": [], "bytes": "", "trades": [], "feed": []}
    head, body = view.head(event), view.body(event)
    letter = chr(head["body"])
    return {
        **table, "message": head["message"], "sender": head["sender"], "receiver": head["receiver"],
        "put_back": chr(head["delivery"]) == "P", "busy_until": head["busy_until"], "fee": str(head["fee"]),
        "kind": BODY_WORDS.get(head["body"], letter), "stock": int(view.stocks[event - 1]), "bytes": body.hex(),
        "fields": decode(letter, body, view.symbols), "trades": trades_of(view, event),
        "feed": [{"kind": kind, **fields} for kind, fields in feed_of(view, event)],
    }


def edit_words(view: View, edit: dict[str, Any]) -> dict[str, Any]:
    """An edit with what its message says, where it injects one."""
    if edit["kind"] != "inject":
        return edit
    return {**edit, "words": message_words(view, "i", bytes.fromhex(edit["message"]), edit["agent"], 0)}
