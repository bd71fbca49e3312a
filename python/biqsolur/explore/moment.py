"""A state of a branch as the page shows it: books as ladders, accounts, waiting messages and rules, as plain tables."""

from __future__ import annotations

from typing import Any

from biqsolur import layouts
from biqsolur.explore.rules import Table, edits_of, rules_at
from biqsolur.explore.view import View
from biqsolur.explore.words import edit_words, event_table, message_words, money
from biqsolur.rewinds import State

MOST_LEVELS = 40            # of a side that are told; how many there are is told too
MOST_ORDERS = 200           # of a level that are told one by one
MOST_WAITING = 500          # messages that are told one by one


def moment(study: Table, view: View, state: State) -> Table:
    """Everything that the page shows of a state. Whole numbers stand as they are in the program's own bytes, but money,
    which may be too long for a browser: it is a text in dollars."""
    event = state.event
    rules = rules_at(study, view, event)
    closing = state.closing
    return {
        "branch": view.branch.name, "event": event, "time": closing.counts["time"], "counts": closing.counts,
        "what": event_table(view, event), "edits": edits_at(study, view, event), "rules": rules,
        "stocks": stocks_table(state, rules), "agents": agents_table(view, state),
        "waiting": waiting_table(view, state), "waiting_count": len(state.waiting),
    }


def edits_at(study: Table, view: View, event: int) -> list[Table]:
    """The edits that were made after this very event, each with its branch."""
    return [{"branch": name, **edit_words(view, edit)} for made, name, edit in edits_of(study, view) if made == event]


def stocks_table(state: State, rules: Table) -> list[Table]:
    """A table a stock: what stands of it, its rules, and its book."""
    out = []
    orders = orders_of(state)
    for row, rule in zip(state.closing.stocks.to_dict("records"), rules["stocks"]):
        own = [order for order in orders if order["stock"] == row["stock"]]
        bids, asks = (ladder(own, side) for side in "BS")
        out.append({
            **rule, "state": row["state"], "last": int(row["last"]), "matched": int(row["matched"]),
            "fees": money(int(row["fees"])), "offset": int(row["offset"]), "live": int(row["live"]),
            "bids": best(bids), "asks": best(asks), "bid_levels": len(bids), "ask_levels": len(asks),
        })
    return out


def orders_of(state: State) -> list[Table]:
    """Each resting order as a plain table, by stock and then by arrival, with its token as a text."""
    frame = state.closing.orders
    frame = frame.assign(token=state.tokens.texts(frame["token"]), side=frame["side"].astype(str))
    columns = ["reference", "agent", "token", "side", "intended", "open", "stock", "price", "time_in_force", "hidden"]
    return frame[columns].to_dict("records")


def ladder(orders: list[Table], side: str) -> list[Table]:
    """The levels of one side, the best first: price, shown and hidden shares, and the orders in the order in which they
    trade: what is shown before what is hidden, and then by arrival."""
    levels: dict[int, list[Table]] = {}
    for order in sorted(orders, key=lambda order: order["hidden"]):
        if order["side"] == side:
            levels.setdefault(order["price"], []).append(order)
    return [level_table(price, queued(levels[price])) for price in sorted(levels, reverse=side == "B")]


def queued(level: list[Table]) -> list[Table]:
    """The orders of a level with their places: `before` is how many orders of the level trade earlier, `ahead` how many
    shares they have."""
    out, ahead = [], 0
    for before, order in enumerate(level):
        out.append({**order, "before": before, "ahead": ahead})
        ahead += order["open"]
    return out


def level_table(price: int, queue: list[Table]) -> Table:
    """One level of a ladder, from its orders in their order."""
    hidden = sum(order["open"] for order in queue if order["hidden"])
    shown = sum(order["open"] for order in queue) - hidden
    return {"price": price, "shown": shown, "hidden": hidden, "count": len(queue), "orders": queue}


def best(levels: list[Table]) -> list[Table]:
    """The best levels of a side, each with its first orders."""
    return [{**level, "orders": level["orders"][:MOST_ORDERS]} for level in levels[:MOST_LEVELS]]


def agents_table(view: View, state: State) -> list[Table]:
    """A table an agent: its account as settled and as it knows it, and its counts."""
    frame = state.closing.agents
    positions = [name for name in frame.columns if name.startswith("position_")]
    out = []
    for row in frame.to_dict("records"):
        agent = int(row["agent"])
        out.append({
            "agent": agent, "name": view.people.name(agent), "kind": view.people.kinds[agent],
            "silenced": bool(row["silenced"]), "own_time": int(row["own_time"]), "tokens": int(row["tokens"]),
            "draws": int(row["draws"]), "cash": money(int(row["cash"])), "own_cash": money(int(row["own_cash"])),
            "own_position": int(row["own_position"]), "orders": int(row["orders"]), "quotes": int(row["quotes"]),
            "positions": [int(row[name]) for name in positions],
        })
    return out


def waiting_table(view: View, state: State, agent: int | None = None) -> list[Table]:
    """The messages on their way, the next first: time of arrival, number, sender, receiver, kind, and words. Of an
    agent those that it is to get, and those that it sent."""
    frame = state.waiting
    if agent is not None:
        frame = frame[(frame["sender"] == agent) | (frame["receiver"] == agent)]
    frame = frame.head(MOST_WAITING)
    out = []
    for place, row in zip(frame.index, frame.to_dict("records")):
        letter, body = waiting_body(state, place)
        out.append({
            "time": int(row["time"]), "message": int(row["message"]), "sender": int(row["sender"]),
            "receiver": int(row["receiver"]), "kind": row["kind"], "bytes": body.hex(),
            "words": message_words(view, letter, body, int(row["sender"]), int(row["receiver"])),
        })
    return out


def waiting_body(state: State, place: int) -> tuple[str, bytes]:
    """The letter and the bytes of the message that waits at a place."""
    index = state.part.waiting + place
    frames, head = state.frames, layouts.WAITING
    start, size = int(frames.starts[index]), int(frames.sizes[index])
    return chr(frames.raw[start + head.fields["body"][1]]), frames.raw[start + head.itemsize:start + size].tobytes()


def trader_table(view: View, state: State, rules: Table, agent: int) -> Table:
    """All of one agent: its account, its resting orders with their places in the queue, its parameters, what it waits
    for."""
    orders, mine = orders_of(state), []
    for stock in range(len(state.closing.stocks)):
        for side in "BS":
            levels = ladder([order for order in orders if order["stock"] == stock], side)
            mine += [order for level in levels for order in level["orders"] if order["agent"] == agent]
    return {**agents_table(view, state)[agent], "resting": mine, "parameters": rules["agents"][agent],
            "waiting": waiting_table(view, state, agent)}
