"""A branch's feed as LOBSTER's message and orderbook files, two for each stock."""

from __future__ import annotations

from pathlib import Path

import numpy
import pandas

from biqsolur.book import Rebuilt, rebuild
from biqsolur.bundle import Branch
from biqsolur.output import new_folder, plain_name

TYPES = {"A": 1, "X": 2, "D": 3, "E": 4, "P": 5, "Q": 6, "H": 7}
DIRECTIONS = {"B": 1, "S": -1, "": -1}
HALT_PRICES = {"H": -1, "P": -1, "Q": 0, "T": 1}        # halted, paused, quotes alone, trading again
NO_ASK, NO_BID = 9999999999, -9999999999


def to_lobster(folder: str | Path, branch: Branch, levels: int = 10) -> None:
    """Writes SYMBOL_message_LEVELS.csv and SYMBOL_orderbook_LEVELS.csv for each stock, into a new folder.

    Columns of a message: time (seconds after midnight, nine decimals), type, order's reference, shares, price (four
    implied decimals), direction (1 buy, -1 sell: of the resting order). Columns of a book: for each level ask price,
    ask shares, bid price, bid shares. Each message that the feed has for the stock gives a row, at whatever level; the
    trading state at the opening gives none, as nothing was halted before. The match of a hidden order is of type 5,
    with reference 0 and the hidden order's direction, which the feed does not tell: the bundle has the order that met
    it.
    """
    books = rebuild(branch.bundle.frames, branch.part, branch.symbols, levels)
    folder = new_folder(folder)
    for stock, book in enumerate(books):
        name = plain_name(branch.symbols[stock], stock, "stock")
        rows = book.feed.kind.isin(list(TYPES)) & (book.feed.source != "opening")
        for kind, frame in [("message", messages(book)), ("orderbook", orderbook(book, levels))]:
            frame[rows.to_numpy()].to_csv(folder / f"{name}_{kind}_{levels}.csv", header=False, index=False)


def messages(book: Rebuilt) -> pandas.DataFrame:
    """LOBSTER's message rows, one for each message of a stock."""
    feed = book.feed
    kind = feed.kind.astype(str).to_numpy()
    halt = kind == "H"
    hidden, cross = kind == "P", kind == "Q"
    reference = feed.reference.to_numpy(copy=True)
    reference[hidden] = 0
    reference[cross] = -1
    price = numpy.array(book.price, numpy.int64)
    price[halt] = [HALT_PRICES.get(state, -1) for state in feed.state[halt]]
    return pandas.DataFrame({
        "time": [f"{time // 10**9}.{time % 10**9:09d}" for time in feed.time.tolist()],
        "type": [TYPES.get(letter, 0) for letter in kind],
        "reference": reference,
        "shares": numpy.array(book.shares, numpy.int64),
        "price": price,
        "direction": [DIRECTIONS[side] for side in book.side],
    })


def orderbook(book: Rebuilt, levels: int) -> pandas.DataFrame:
    """LOBSTER's rows of the book after each message of a stock."""
    table = numpy.empty((len(book.feed), 4 * levels), numpy.int64)
    for start, side, empty in [(0, book.asks, NO_ASK), (2, book.bids, NO_BID)]:
        prices, shares = side[:, 0::2], side[:, 1::2]
        table[:, start::4] = numpy.where(prices == 0, empty, prices)
        table[:, start + 1::4] = shares
    return pandas.DataFrame(table)
