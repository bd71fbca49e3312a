"""Where each field of a frame stands: the layouts of docs/FORMATS.md as numpy types.

Offsets count from the first byte of the payload, which is its letter. Numbers are big-endian.
"""

from __future__ import annotations

import numpy

U1, U2, U4, U8, I8 = "u1", ">u2", ">u4", ">u8", ">i8"


def layout(size: int, **fields: tuple[int, str]) -> numpy.dtype:
    """A numpy type of `size` bytes, with the offset and the kind of each named field."""
    return numpy.dtype({
        "names": list(fields),
        "formats": [kind for _, kind in fields.values()],
        "offsets": [offset for offset, _ in fields.values()],
        "itemsize": size,
    })


# ---------------------------------------------------------------- the bundle's own frames

HEADER = layout(9, version=(1, U2), agents=(3, U2), stocks=(5, U2), branches=(7, U2))
BRANCH = layout(10, branch=(1, U2), parent=(3, U2), stop=(5, U4), name_size=(9, U1))
EVENT = layout(
    43, number=(1, U4), time=(5, U8), message=(13, U8), sender=(21, U2), receiver=(23, U2), delivery=(25, U1),
    busy_until=(26, U8), fee=(34, I8), body=(42, U1))
EDIT = layout(18, event=(1, U4), time=(5, U8), branch=(13, U2), index=(15, U2), letter=(17, U1))
COUNTS = layout(
    66, end=(1, U1), events=(2, U4), time=(6, U8), next_message=(14, U8), waiting=(22, U4), dropped=(26, U8),
    ignored_enters=(34, U8), ignored_cancels=(42, U8), orders=(50, U8), matches=(58, U8))
# A signed number of 16 bytes is the upper half (signed) times 2^64 and the lower half.
STOCK = layout(
    44, stock=(1, U2), state=(3, U1), last=(4, U4), matched=(8, U8), fees_upper=(16, I8), fees_lower=(24, U8),
    offset=(32, I8), live=(40, U4))
LIVE_ORDER = layout(
    44, reference=(1, U8), agent=(9, U2), token=(11, "V14"), side=(25, U1), intended=(26, U4), open=(30, U4),
    stock=(34, U2), price=(36, U4), time_in_force=(40, U4))
AGENT = layout(
    70, agent=(1, U2), silenced=(3, U1), own_time=(4, U8), tokens=(12, U4), draws=(16, U8), cash_upper=(24, I8),
    cash_lower=(32, U8), own_cash_upper=(40, I8), own_cash_lower=(48, U8), own_position=(56, I8), orders=(64, U2),
    quotes=(66, U4))
WAITING = layout(22, time=(1, U8), message=(9, U8), sender=(17, U2), receiver=(19, U2), body=(21, U1))
END = layout(3, count=(1, U2))

# Frames of a cross alone, and of a session alone.
CROSS_PART = layout(14, side=(1, U1), reference=(2, U8), shares=(10, U4))
CROSS_PRICE = layout(
    49, price=(1, U4), shares=(5, U8), to_buy=(13, U8), to_sell=(21, U8), cut=(29, U4), to_sell_below_cut=(33, U8),
    to_buy_above_cut=(41, U8))
VALUE = layout(17, value_upper=(1, I8), value_lower=(9, U8))

# ---------------------------------------------------------------- bodies of messages: a question, a quote, OUCH 4.2

QUESTION = layout(2, stock=(0, U2))
QUOTE = layout(
    31, stock=(0, U2), state=(2, U1), bid=(3, U4), bid_shares=(7, U8), ask=(15, U4), ask_shares=(19, U8), last=(27, U4))
ENTER = layout(
    49, token=(1, "V14"), side=(15, U1), shares=(16, U4), symbol=(20, U8), price=(28, U4), time_in_force=(32, U4))
CANCEL = layout(19, token=(1, "V14"), shares=(15, U4))
ACCEPTED = layout(
    66, handled=(1, U8), token=(9, "V14"), side=(23, U1), shares=(24, U4), symbol=(28, U8), price=(36, U4),
    time_in_force=(40, U4), reference=(49, U8))
CANCELED = layout(28, handled=(1, U8), token=(9, "V14"), shares=(23, U4), reason=(27, U1))
EXECUTED = layout(
    40, handled=(1, U8), token=(9, "V14"), shares=(23, U4), price=(27, U4), flag=(31, U1), match=(32, U8))
REJECTED = layout(24, handled=(1, U8), token=(9, "V14"), reason=(23, U1))
SYSTEM_REPLY = layout(10, handled=(1, U8), reason=(9, U1))

# The size of a body names it: no two kinds of body are of one size. (letter of the body, letter of the message)
BODIES = {
    0: ("w", ""), 2: ("a", ""), 31: ("q", ""), 49: ("i", "O"), 19: ("i", "X"),
    10: ("o", "S"), 66: ("o", "A"), 28: ("o", "C"), 40: ("o", "E"), 24: ("o", "J"),
}

# ---------------------------------------------------------------- the feed: TotalView-ITCH 5.0

FEED_HEAD = layout(11, kind=(0, U1), locate=(1, U2), time_upper=(5, U2), time_lower=(7, U4))
FEED_SYSTEM = layout(12, code=(11, U1))
FEED_DIRECTORY = layout(39, symbol=(11, U8))
FEED_TRADING = layout(25, symbol=(11, U8), state=(19, U1))
FEED_ADD = layout(36, reference=(11, U8), side=(19, U1), shares=(20, U4), symbol=(24, U8), price=(32, U4))
FEED_EXECUTED = layout(31, reference=(11, U8), shares=(19, U4), match=(23, U8))
FEED_CANCEL = layout(23, reference=(11, U8), shares=(19, U4))
FEED_DELETE = layout(19, reference=(11, U8))
FEED_TRADE = layout(
    44, reference=(11, U8), side=(19, U1), shares=(20, U4), symbol=(24, U8), price=(32, U4), match=(36, U8))
FEED_CROSS = layout(40, shares=(11, U8), symbol=(19, U8), price=(27, U4), match=(31, U8))

FEED = {
    "S": FEED_SYSTEM, "R": FEED_DIRECTORY, "H": FEED_TRADING, "A": FEED_ADD, "E": FEED_EXECUTED, "X": FEED_CANCEL,
    "D": FEED_DELETE, "P": FEED_TRADE, "Q": FEED_CROSS,
}
