"""A plain reader of bundles, one frame after another with the standard library alone, to compare the package with.

It follows docs/FORMATS.md and shares nothing with the package.
"""

ALNUM = frozenset(b"0123456789ABCDEFGHIJKLMNOPQRSTUVWXYZabcdefghijklmnopqrstuvwxyz")
VISIBLE = frozenset(range(0x21, 0x7F))
LETTER = frozenset(range(0x20, 0x7F))
OUCH = {
    b"O": (49, [("token", 1, 14), ("side", 15, 1), ("text", 20, 8), ("letters", 36, 4), ("letters", 40, 1),
                ("letters", 41, 1), ("letters", 42, 1), ("letters", 47, 1), ("letters", 48, 1)]),
    b"X": (19, [("token", 1, 14)]),
    b"S": (10, [("letters", 9, 1)]),
    b"A": (66, [("token", 9, 14), ("side", 23, 1), ("text", 28, 8), ("letters", 44, 4), ("letters", 48, 1),
                ("letters", 57, 1), ("letters", 58, 1), ("letters", 63, 1), ("LD", 64, 1)]),
    b"C": (28, [("token", 9, 14), ("letters", 27, 1)]),
    b"E": (40, [("token", 9, 14), ("letters", 31, 1)]),
    b"J": (24, [("token", 9, 14), ("letters", 23, 1)]),
}
ITCH = {
    b"S": (12, [("letters", 11, 1)]),
    b"R": (39, [("text", 11, 8), ("letters", 19, 2), ("letters", 25, 9), ("letters", 38, 1)]),
    b"H": (25, [("text", 11, 8), ("HPQT", 19, 1), ("letters", 20, 5)]),
    b"A": (36, [("side", 19, 1), ("text", 24, 8)]),
    b"E": (31, []),
    b"X": (23, []),
    b"D": (19, []),
    b"P": (44, [("side", 19, 1), ("text", 24, 8)]),
    b"Q": (40, [("text", 19, 8), ("letters", 39, 1)]),
}


class Fault(Exception):
    """Bytes are no bundle: where, and which of "cut", "bad frame" and "bad order"."""

    def __init__(self, offset, cause):
        super().__init__(offset, cause)
        self.offset, self.cause = offset, cause


def number(payload, at, size, signed=False):
    return int.from_bytes(payload[at:at + size], "big", signed=signed)


def field_is_right(kind, field):
    if kind == "letters":
        return all(byte in LETTER for byte in field)
    if kind in ("token", "text"):
        inner = field.rstrip(b" ")
        return len(inner) > 0 and all(byte in (ALNUM if kind == "token" else VISIBLE) for byte in inner)
    return chr(field[0]) in {"side": "BS"}.get(kind, kind)


def message_is_right(table, message):
    size, fields = table.get(message[:1], (0, []))
    return len(message) == size and all(field_is_right(kind, message[at:at + n]) for kind, at, n in fields)


def body_is_right(kind, body):
    if kind == b"w":
        return body == b""
    if kind == b"a":
        return len(body) == 2
    if kind == b"q":
        return len(body) == 31
    if kind == b"i":
        return body[:1] in (b"O", b"X") and message_is_right(OUCH, body)
    return kind == b"o" and body[:1] in (b"S", b"A", b"C", b"E", b"J") and message_is_right(OUCH, body)


def frame_is_right(payload, stocks):
    kind, size = payload[:1], len(payload)
    if b"A" <= kind <= b"Z":
        return message_is_right(ITCH, payload)
    if kind == b"h":
        return size == 9 and number(payload, 1, 2) == 1
    if kind == b"b":
        return size >= 10 and 1 <= payload[9] <= 32 and size == 10 + payload[9]
    if kind == b"e":
        return size >= 43 and payload[25:26] in (b"D", b"P") and body_is_right(payload[42:43], payload[43:])
    if kind == b"w":
        return size >= 22 and body_is_right(payload[21:22], payload[22:])
    if kind in (b"l", b"n"):
        return size == 44 and payload[25:26] in (b"B", b"S")
    if kind == b"a":
        return (size >= 70 and (size - 70) % 8 == 0 and payload[3:4] in (b"Y", b"N")
                and stocks in (None, (size - 70) // 8))
    return kind in (b"d", b"c", b"s", b"z") and size == {b"d": 18, b"c": 66, b"s": 44, b"z": 3}[kind]


class Reader:
    """Asks a file for one frame after another."""

    def __init__(self, data):
        self.data, self.at, self.stocks = data, 0, None
        self.first = 0      # offset of the frame that was read last

    def next(self):
        left = self.data[self.at:]  if len(self.data) - self.at < 2 else None
        size = 0 if left is not None else number(self.data, self.at, 2)
        payload = self.data[self.at + 2:self.at + 2 + size]
        if left is not None or len(payload) < size:
            raise Fault(self.at, "cut")
        self.first, self.at = self.at, self.at + 2 + size
        if not frame_is_right(payload, self.stocks):
            raise Fault(self.first, "bad frame")
        return payload

    def refuse(self):
        raise Fault(self.first, "bad order")

    def ask(self, kind):
        payload = self.next()
        if payload[:1] != kind:
            self.refuse()
        return payload


class PlainBranch:
    """One branch: its `b` frame, opening, entries, System Event, `c`, `s`, `l` and `n`, and `a` frames, all as bytes.

    entries: a list of (frame, feed before it, feed behind it), of events and edits.
    """


def read_plain(data):
    """(agents, stocks, branches) of a bundle, or Fault."""
    reader = Reader(data)
    header = reader.ask(b"h")
    agents, stocks, count = number(header, 3, 2), number(header, 5, 2), number(header, 7, 2)
    reader.stocks = stocks
    branches = []
    for index in range(count):
        branch = PlainBranch()
        branch.head = reader.ask(b"b")
        if number(branch.head, 1, 2) != index:
            reader.refuse()
        branch.opening = [reader.ask(kind) for kind in [b"S"] + [b"R"] * stocks + [b"H"] * stocks]
        read_entries(reader, branch)
        branch.counts = reader.ask(b"c")
        branch.stocks = [numbered(reader, b"s", stock) for stock in range(stocks)]
        branch.orders, branch.agents = [], []
        while reader.data[reader.at + 2:reader.at + 3] in (b"l", b"n"):
            branch.orders.append(reader.ask(reader.data[reader.at + 2:reader.at + 3]))
        branch.agents = [numbered(reader, b"a", agent) for agent in range(agents)]
        branches.append(branch)
    if number(reader.ask(b"z"), 1, 2) != count:
        reader.refuse()
    if reader.at < len(data):
        raise Fault(reader.at, "bad order")
    return agents, stocks, branches


def numbered(reader, kind, index):
    payload = reader.ask(kind)
    if number(payload, 1, 2) != index:
        reader.refuse()
    return payload


def read_entries(reader, branch):
    branch.entries, waiting, owner, fresh = [], [], None, False
    while True:
        payload = reader.next()
        kind = payload[:1]
        if waiting and kind not in (b"H", b"e"):
            reader.refuse()
        if kind == b"e":
            owner, fresh, waiting = (payload, waiting, []), False, []
            branch.entries.append(owner)
        elif kind == b"d":
            owner, fresh = (payload, [], []), True
            branch.entries.append(owner)
        elif kind == b"H":
            of_edit = fresh and owner[0][17:18] in (b"h", b"r") and number(owner[0], 5, 8) == number(payload, 5, 6)
            if of_edit:
                owner[2].append(payload)
            else:
                waiting.append(payload)
                owner = None
            fresh = False
        elif kind in (b"A", b"E", b"X", b"D", b"P") and owner is not None and owner[0][:1] == b"e":
            owner[2].append(payload)
        elif kind == b"S":
            branch.end = payload
            return
        else:
            reader.refuse()


def split_frames(data):
    """The payloads of a file of frames, whatever they are."""
    payloads, at = [], 0
    while at < len(data):
        size = number(data, at, 2)
        assert at + 2 + size <= len(data)
        payloads.append(data[at + 2:at + 2 + size])
        at += 2 + size
    return payloads


# ---------------------------------------------------------------- rows as the data frames should have them

def text(field):
    return field.decode("latin1").rstrip(" ")


def event_row(e):
    kinds = {b"w": "wakeup", b"i": "order", b"o": "reply", b"a": "question", b"q": "quote"}
    return (number(e, 1, 4), number(e, 5, 8), number(e, 13, 8), number(e, 21, 2), number(e, 23, 2), kinds[e[42:43]],
            e[25:26] == b"P", number(e, 26, 8), number(e, 34, 8, signed=True))


def order_row(e):
    """event, time, agent, kind, token, side, shares, symbol, price, time in force"""
    m = e[43:]
    head = (number(e, 1, 4), number(e, 5, 8), number(e, 21, 2))
    if m[:1] == b"O":
        return (*head, "enter", text(m[1:15]), chr(m[15]), number(m, 16, 4), text(m[20:28]), number(m, 28, 4),
                number(m, 32, 4))
    return (*head, "cancel", text(m[1:15]), "", number(m, 15, 4), "", 0, 0)


def reply_row(e):
    """event, time, agent, kind, handled, token, side, shares, symbol, price, reference, match, flag, reason"""
    m = e[43:]
    head = (number(e, 1, 4), number(e, 5, 8), number(e, 23, 2))
    handled, token, kind = number(m, 1, 8), text(m[9:23]), m[:1]
    if kind == b"A":
        return (*head, "accepted", handled, token, chr(m[23]), number(m, 24, 4), text(m[28:36]), number(m, 36, 4),
                number(m, 49, 8), 0, "", "")
    if kind == b"E":
        return (*head, "executed", handled, token, "", number(m, 23, 4), "", number(m, 27, 4), 0, number(m, 32, 8),
                chr(m[31]), "")
    if kind == b"C":
        return (*head, "canceled", handled, token, "", number(m, 23, 4), "", 0, 0, 0, "", chr(m[27]))
    assert kind == b"J"
    return (*head, "rejected", handled, token, "", 0, "", 0, 0, 0, "", chr(m[23]))


def quote_row(e):
    """event, time, agent, stock, state, bid, bid shares, ask, ask shares, last"""
    m = e[43:]
    return (number(e, 1, 4), number(e, 5, 8), number(e, 23, 2), number(m, 0, 2), chr(m[2]), number(m, 3, 4),
            number(m, 7, 8), number(m, 15, 4), number(m, 19, 8), number(m, 27, 4))


def feed_row(m):
    """time, kind, stock, reference, side, shares, price, match, state"""
    kind = m[:1]
    side = chr(m[19]) if kind in (b"A", b"P") else ""
    shares = number(m, 20, 4) if kind in (b"A", b"P") else number(m, 19, 4) if kind in (b"E", b"X") else 0
    price = number(m, 32, 4) if kind in (b"A", b"P") else 0
    match = number(m, 23, 8) if kind == b"E" else number(m, 36, 8) if kind == b"P" else 0
    reference = number(m, 11, 8) if kind in (b"A", b"E", b"X", b"D", b"P") else 0
    state = chr(m[19]) if kind == b"H" else chr(m[11]) if kind == b"S" else ""
    return number(m, 5, 6), kind.decode(), number(m, 1, 2) - 1, reference, side, shares, price, match, state
