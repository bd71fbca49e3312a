"""The measures by plain loops over a plain reader's entries, to compare the package with. It shares nothing with it.

A moment is (event, time, trades?, bids, asks) of a stock: its book after all of an event, the levels best first.
"""

import math
from bisect import bisect_right
from statistics import fmean, median

import plain

NAN = math.nan


def average(values):
    known = [value for value in values if not math.isnan(value)]
    return fmean(known) if known else NAN


def weighted(pairs):
    """The mean of (value, weight) over those that are numbers and weigh."""
    known = [(value, weight) for value, weight in pairs if not math.isnan(value) and weight > 0]
    return sum(value * weight for value, weight in known) / sum(weight for _, weight in known) if known else NAN


def middle(values):
    return median(values) if values else NAN


class PlainTape:
    """The moments, trades, Enters, replies and quotes of a branch, gone through entry by entry."""

    def __init__(self, branch, symbols):
        self.symbols = symbols
        self.opening = plain.number(branch.opening[0], 5, 6)
        self.moments = [[] for _ in symbols]
        self.trading = [True] * len(symbols)
        self.resting = {}           # by reference, in the order of arrival: [stock, side, price, open, agent, entered]
        self.trades, self.entered, self.replies, self.quotes, self.rests, self.fills = [], [], [], [], [], []
        self.times, self.greatest = [], -1
        self.closing = {(plain.number(o, 9, 2), plain.text(o[11:25])): o for o in branch.orders}
        for entry, before, behind in branch.entries:
            for message in before:
                self.halt(message)
            if entry[:1] == b"e":
                self.event(entry, behind)
            else:
                for message in behind:
                    self.halt(message)

    def halt(self, message):
        stock = plain.number(message, 1, 2) - 1
        self.trading[stock] = message[19:20] == b"T"
        self.moment(stock, plain.number(message, 5, 6))

    def moment(self, stock, time):
        sides = {}
        for side, best_first in (("B", lambda price: -price), ("S", lambda price: price)):
            levels = {}
            for own, of, price, shares, *_ in self.resting.values():
                if (own, of) == (stock, side):
                    levels[price] = levels.get(price, 0) + shares
            sides[side] = [(price, levels[price]) for price in sorted(levels, key=best_first)]
        self.moments[stock].append((len(self.times), time, self.trading[stock], sides["B"], sides["S"]))

    def event(self, e, feed):
        number, time, message = plain.number(e, 1, 4), plain.number(e, 5, 8), plain.number(e, 13, 8)
        self.times.append(time)
        body, delivered = e[43:], e[25:26] == b"D"
        order = None
        if delivered:
            if len(body) == 49:
                order = self.enter(number, time, message, e)
            elif e[42:43] == b"o":
                self.replies.append(plain.reply_row(e))
            elif e[42:43] == b"q":
                self.quotes.append((number, time, plain.number(e, 23, 2), self.greatest))
            self.greatest = max(self.greatest, message)
            if self.quotes and self.quotes[-1][0] == number:
                self.quotes[-1] = (*self.quotes[-1][:3], self.greatest)
        for told in feed:
            self.book(number, time, told, order)
        for stock in {plain.number(told, 1, 2) - 1 for told in feed}:
            self.moment(stock, time)

    def enter(self, number, time, message, e):
        m = e[43:]
        symbol = plain.text(m[20:28])
        stock = self.symbols.index(symbol) if symbol in self.symbols else -1
        sides = self.moments[stock][-1][3:] if stock >= 0 and self.moments[stock] else ([], [])
        order = dict(event=number, time=time, message=message, agent=plain.number(e, 21, 2), token=plain.text(m[1:15]),
                     stock=stock, side=chr(m[15]), shares=plain.number(m, 16, 4), price=plain.number(m, 28, 4),
                     force=plain.number(m, 32, 4), hidden=m[40:41] == b"N", bid=sides[0][0][0] if sides[0] else 0,
                     ask=sides[1][0][0] if sides[1] else 0, on_entry=0, executed=0, canceled=0, open=0, ahead=-1,
                     first_fill=-1, end=-1, fate="unheard", shown=False, rested=0)
        self.entered.append(order)
        return order

    def book(self, event, time, m, order):
        kind, stock, reference = m[:1], plain.number(m, 1, 2) - 1, plain.number(m, 11, 8)
        if kind == b"A":
            side, price, shares = chr(m[19]), plain.number(m, 32, 4), plain.number(m, 20, 4)
            order.update(shown=True, rested=shares, open=shares, reference=reference, ahead=sum(
                other[3] for other in self.resting.values() if other[:3] == [stock, side, price]))
            self.resting[reference] = [stock, side, price, shares, order["agent"], order]
            return
        if kind == b"P":
            self.trade(event, time, stock, order, plain.number(m, 32, 4), plain.number(m, 20, 4), -1)
            return
        rest = self.resting[reference]
        shares = rest[3] if kind == b"D" else plain.number(m, 19, 4)
        rest[3] -= shares
        life = rest[5]
        life["open"] = rest[3]
        if kind == b"E":
            ahead = sum(other[3] for key, other in self.resting.items() if other[:3] == rest[:3] and key < reference)
            self.fills.append((event, reference, ahead))
            self.trade(event, time, stock, order, rest[2], shares, rest[4])
            life["executed"] += shares
            life["first_fill"] = time if life["first_fill"] < 0 else life["first_fill"]
        else:
            life["canceled"] += shares
        if rest[3] == 0:
            del self.resting[reference]
            life.update(fate="filled" if kind == b"E" else "canceled", end=time)

    def trade(self, event, time, stock, order, price, shares, resting):
        sign = 1 if order["side"] == "B" else -1
        self.trades.append((event, time, stock, sign, price, shares, order["agent"], resting))
        order["on_entry"] += shares
        order["executed"] += shares
        order["first_fill"] = time

    # ------------------------------------------------------------ questions

    def window(self, after):
        start = self.opening if after == 0 else self.times[after - 1]
        return start, self.times[-1] if self.times else self.opening

    def at(self, stock, time):
        """The last moment at or before a time; an empty book that trades before the first."""
        place = bisect_right([moment[1] for moment in self.moments[stock]], time)
        return self.moments[stock][place - 1] if place else (0, 0, True, [], [])

    def before(self, stock, event):
        place = bisect_right([moment[0] for moment in self.moments[stock]], event - 1)
        return self.moments[stock][place - 1] if place else (0, 0, True, [], [])

    def spans(self, stock, after):
        """(bids, asks, for how long) of the window's times in which the stock trades."""
        start, end = self.window(after)
        times = sorted({start, end, *(moment[1] for moment in self.moments[stock] if start <= moment[1] <= end)})
        found = []
        for one, next_one in zip(times, times[1:]):
            _, _, trading, bids, asks = self.at(stock, one)
            if trading:
                found.append((bids, asks, next_one - one))
        return found

    def own_trades(self, stock, after):
        return [trade for trade in self.trades if trade[2] == stock and trade[0] > after]


def mid_of(bids, asks):
    return (bids[0][0] + asks[0][0]) / 2 if bids and asks else NAN


def spread_of(moment):
    return moment[4][0][0] - moment[3][0][0] if moment[3] and moment[4] else math.inf


def spreads(tape, stock, after, horizon):
    """(effective, realised, impact, shares, mid) of each trade."""
    end, found = tape.window(0)[1], []
    for event, time, _, sign, price, shares, _, _ in tape.own_trades(stock, after):
        mid = mid_of(*tape.before(stock, event)[3:])
        later = mid_of(*tape.at(stock, time + horizon)[3:]) if time + horizon <= end else NAN
        found.append((2 * sign * (price - mid), 2 * sign * (price - later), 2 * sign * (later - mid), shares, mid))
    return found


def quoted_spread(tape, stock, after, **_):
    spans = tape.spans(stock, after)
    both = [(asks[0][0] - bids[0][0], mid_of(bids, asks), held) for bids, asks, held in spans if bids and asks]
    total = sum(held for _, _, held in spans)
    return {"quoted_spread": weighted([(spread, held) for spread, _, held in both]),
            "quoted_spread_bps": weighted([(10_000 * spread / mid, held) for spread, mid, held in both]),
            "two_sided": sum(held for _, _, held in both) / total if total else NAN}


def effective_spread(tape, stock, after, **_):
    found = spreads(tape, stock, after, 0)
    return {"effective_spread": average([row[0] for row in found]),
            "effective_spread_by_shares": weighted([(row[0], row[3]) for row in found]),
            "effective_spread_bps": average([10_000 * row[0] / row[4] for row in found])}


def realised_spread(tape, stock, after, horizon, **_):
    found = spreads(tape, stock, after, horizon)
    return {"realised_spread": average([row[1] for row in found]),
            "realised_spread_by_shares": weighted([(row[1], row[3]) for row in found])}


def price_impact(tape, stock, after, horizon, **_):
    found = spreads(tape, stock, after, horizon)
    return {"price_impact": average([row[2] for row in found]),
            "price_impact_by_shares": weighted([(row[2], row[3]) for row in found])}


def displayed_depth(tape, stock, after, levels, **_):
    spans = tape.spans(stock, after)
    bid = weighted([(float(sum(shares for _, shares in bids[:levels])), held) for bids, _, held in spans])
    ask = weighted([(float(sum(shares for _, shares in asks[:levels])), held) for _, asks, held in spans])
    return {"bid_depth": bid, "ask_depth": ask, "depth": bid + ask}


def imbalance(tape, stock, after, levels, **_):
    found = []
    for bids, asks, held in tape.spans(stock, after):
        bought, sold = (sum(shares for _, shares in side[:levels]) for side in (bids, asks))
        if bought + sold:
            found.append(((bought - sold) / (bought + sold), held))
    return {"imbalance": weighted(found), "imbalance_absolute": weighted([(abs(value), held) for value, held in found])}


def grid(tape, after, interval):
    start, end = tape.window(after)
    return list(range(start, end + 1, interval))


def line(pairs):
    """Slope and R squared by the normal equations."""
    pairs = [(x, y) for x, y in pairs if not math.isnan(x + y)]
    if len({x for x, _ in pairs}) < 2:
        return NAN, NAN
    x0, y0 = fmean(x for x, _ in pairs), fmean(y for _, y in pairs)
    xy = math.fsum((x - x0) * (y - y0) for x, y in pairs)
    xx, yy = math.fsum((x - x0) ** 2 for x, _ in pairs), math.fsum((y - y0) ** 2 for _, y in pairs)
    return xy / xx, xy * xy / (xx * yy) if yy > 0 else NAN


def order_flow_imbalance(tape, stock, after, interval, **_):
    changes, last = [], (0, 0, math.inf, 0)
    for _, time, _, bids, asks in tape.moments[stock]:
        now = (*(bids[0] if bids else (0, 0)), *(asks[0] if asks else (math.inf, 0)))
        (b, q, a, r), (b0, q0, a0, r0) = now, last
        e = (q if b >= b0 else 0) - (q0 if b <= b0 else 0) - (r if a <= a0 else 0) + (r0 if a >= a0 else 0)
        changes.append((time, e))
        last = now
    pairs, points = [], grid(tape, after, interval)
    for one, two in zip(points, points[1:]):
        moves = mid_of(*tape.at(stock, two)[3:]) - mid_of(*tape.at(stock, one)[3:])
        pairs.append((float(sum(e for time, e in changes if one < time <= two)), moves))
    return dict(zip(("order_flow_slope", "order_flow_r2"), line(pairs)))


def resiliency(tape, stock, after, horizon, **_):
    end, counted, waits = tape.window(0)[1], [], []
    for event, time in dict.fromkeys((trade[0], trade[1]) for trade in tape.own_trades(stock, after)):
        old = spread_of(tape.before(stock, event))
        later = [moment for moment in tape.moments[stock] if moment[0] >= event]
        while len(later) > 1 and later[1][0] == event:
            later.pop(0)            # of the event's own moments the last one holds
        if math.isinf(old) or spread_of(later[0]) <= old:
            continue
        back = [moment[1] - time for moment in later[1:] if spread_of(moment) <= old][:1]
        waits += back
        if back and back[0] <= horizon:
            counted.append(1.0)
        elif time + horizon <= end:
            counted.append(0.0)
    return {"resiliency": average(counted), "recovery_time": middle(waits)}


def returns(tape, stock, after, interval):
    mids = [mid_of(*tape.at(stock, point)[3:]) for point in grid(tape, after, interval)]
    return [math.log(two) - math.log(one) for one, two in zip(mids, mids[1:])]


def realised_variance(tape, stock, after, interval, **_):
    known = [value for value in returns(tape, stock, after, interval) if not math.isnan(value)]
    variance = math.fsum(value * value for value in known) if known else NAN
    return {"realised_variance": variance, "realised_volatility_bps": 10_000 * math.sqrt(variance)}


def self_correlation(values, lag=1):
    centre = average(values)
    pairs = [(one - centre) * (two - centre) for one, two in zip(values, values[lag:]) if not math.isnan(one + two)]
    square = math.fsum((value - centre) ** 2 for value in values if not math.isnan(value))
    return math.fsum(pairs) / square if pairs and square > 0 else NAN


def autocorrelation(tape, stock, after, interval, lag, **_):
    values = returns(tape, stock, after, interval)
    return {"autocorrelation_returns": self_correlation(values, lag),
            "autocorrelation_absolute": self_correlation([abs(value) for value in values], lag),
            "autocorrelation_signs": self_correlation([float(trade[3]) for trade in tape.own_trades(stock, after)], lag)}


def roll_spread(tape, stock, after, **_):
    prices = [trade[4] for trade in tape.own_trades(stock, after)]
    changes = [two - one for one, two in zip(prices, prices[1:])]
    now, last = changes[1:], changes[:-1]
    if len(now) < 2:
        return {"roll_spread": NAN}
    covariance = fmean((x - fmean(now)) * (y - fmean(last)) for x, y in zip(now, last))
    return {"roll_spread": 2 * math.sqrt(-covariance) if covariance <= 0 else NAN}


def flows(tape, stock, after, interval):
    """(signed shares, dollars, move, part) of each interval, without its start and with its end."""
    points, found = grid(tape, after, interval), []
    for one, two in zip(points, points[1:]):
        inside = [trade for trade in tape.own_trades(stock, after) if one < trade[1] <= two]
        before, behind = (mid_of(*tape.at(stock, point)[3:]) for point in (one, two))
        found.append((sum(trade[3] * trade[5] for trade in inside),
                      sum(trade[4] * trade[5] for trade in inside) / 10_000,
                      behind - before, (behind - before) / before))
    return found


def kyle_lambda(tape, stock, after, interval, **_):
    pairs = [(float(x), y) for x, _, y, _ in flows(tape, stock, after, interval)]
    return dict(zip(("kyle_lambda", "kyle_r2"), line(pairs)))


def amihud(tape, stock, after, interval, **_):
    return {"amihud": 1e6 * average([abs(part) / dollars for _, dollars, _, part in flows(tape, stock, after, interval)
                                     if dollars > 0])}


# ---------------------------------------------------------------- orders

def lives(tape):
    """The orders with their fates: what the feed tells is there; here come the replies and the closing."""
    by_pair, found = {}, []
    for order in tape.entered:
        pair = (order["agent"], order["token"])
        if pair in by_pair:
            order.update(fate="ignored")
        by_pair.setdefault(pair, order)
        found.append(order)
    heard = {}
    for event, time, agent, kind, handled, token, _, shares, _, _, _, _, flag, reason in tape.replies:
        heard.setdefault((agent, token), []).append((kind, handled, shares, flag, reason, time))
    for pair, order in by_pair.items():
        finish(order, heard.get(pair, []), tape.closing.get(pair))
    return found


def finish(order, replies, rest):
    """One order that the feed does not show, or not to its end."""
    kinds = [reply[0] for reply in replies]
    order["told"] = min((reply[5] for reply in replies if reply[0] == "executed"), default=-1)
    if order["first_fill"] < 0 and not order["shown"]:
        order["first_fill"] = min((r[1] for r in replies if r[0] == "executed" and r[3] == "A"), default=-1)
    if "rejected" in kinds:
        order.update(fate="rejected", end=order["time"])
    elif order["shown"]:
        order["fate"] = "open" if order["open"] else order["fate"]
    elif order["on_entry"] or "accepted" in kinds or rest is not None:
        finish_hidden(order, replies, rest)


def finish_hidden(order, replies, rest):
    """One that was accepted, and never displayed."""
    if order["on_entry"] == order["shares"]:
        order.update(fate="filled", end=order["time"])
    elif order["force"] == 0:
        order.update(fate="canceled", end=order["time"], canceled=order["shares"] - order["on_entry"])
    else:
        order["rested"] = order["shares"] - order["on_entry"]
        fills = [(r[1], r[2]) for r in replies if r[0] == "executed" and r[3] == "A"]
        cancels = [(r[1], r[2]) for r in replies if r[0] == "canceled"]
        order["executed"] += sum(shares for _, shares in fills)
        order["canceled"] += sum(shares for _, shares in cancels)
        if rest is not None:
            intended, left = plain.number(rest, 26, 4), plain.number(rest, 30, 4)
            order.update(fate="open", open=left, canceled=order["shares"] - intended, executed=intended - left)
        elif order["executed"] + order["canceled"] == order["shares"]:
            last_fill, last_cancel = (max((time for time, _ in told), default=-1) for told in (fills, cancels))
            order.update(fate="canceled" if last_cancel > last_fill else "filled", end=max(last_fill, last_cancel))


def distance(order):
    best = order["bid"] if order["side"] == "B" else order["ask"]
    if best == 0:
        return NAN
    return float(best - order["price"] if order["side"] == "B" else order["price"] - best)


def place(order):
    behind = distance(order)
    return -1 if math.isnan(behind) or behind < 0 else 1 if behind > 0 else 0


def of_stock(found, stock, after):
    return [order for order in found if order["stock"] == stock and order["event"] > after]


def order_fates(tape, stock, after, found, **_):
    own = of_stock(found, stock, after)
    names = ("filled", "canceled", "rejected", "open", "ignored", "unheard")
    return {"orders": len(own)} | {f"orders_{name}": sum(order["fate"] == name for order in own) for name in names}


def order_lifetime(tape, stock, after, found, **_):
    lengths = [order["end"] - order["time"] for order in of_stock(found, stock, after)
               if order["rested"] and order["end"] >= 0]
    return {"order_lifetime": fmean(lengths) if lengths else NAN, "order_lifetime_median": middle(lengths)}


def cancel_ratio(tape, stock, after, found, **_):
    own, trades = of_stock(found, stock, after), len(tape.own_trades(stock, after))
    taken = [order for order in own if order["fate"] in ("filled", "canceled", "open")]
    return {"cancel_ratio": sum(order["fate"] == "canceled" for order in taken) / len(taken) if taken else NAN,
            "orders_per_trade": len(own) / trades if trades else NAN}


PLACES = {"": (-1, 0, 1), "_improving": (-1,), "_at_touch": (0,), "_behind": (1,)}


def fill_probability(tape, stock, after, found, **_):
    rests = [order for order in of_stock(found, stock, after) if order["rested"]]
    return {f"fill_probability{name}": average([float(order["executed"] > order["on_entry"]) for order in rests
                                                if place(order) in places]) for name, places in PLACES.items()}


def time_to_fill(tape, stock, after, found, **_):
    filled = [order for order in of_stock(found, stock, after)
              if order["rested"] and order["on_entry"] == 0 and order["executed"]]
    waits = [(place(order), order["first_fill"] - order["time"]) for order in filled]
    return {f"time_to_fill{name}": middle([wait for where, wait in waits if where in places])
            for name, places in PLACES.items()}


def queue_at_entry(tape, stock, after, found, **_):
    shown = [order for order in of_stock(found, stock, after) if order["shown"]]
    return {"queue_at_entry": average([float(order["ahead"]) for order in shown]),
            "queue_at_touch": average([float(order["ahead"]) for order in shown if place(order) == 0])}


def reaction_latency(tape, stock, after, found, **_):
    answers, fills, told = [], [], []
    for order in of_stock(found, stock, after):
        quotes = [time for event, time, agent, greatest in tape.quotes
                  if agent == order["agent"] and event < order["event"] and greatest < order["message"]]
        answers += [order["time"] - quotes[-1]] if quotes else []
        if order["first_fill"] >= 0:
            fills.append(order["first_fill"] - order["time"])
            told += [order["told"] - order["first_fill"]] if order.get("told", -1) >= 0 else []
    return {"quote_to_order": middle(answers), "order_to_fill": middle(fills), "fill_to_report": middle(told)}
