"""Random small studies: every kind of trader, edit, dated change and value series, in markets that trade. Those of
version 2 have hidden orders, which version 1 rejects."""

import random

CLOSE_OF_DAY = 86_399_999_999_999
TOP_PRICE = 1_999_999_900
KINDS = ["noise", "value", "momentum", "maker", "watcher"]
SYMBOLS = ["ABM", "XYZ", "A", "EIGHTCHR", "a/b", "Q-1"]


def text_of(value):
    """A value in TOML."""
    if isinstance(value, bool):
        return str(value).lower()
    if isinstance(value, str):
        return f'"{value}"'
    if isinstance(value, list):
        return "[" + ", ".join(map(text_of, value)) + "]"
    if isinstance(value, dict):
        return "{ " + ", ".join(f"{key} = {text_of(item)}" for key, item in value.items()) + " }"
    return str(value)


def toml(study):
    """The text of a study, whose arrays of tables come last."""
    lines, tables = [], []
    for key, value in study.items():
        if isinstance(value, list) and value and all(isinstance(entry, dict) for entry in value):
            for entry in value:
                tables += ["", f"[[{key}]]"] + [f"{name} = {text_of(item)}" for name, item in entry.items()]
        else:
            lines.append(f"{key} = {text_of(value)}")
    return "\n".join(lines + tables) + "\n"


class Generator:
    """Makes the study of a seed."""

    def __init__(self, seed):
        self.random = random.Random(f"biqsolur {seed}")
        pick = self.random.choice
        self.seed = seed
        self.version = 2 if seed % 3 == 2 else 1
        self.pace = pick([1_000, 50_000, 20_000_000])           # about the time between two wakeups of a trader, ns
        self.events = self.random.randint(150, 600)
        self.open = pick([0, 5_000, 34_200_000_000_000])
        self.close = self.open + self.pace * pick([5, 20, 60, 500])
        self.groups = pick([1, 2, 3])
        self.symbols = self.random.sample(SYMBOLS, pick([1, 1, 2, 3]))
        self.price = pick([400, 100_000, 500_000, 1_500_000_000])
        self.tick = min(60_000, max(1, self.price // 2_000))
        self.tokens = []                                        # of injected orders

    def make(self):
        """(the study as a dict, the text of its series file or None)"""
        choose = self.random.choice
        stocks = [self.stock(symbol) for symbol in self.symbols]
        study = {
            "version": self.version, "key": self.random.randbytes(32).hex(), "open": self.open, "close": self.close,
            "events": self.events, "stride": 100,
        }
        rows = [stock["symbol"] for stock in stocks if stock["series"] == "rows"]
        if rows:
            study["series"] = f"series{self.seed}.csv"
        study["exchange"] = {"group": 0, "delay": choose([0, 0, 1, self.pace // 100])}
        study["latency"] = {"base": self.square(self.pace // 20), "jitter": self.square(self.pace // 40)}
        study["stock"] = stocks
        study["change"] = self.changes()
        kinds = ["maker", "noise", "value"] + [choose(KINDS) for _ in range(choose([1, 2, 4]))]
        study["agent"] = [self.agent(kind, self.symbols[place % len(self.symbols)]) for place, kind in enumerate(kinds)]
        self.traders = [entry["kind"] for entry in study["agent"] for _ in range(entry.get("count", 1))]
        study["branch"] = self.branches()
        return study, self.series(rows) if rows else None

    def square(self, most):
        return [[self.random.randint(0, most) for _ in range(self.groups)] for _ in range(self.groups)]

    def bands(self):
        tick = self.random.choice([1, self.tick, self.tick, 5 * self.tick])
        if self.random.random() < 0.7:
            return [[0, tick]]
        second = 3 * tick
        return [[0, tick], [(self.price // second + 1) * second, second]]

    def fee(self):
        return self.random.choice([0, -2_000, 3_000, self.random.randint(-1_000_000, 1_000_000)])

    def stock(self, symbol):
        stock = {"symbol": symbol, "bands": self.bands(), "add": self.fee(), "take": self.fee(), "series": "rows"}
        if self.random.random() < 0.7:
            stock.update(series="rule", start=self.price, mean=self.price + self.tick, pull=1_000,
                         shock=self.random.choice([0, self.tick, 3 * self.tick]),
                         every=max(1, (self.close - self.open) // 50))
        return stock

    def series(self, symbols):
        lines = ["symbol,time,value"]
        for step in range(5):
            for symbol in symbols:
                value = self.price + self.random.randint(-5, 5) * self.tick
                lines.append(f"{symbol},{self.open + step * self.pace * 3},{value}")
        return "\n".join(lines) + "\n"

    def change(self):
        change = {"stock": self.random.choice(self.symbols), "kind": self.random.choice(["tick", "fee", "halt", "resume"])}
        if change["kind"] == "tick":
            change["bands"] = self.bands()
        if change["kind"] == "fee":
            change.update(add=self.fee(), take=self.fee())
        return change

    def changes(self):
        count = self.random.choice([0, 0, 1, 3])
        times = sorted(min(self.close, self.open + self.random.randint(0, 10 * self.pace)) for _ in range(count))
        return [{"time": time, **self.change()} for time in times]

    def agent(self, kind, symbol):
        choose, between = self.random.choice, self.random.randint
        agent = {"kind": kind, "group": between(0, self.groups - 1), "stock": symbol,
                 "first": self.open + between(0, self.pace), "every": between(self.pace // 2, 2 * self.pace),
                 "wobble": choose([0, self.pace // 3]), "delay": choose([0, 0, 1, self.pace // 30]),
                 "cash": choose([0, 10**9, -7]), "count": choose([1, 2, 4]), "spread": choose([0, self.pace // 5])}
        if kind != "watcher":
            agent["size"] = choose([1, 100, 100, 999_999])
        if kind == "value":
            agent.update(noise=choose([0, 4 * self.tick]), margin=choose([0, 2 * self.tick]))
        if kind == "momentum":
            agent.update(short=1, long=choose([2, 3]))
        if kind == "maker":
            agent.update(half=choose([0, self.tick, 3 * self.tick]), step=self.tick, levels=choose([1, 2, 4]),
                         pause=choose([0, 3]))
        return agent

    def branches(self):
        branches, keys = [], {}
        for place in range(self.random.choice([0, 1, 2, 4])):
            parent = self.random.choice([None, *branches])
            name = parent["name"] if parent else "root"
            key = keys.setdefault(name, self.random.choice(["at", "when", "when"]) if self.version == 2 else "at")
            branches.append({
                "name": f"{self.random.choice(['b', '-', '_', 'wide'])}{place}", "parent": name,
                key: self.stop(key, parent or {"at": 0}),
                "edit": [self.edit() for _ in range(self.random.choice([0, 1, 3, 8]))] + self.part_cancel(place)
                + (self.hidden_orders(place) if self.version == 2 else []),
            })
        return branches

    def stop(self, key, parent):
        """An event number or a time, not below that of the parent."""
        least, most, step = {"at": (0, self.events, 40), "when": (self.open, self.close, 3 * self.pace)}[key]
        least = parent.get(key, least)
        return self.random.choice([least, self.random.randint(least, most), min(least + step, most)])

    def edit(self):
        choose, between = self.random.choice, self.random.randint
        kind = choose(["change", "change", "latency", "agent", "silence", "inject", "inject", "inject", "series"])
        trader = between(1, len(self.traders))
        if kind == "change":
            return self.change()
        if kind == "latency":
            return {"kind": kind, "from": between(0, self.groups - 1), "to": 0, "base": self.pace // 3, "jitter": 9}
        if kind == "agent":
            name = choose(["every", "wobble", "delay"] + (["size"] if self.traders[trader - 1] != "watcher" else []))
            return {"kind": kind, "agent": trader, "name": name, "value": between(1, 3 * self.pace) if name != "size" else 7}
        if kind == "silence":
            return {"kind": kind, "agent": trader}
        if kind == "series":
            return {"kind": kind, "stock": choose(self.symbols), "offset": between(-20, 20) * self.tick}
        return {"kind": kind, "agent": trader, "after": between(0, 3 * self.pace), "message": self.message(trader)}

    def part_cancel(self, place):
        """An order at the market or far below it, shown or hidden, and a cancel that leaves a part of it."""
        choose = self.random.choice
        trader, token = self.random.randint(1, len(self.traders)), (b"PART%d" % place).ljust(14)
        step = 15 * self.tick               # a multiple of each tick that holds below the market
        price = step * choose([1, max(1, self.price // step)])
        display = choose([b"Y", b"N"]) if self.version == 2 else b"Y"
        order = (b"O" + token + choose([b"B", b"B", b"S"]) + (900).to_bytes(4, "big") + choose(self.symbols).encode().ljust(8)
                 + price.to_bytes(4, "big") + (99_999).to_bytes(4, "big") + b"ABID" + display + b"PN" + bytes(4) + b"NN")
        cancel = b"X" + token + choose([400, 899]).to_bytes(4, "big")
        return [{"kind": "inject", "agent": trader, "after": after, "message": message.hex()}
                for after, message in ((0, order), (choose([0, self.pace // 2, 3 * self.pace]), cancel))]

    def hidden_orders(self, place):
        """Hidden orders on both sides of the market, which the traders meet, and a cancel that leaves a part of one."""
        choose = self.random.choice
        edits = []
        for number in range(5):
            trader, token = self.random.randint(1, len(self.traders)), (b"HIDE%d%d" % (place, number)).ljust(14)
            step = choose([1, 5, 15, 15]) * self.tick           # not each is a multiple of each tick that holds
            way = choose([-1, 1])
            price = max(1, (self.price // step + way * choose([0, 1, 1, 2])) * step)
            order = (b"O" + token + (b"B" if way < 0 else b"S") + choose([50, 50, 700]).to_bytes(4, "big")
                     + choose(self.symbols).encode().ljust(8) + price.to_bytes(4, "big") + (99_998).to_bytes(4, "big")
                     + b"ABIDNPN" + bytes(4) + b"NN")
            edits.append((trader, self.random.randint(0, self.pace), order))
        trader, after, order = choose(edits)
        edits.append((trader, after + choose([0, self.pace]), b"X" + order[1:15] + choose([20, 49]).to_bytes(4, "big")))
        return [{"kind": "inject", "agent": trader, "after": after, "message": message.hex()}
                for trader, after, message in edits]

    def message(self, trader):
        """An order or a cancel, some of which the exchange ignores or rejects."""
        choose = self.random.choice
        if self.tokens and self.random.random() < 0.3:
            return (b"X" + choose(self.tokens) + choose([0, 5, 40]).to_bytes(4, "big")).hex()
        token = choose([b"T%04d%09d" % (trader, self.random.randint(1, 5)), b"MINE%d" % self.random.randint(0, 99), b"z"])
        self.tokens.append(token.ljust(14))
        symbol = choose(self.symbols + ["NOSUCH"]).encode().ljust(8)
        price = max(1, self.price + self.random.randint(-6, 6) * self.tick)
        shares = choose([1, 50, 700, 999_999, 0])
        display = choose([b"Y", b"N" if self.version == 2 else b"Y", b"Y", b"N"])
        return (b"O" + self.tokens[-1] + choose([b"B", b"S"]) + shares.to_bytes(4, "big") + symbol
                + price.to_bytes(4, "big") + choose([0, 99_998, 99_999]).to_bytes(4, "big") + b"ABID" + display + b"PN"
                + bytes(4) + b"NN").hex()


def make_study(seed):
    """(the study of a seed as a dict, the text of its series file or None)"""
    return Generator(seed).make()


def steady_market(seconds: int) -> str:
    """A study without its agents: one stock around 50 dollars, from 9:30 on for so many seconds."""
    second = 1_000_000_000
    return f"""version = 1
key = "{5:064x}"
open = {34_200 * second}
close = {(34_200 + seconds) * second}
events = 60000
exchange = {{ group = 0, delay = 1000 }}
latency = {{ base = [[1000]], jitter = [[9000]] }}
[[stock]]
symbol = "ABM"
bands = [[0, 100]]
add = 0
take = 0
series = "rule"
start = 500000
mean = 500000
pull = 0
shock = 100
every = {second}
"""
